#!/usr/bin/env python3
"""How many primes are below 10,000, and which: a bit for each number, the first one of a word leftmost."""

prime = [n > 1 and all(n % d for d in range(2, int(n ** 0.5) + 1)) for n in range(10_000)]
prime += [False] * (157 * 64 - len(prime))
print(f'PRT {sum(prime)} PRIMES BELOW 10,000')
for word in range(157):
    bits = int(''.join('01'[bit] for bit in prime[64 * word:64 * word + 64]), 2)
    if bits:
        print(f'MEM {200 + word} {bits:016X}')

#!/usr/bin/env python3
"""What the printer has to show: the first 500 primes, ten on a line, each at the right of six places."""

primes = [n for n in range(2, 4000) if all(n % d for d in range(2, int(n ** 0.5) + 1))][:500]
for at in range(0, 500, 10):
    print('PRT ' + ''.join(f'{n:6}' for n in primes[at:at + 10]))

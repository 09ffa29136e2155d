#!/usr/bin/env python3
"""What two programs leave that share the machine: B stores squares until it meets the end of its storage, and A adds up to 300."""

print('PRT B       WAS STOPPED')
print('PRT A       IS DONE')
for number in range(1, 39):
    print(f'MEM {361 + number} {number * number:016X}')
print(f'MEM 480 {sum(range(1, 301)):016X}')

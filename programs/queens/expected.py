#!/usr/bin/env python3
"""All ways to put eight queens on a board so that none attacks another, row by row, and how many there are."""
from itertools import permutations

ways = [way for way in permutations(range(8))
        if len({row + column for row, column in enumerate(way)}) == len({row - column for row, column in enumerate(way)}) == 8]
for way in ways:
    print('PRT ' + ''.join(f'{column + 1:<4}' for column in way))
print(f'MEM 200 {len(ways):016X}')

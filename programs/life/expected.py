#!/usr/bin/env python3
"""Conway's Life on a torus of 64 by 64 cells: the first generation, and the thirty-first."""

SIZE = 64
WORDS = {2: 0x0400000000000000, 3: 0x0200000000000000, 4: 0x0E00000000000000,
         30: 0x0000000180000000, 31: 0x0000000300000000, 32: 0x0000000100000000, 50: 0x00000000001FF800}


def show(alive):
    for row in range(SIZE):
        print('PRT ' + ''.join('.*'[(row, column) in alive] for column in range(SIZE)))


def next_generation(alive):
    near = {}
    for row, column in alive:
        for down in (-1, 0, 1):
            for right in (-1, 0, 1):
                if down or right:
                    cell = (row + down) % SIZE, (column + right) % SIZE
                    near[cell] = near.get(cell, 0) + 1
    return {cell for cell, count in near.items() if count == 3 or count == 2 and cell in alive}


world = {(row, column) for row, word in WORDS.items() for column in range(SIZE) if word >> (63 - column) & 1}
show(world)
for _ in range(30):
    world = next_generation(world)
show(world)

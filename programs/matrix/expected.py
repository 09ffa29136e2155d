#!/usr/bin/env python3
"""The product of two matrices that the task gives by rules, as words from 388 on."""

size = range(12)
first = [[(7 * i + 11 * j + 5) % 97 for j in size] for i in size]
second = [[(13 * i + 3 * j * j + 1) % 89 for j in size] for i in size]
for i in size:
    for j in size:
        print(f'MEM {388 + 12 * i + j} {sum(first[i][k] * second[k][j] for k in size):016X}')

#!/usr/bin/env python3
"""The moves of five disks from peg A to peg C."""


def move(disks, source, target, other):
    if disks:
        move(disks - 1, source, other, target)
        print(f'PRT MOVE DISK {disks} FROM {source} TO {target}')
        move(disks - 1, other, target, source)


move(5, 'A', 'C', 'B')

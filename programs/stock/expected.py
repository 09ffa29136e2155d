#!/usr/bin/env python3
"""What is in stock and the latest movement: first of three blocks of movements, then with a fourth behind the first."""

IN, OUT, COUNTED = range(3)
ONE = [(60, 12, 500, IN), (60, 40, 120, OUT), (60, 41, 35, OUT)]
TWO = [(61, 5, 600, OUT), (61, 9, 75, IN)]
THREE = [(61, 200, 18, OUT), (61, 201, 61, COUNTED), (61, 118, 4, IN), (60, 366, 9, OUT)]
FOUR = [(60, 77, 1000, IN), (61, 250, 33, OUT)]
for chain in (ONE + TWO + THREE, ONE + FOUR + TWO + THREE):
    stock, latest = 0, (0, 0)
    for year, day, quantity, what in chain:
        stock = {IN: stock + quantity, OUT: max(0, stock - quantity), COUNTED: quantity}[what]
        latest = max(latest, (year, day))
    print(f'PRT STOCK IS{stock:05}    LATEST  {latest[0]:02} {latest[1]:03}')

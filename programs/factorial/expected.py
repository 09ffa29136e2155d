#!/usr/bin/env python3
"""100 factorial, in three lines of sixty digits, with blanks in front."""
import math

digits = f'{math.factorial(100):180}'
for at in range(0, 180, 60):
    print('PRT ' + digits[at:at + 60])

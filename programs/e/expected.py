#!/usr/bin/env python3
"""200 digits of e behind the point, in groups of eight, seven groups on a line."""
from fractions import Fraction
from math import factorial

e = sum(Fraction(1, factorial(n)) for n in range(200))
digits = str(int((e - 2) * 10 ** 200)).rjust(200, '0')
groups = [digits[at:at + 8] for at in range(0, 200, 8)]
for at in range(0, 25, 7):
    print('PRT ' + ' '.join(groups[at:at + 7]))

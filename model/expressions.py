"""Expressions of addresses, and system symbols. Follows docs/strap.md, "Expressions"."""
import re

TERM = r'(?:[0-9]+(?:\.[0-9]+)?|[A-Z][A-Z0-9]{0,7}|\$[A-Z0-9]{1,7})'
EXPRESSION = re.compile(rf'[+-]?{TERM}(?:[+-]{TERM})*')
SIGNED_TERM = re.compile(rf'([+-]?)({TERM})')

INDICATORS = {          # names of indicators, from the number beside them on
    0: 'MK IK IJ EK TS CPUS EKJ UNRJ CBJ EPGK UK EE EOP CS',
    15: 'OP AD USA EXE DS DF IF LC PF ZD',
    35: 'TF UF VF XF BTR DTR PG0 PG1 PG2 PG3 PG4 PG5 PG6',
    48: 'XCZ XVLZ XVZ XVGZ XL XE XH MOP RLZ RZ RGZ RN AL AE AH'}

SYSTEM = {              # bit addresses of the system symbols
    name: 64 * word + bit for name, word, bit in [
        ('$Z', 0, 0), ('$IA', 2, 0), ('$UB', 3, 0), ('$LB', 3, 32), ('$BC', 3, 57), ('$LZC', 7, 17), ('$AOC', 7, 44),
        ('$L', 8, 0), ('$R', 9, 0), ('$SB', 10, 0), ('$IND', 11, 0), ('$MASK', 12, 0), ('$RM', 13, 0), ('$FT', 14, 0),
        ('$TR', 15, 0)]}
SYSTEM |= {f'$X{n}': 64 * (16 + n) for n in range(16)}
SYSTEM |= {f'${name}': 64 * 11 + number
           for first, names in INDICATORS.items() for number, name in enumerate(names.split(), first)}


def terms_of(text):
    """The terms of an expression as pairs of sign and text, or None where it is none."""
    if not EXPRESSION.fullmatch(text):
        return None
    return [(-1 if sign == '-' else 1, term) for sign, term in SIGNED_TERM.findall(text)]


def too_large(terms):
    """Whether a number of an expression is past its most."""
    numbers = [term.split('.') for _, term in terms if term[0].isdigit()]
    return any(int(w) > 262143 or b and int(b[0]) > 63 for w, *b in numbers)


def names_in(terms):
    """The names of an expression that are no system symbols."""
    return [term for _, term in terms if not term[0].isdigit() and term not in SYSTEM]


def value_of(terms, symbols):
    """The value of an expression in bits, where each of its names is known."""
    return sum(sign * value_of_term(term, symbols) for sign, term in terms)


def value_of_term(term, symbols):
    if term[0].isdigit():
        w, _, b = term.partition('.')
        return 64 * int(w) + int(b or 0)
    return SYSTEM[term] if term in SYSTEM else symbols[term]

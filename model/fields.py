"""What a field of variable length holds.

Follows docs/variable-fields.md, "What a field holds", "Decimal digits" and "Decimal fields".
"""
from dataclasses import dataclass

from words import MOP, RGZ, RLZ, RN, RZ, TF, UF, VF, bits_of, ones, signed


@dataclass
class Number:
    """A magnitude (of a decimal field its codes, four bits each), a sign, three flags and a zone."""
    magnitude: int
    minus: int = 0
    flags: int = 0
    zone: int = 0


@dataclass
class Outcome:
    """What an operation leaves. None is what stays as it was."""
    accumulator: Number = None
    field: int = None
    remainder: int = None
    factor: int = None
    transit: int = None
    counts: tuple = None
    on: int = 0
    off: int = 0

    def turn(self, on, off=0):
        self.on |= on
        self.off |= off

    def result(self, magnitude, minus):
        """The result number: exactly one of RLZ, RZ and RGZ, and RN by the sign."""
        self.turn(bits_of(RZ if magnitude == 0 else RLZ if minus else RGZ), bits_of(RLZ, RZ, RGZ, RN))
        self.turn(bits_of(RN) if minus else 0)

    def accumulate(self, number):
        self.accumulator = number
        self.result(number.magnitude, number.minus)

    def write(self, bits, number):
        """The field becomes these bits, and holds this number then."""
        self.field = bits
        self.turn(bits_of(MOP))
        self.result(number.magnitude, number.minus)


def room(made):
    """How many bits of a field are no sign byte."""
    return made.length - (0 if made.unsigned else made.byte)


def read_sign(byte, size):
    """Sign, flags and zone of a sign byte. Below four bits the last flags have no room."""
    if size >= 4:
        return byte >> 3 & 1, byte & 7, byte >> 4
    return byte >> size - 1, (byte & ones(size - 1)) << 4 - size, 0


def write_sign(number, size):
    if size >= 4:
        return (number.zone & ones(size - 4)) << 4 | number.minus << 3 | number.flags
    return number.minus << size - 1 | number.flags >> 4 - size


def read_binary(made, bits):
    if made.unsigned:
        return Number(bits)
    return Number(bits >> made.byte, *read_sign(bits & ones(made.byte), made.byte))


def write_binary(made, number):
    if made.unsigned:
        return number.magnitude
    return number.magnitude << made.byte | write_sign(number, made.byte)


def digits(made):
    """How many digits a decimal field has."""
    return room(made) // made.byte


def read_decimal(made, bits):
    number = read_binary(made, bits)
    codes = 0
    for k in range(digits(made)):
        codes |= (number.magnitude >> k * made.byte & 15) << 4 * k
    number.magnitude = codes
    return number


def write_decimal(made, number, zones):
    """`zones` has the zone of each digit, that of place 0 first."""
    plain = 0
    for k in range(digits(made)):
        byte = (zones[k] & ones(made.byte - 4)) << 4 | number.magnitude >> 4 * k & 15
        plain |= byte << k * made.byte
    return write_binary(made, Number(plain, number.minus, number.flags, number.zone))


def zones_of(made, bits):
    plain = read_binary(made, bits).magnitude
    return [plain >> k * made.byte + 4 & ones(made.byte - 4) for k in range(digits(made))]


def codes_value(codes):
    """The value of codes of four bits; 10 to 15 count as such."""
    total, place = 0, 1
    while codes:
        total += (codes & 15) * place
        codes >>= 4
        place *= 10
    return total


def to_codes(number, count):
    """The low `count` decimal digits of a number, four bits each."""
    return int(str(number % 10 ** count), 16)


def flag_indicators(number):
    return sum(bits_of(which) for which, bit in ((TF, 4), (UF, 2), (VF, 1)) if number.flags & bit)


def added(number, addend, minus_stays=False):
    """A sum with its sign, which is that of the true sum; a sum of zero leaves the sign as it was."""
    total = number.magnitude + addend if minus_stays else signed(number.magnitude, number.minus) + addend
    if minus_stays:
        return max(total, 0), number.minus
    return abs(total), number.minus if total == 0 else int(total < 0)

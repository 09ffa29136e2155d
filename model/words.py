"""Words, their parts, and the indicators. Follows docs/machine.md, up to "Indicators and interrupts".

Bits of a word are numbered from the left, 0 to 63.
"""
WORDS = 98_304                  # words of storage
ALL = (1 << 64) - 1
IA, BOUNDARY, COUNTS, LEFT, RIGHT, SIGN_BYTE, INDICATORS, MASK, REMAINDER, FACTOR, TRANSIT, INDEX = \
    2, 3, 7, 8, 9, 10, 11, 12, 13, 14, 15, 16

# the indicators
CBJ, EE, EOP = 8, 11, 12
OP, AD, USA, EXE, DS, DF, IF, LC, PF, ZD = range(15, 25)
TF, UF, VF, XF, BTR, DTR = range(35, 41)
XCZ, XVLZ, XVZ, XVGZ, XL, XE, XH, MOP, RLZ, RZ, RGZ, RN, AL, AE, AH = range(48, 63)


def ones(count):
    return (1 << count) - 1


def part(word, first, last):
    """Bits `first` to `last` of a word, as a number."""
    return word >> 63 - last & ones(last - first + 1)


def with_part(word, first, last, number):
    """The word with `number` in place of its bits `first` to `last`."""
    room = ones(last - first + 1)
    return word & ~(room << 63 - last) | (number & room) << 63 - last


def bits_of(*indicators):
    """A word in which the bits of these indicators are ones."""
    word = 0
    for indicator in indicators:
        word |= 1 << 63 - indicator
    return word


def mask_of(*parts):
    word = 0
    for first, last in parts:
        word = with_part(word, first, last, ALL)
    return word


# of the registers 0 to 15: the bits that a store keeps; those of 16 to 31 are all kept
KEPT = {0: 0, 1: 0, 2: mask_of((0, 17)), 3: mask_of((0, 17), (32, 49), (57, 57)), 4: 0, 5: 0, 6: 0,
        7: mask_of((17, 23), (44, 50)), 10: mask_of((0, 7)), 12: mask_of((20, 47))}
ALWAYS = {12: mask_of((0, 19))}                 # bits that are always one


def kept(address, word):
    """What a word becomes where it is stored."""
    return word & KEPT.get(address, ALL) | ALWAYS.get(address, 0)


def signed(magnitude, minus):
    return -magnitude if minus else magnitude

"""Index words: their parts, effective addresses, changes, and the indicators of these. Follows docs/index-words.md."""
from words import (XCZ, XE, XF, XH, XL, XVGZ, XVLZ, XVZ, bits_of, ones, part, signed, with_part)

RESULTS = bits_of(XCZ, XVLZ, XVZ, XVGZ)
COMPARED = bits_of(XL, XE, XH)


def value(word):
    """The value, with its sign; a minus zero is 0."""
    return signed(part(word, 0, 23), part(word, 24, 24))


def count(word):
    return part(word, 28, 45)


def refill(word):
    return part(word, 46, 63)


def with_value(word, number):
    """The magnitude is cut to 24 bits, the sign stays that of the whole number."""
    return with_part(word, 0, 24, (abs(number) & ones(24)) << 1 | (number < 0))


def with_count(word, number):
    return with_part(word, 28, 45, number)


def with_refill(word, number):
    return with_part(word, 46, 63, number)


def count_down(word):
    return with_count(word, count(word) - 1 & ones(18))


def effective(address, index_word):
    return address + value(index_word) & ones(24)


def result(word):
    """The indicators that an index word sets when it was changed: those that go on, and those that go off."""
    number = value(word)
    on = bits_of(XVLZ if number < 0 else XVZ if number == 0 else XVGZ)
    if count(word) == 0:
        on |= bits_of(XCZ)
    if part(word, 25, 25):
        on |= bits_of(XF)
    return on, RESULTS


def comparison(number, operand):
    return bits_of(XL if number < operand else XE if number == operand else XH), COMPARED


def step_on(form, word, increment):
    """A progressive form, or the index instruction of that name: the word before a refill, and whether one follows."""
    word = with_value(word, value(word) + (increment if form.startswith('V+') else -increment))
    if 'C' in form:
        word = count_down(word)
    return word, form.endswith('R') and count(word) == 0

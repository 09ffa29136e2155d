"""The connectives. Follows docs/connectives.md."""
from fields import Number, Outcome
from words import MOP, PF, bits_of, ones


def connect(table, field, accumulator, length):
    """The result, bit by bit; the first bit of the table stands for two zeros."""
    result = 0
    for k in range(length):
        pair = (field >> k & 1) << 1 | accumulator >> k & 1
        result |= (table >> 3 - pair & 1) << k
    return result


def connective(made, bits, acc):
    """What C, CM or CT leaves."""
    out = Outcome(off=bits_of(MOP))
    result = connect(made.table, bits, acc.magnitude >> made.offset, made.length)
    out.counts = made.length - result.bit_length(), result.bit_count()
    if made.name == 'C':
        place = ones(made.length) << made.offset
        whole = acc.magnitude & ~place | result << made.offset
        out.accumulator = Number(whole & ones(128), acc.minus, acc.flags, acc.zone)
        out.on |= bits_of(PF) if whole > ones(128) else 0
    elif made.name == 'CM':
        out.field = result
        out.turn(bits_of(MOP))
    out.result(result, 0)
    return out

"""The binary operations on a field. Follows docs/variable-fields.md, "Where a field meets the accumulator" and "The
operations". `made` is the instruction, `bits` its field, `acc` the accumulator with its sign byte.
"""
from fields import Number, Outcome, added, codes_value, flag_indicators, read_binary, room, to_codes, write_binary
from words import AE, AH, AL, BTR, LC, MOP, PF, ZD, bits_of, ones, signed

ACC = ones(128)
COMPARED = bits_of(AL, AE, AH)


def lift(made, magnitude):
    """v, without the bits past the accumulator, and PF where one of these is a one."""
    high = magnitude << made.offset
    return high & ACC, bits_of(PF) if high > ACC else 0


def compare(made, left, right, is_on):
    """The indicators of a comparison: which go on, and which off. Both are nothing where it does not act."""
    if made.name in ('KE', 'KFE') and not is_on(AE):
        return 0, 0
    if made.name in ('KR', 'KFR'):
        return (0, 0) if is_on(AL) else (bits_of(AE if left < right else AH), COMPARED)
    return bits_of(AL if left < right else AE if left == right else AH), COMPARED


def binary(made, bits, acc, factor, is_on):
    """What the operation leaves."""
    out = Outcome(off=bits_of(MOP))
    if made.name == 'ST':
        store(made, acc, out)
        return out
    field = read_binary(made, bits)
    if made.name == '/' and field.magnitude == 0:
        return Outcome(on=bits_of(ZD))
    out.on |= flag_indicators(field)
    if made.name in ('M+', 'M+MG', 'M+1'):
        add_to_field(made, field, acc, out)
        return out
    field.minus ^= made.negated
    if made.name in ('K', 'KE', 'KR'):
        v, lost = lift(made, field.magnitude)
        out.on |= lost
        out.turn(*compare(made, signed(acc.magnitude, acc.minus), signed(v, field.minus), is_on))
    elif made.name in ('KF', 'KFE', 'KFR'):
        low = acc.magnitude >> made.offset & ones(room(made))
        out.turn(*compare(made, signed(low, acc.minus), signed(field.magnitude, field.minus), is_on))
    elif made.name in ('LTRS', 'LFT'):
        if made.name == 'LTRS':
            out.transit = field.magnitude
            out.on |= bits_of(BTR)
        else:
            out.factor = field.magnitude
        out.result(field.magnitude, field.minus)
    else:
        ACCUMULATING[made.name](made, field, acc, factor, out)
    return out


def store(made, acc, out):
    high = acc.magnitude >> made.offset
    number = Number(high & ones(room(made)), 0 if made.unsigned else acc.minus ^ made.negated, acc.flags, acc.zone)
    if high != number.magnitude:
        out.on |= bits_of(PF)
    out.write(write_binary(made, number), number)


def add_to_field(made, field, acc, out):
    if made.name == 'M+1':
        addend = -1 if made.negated else 1
    else:
        addend = signed(acc.magnitude >> made.offset, acc.minus ^ made.negated)
    total, minus = added(field, addend, made.name == 'M+MG')
    number = Number(total & ones(room(made)), minus, field.flags, field.zone)
    if total != number.magnitude:
        out.on |= bits_of(LC)
    out.write(write_binary(made, number), number)


def load(made, field, acc, factor, out):
    v, lost = lift(made, field.magnitude)
    out.on |= lost
    out.accumulate(Number(v, field.minus, *((field.flags, field.zone) if made.name == 'LWF' else (0, 0))))


def add(made, field, acc, factor, out):
    v, lost = lift(made, field.magnitude)
    out.on |= lost
    total, minus = added(acc, signed(v, field.minus), made.name == '+MG')
    out.on |= bits_of(LC) if total > ACC else 0
    out.accumulate(Number(total & ACC, minus, acc.flags, acc.zone))


def multiply(made, field, acc, factor, out):
    high = acc.magnitude >> made.offset
    out.on |= bits_of(PF) if high > ones(64) else 0
    product = (high & ones(64)) * field.magnitude
    out.accumulate(Number(product, acc.minus ^ field.minus, acc.flags, acc.zone))


def multiply_and_add(made, field, acc, factor, out):
    product = factor * field.magnitude << made.offset
    total, minus = added(acc, signed(product & ACC, field.minus))
    out.on |= bits_of(LC) if product > ACC or total > ACC else 0
    out.accumulate(Number(total & ACC, minus, acc.flags, acc.zone))


def divide(made, field, acc, factor, out):
    quotient, out.remainder = divmod(acc.magnitude >> made.offset, field.magnitude)
    out.accumulate(Number(quotient, acc.minus ^ field.minus, acc.flags, acc.zone))


def convert(made, field, acc, factor, out):
    codes = to_codes(field.magnitude, 20) << made.offset // 4 * 4
    out.on |= bits_of(PF) if codes > ACC else 0
    out.accumulator = Number(codes & ACC, field.minus)
    out.result(codes_value(codes & ACC), field.minus)


ACCUMULATING = {'L': load, 'LWF': load, '+': add, '+MG': add, '*': multiply, '*+': multiply_and_add, '/': divide,
                'LCV': convert}

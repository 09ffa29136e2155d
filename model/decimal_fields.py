"""The decimal operations on a field. Follows docs/variable-fields.md, "Decimal fields" and "The decimal operations"."""
from binary import ACC, compare, lift
from fields import (Number, Outcome, added, codes_value, digits, flag_indicators, read_decimal, to_codes,
                    write_decimal, zones_of)
from words import DTR, LC, MOP, PF, bits_of, ones, signed


def decimal(made, bits, acc, is_on):
    """What the operation leaves."""
    out, count, place = Outcome(off=bits_of(MOP)), digits(made), made.offset // 4
    high = acc.magnitude >> 4 * place                       # a': the codes from that place on
    low = high & ones(4 * count)                            # f': as many as the field has digits
    if made.name == 'ST':
        number = Number(low, 0 if made.unsigned else acc.minus ^ made.negated, acc.flags, acc.zone)
        out.on |= bits_of(PF) if high != low else 0
        out.write(write_decimal(made, number, [acc.zone] * count), number)
        return out
    field = read_decimal(made, bits)
    out.on |= flag_indicators(field)
    if made.name in ('M+', 'M+MG', 'M+1'):
        value = 1 if made.name == 'M+1' else codes_value(high)
        minus = made.negated ^ (0 if made.name == 'M+1' else acc.minus)
        add_to_field(made, field, signed(value, minus), zones_of(made, bits), out)
        return out
    field.minus ^= made.negated
    if made.name in ('KF', 'KFE', 'KFR'):
        left, right = signed(codes_value(low), acc.minus), signed(codes_value(field.magnitude), field.minus)
        out.turn(*compare(made, left, right, is_on))
    elif made.name in ('LTRS', '*', '*+', '/', 'LFT'):
        if made.name == 'LFT':
            out.factor = field.magnitude
        else:
            out.transit = field.magnitude
            out.on |= bits_of(DTR)
        out.result(field.magnitude, field.minus)
    elif made.name == 'LCV':
        v, lost = lift(made, codes_value(field.magnitude))
        out.on |= lost
        out.accumulate(Number(v, field.minus))
    else:
        with_accumulator(made, field, field.magnitude << 4 * place, acc, out, is_on)
    return out


def with_accumulator(made, field, codes, acc, out, is_on):
    """L, LWF, +, +MG and the comparisons with the whole accumulator; `codes` may go past its last place."""
    out.on |= bits_of(PF) if codes > ACC else 0
    v = codes & ACC
    if made.name in ('L', 'LWF'):
        out.accumulate(Number(v, field.minus, *((field.flags, field.zone) if made.name == 'LWF' else (0, 0))))
        return
    value, operand = Number(codes_value(acc.magnitude), acc.minus), signed(codes_value(v), field.minus)
    if made.name in ('+', '+MG'):
        total, minus = added(value, operand, made.name == '+MG')
        out.on |= bits_of(LC) if total >= 10 ** 32 else 0
        out.accumulate(Number(to_codes(total, 32), minus, acc.flags, acc.zone))
    else:
        out.turn(*compare(made, signed(value.magnitude, value.minus), operand, is_on))


def add_to_field(made, field, addend, zones, out):
    total, minus = added(Number(codes_value(field.magnitude), field.minus), addend, made.name == 'M+MG')
    out.on |= bits_of(LC) if total >= 10 ** digits(made) else 0
    number = Number(to_codes(total, digits(made)), minus, field.flags, field.zone)
    out.write(write_decimal(made, number, zones), number)

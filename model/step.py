"""How an instruction is completed. Follows docs/machine.md, "How an instruction is completed"."""
from binary import binary
from connectives import connective
from decimal_fields import decimal
from fields import Number
from words import (CBJ, COUNTS, FACTOR, INDEX, LEFT, REMAINDER, RIGHT, SIGN_BYTE, TRANSIT, bits_of, ones, part,
                   with_part)


def complete(state, entry):
    """Makes the entry's step. Answers whether it was mispredicted: a BI that is taken and is not done alone."""
    if entry.table is not None:
        state.indicators(0, bits_of(entry.table))
        state.waits = False
    if entry.change:
        number, word = entry.change
        state.put(INDEX + number, word)
    if entry.on or entry.off:
        state.indicators(entry.on, entry.off)
    counter = entry.counter
    if entry.fault is None:
        branch = effect(state, entry)
        counter = counter if branch is None else branch
    mispredicted = entry.fault is None and entry.made.name == 'BI' and branch is not None and not entry.alone
    state.counter = counter
    state.done += 1
    return mispredicted


def effect(state, entry):
    """What is done with the operands. Answers where a branch on a bit or an indicator leads that is taken."""
    made, name = entry.made, entry.made.name
    if made.group in ('field', 'connective'):
        operate(state, entry)
    elif entry.store:
        state.put_field(*entry.store)
    elif name in ('T', 'SWAP'):
        move(state, entry)
    elif name in ('BE', 'BEW', 'BD'):
        state.enabled = name != 'BD'
        state.waits = name == 'BEW'
    elif name == 'BI':
        return test_indicator(state, entry)
    elif name == 'BB':
        return test_bit(state, entry)
    elif made.group == 'order':
        give_order(state, entry)
    return None


def move(state, entry):
    source, target = entry.address >> 6, entry.made.second >> 1
    for k in range(entry.made.count):
        one, other = state.word(source + k), state.word(target + k)
        state.put(target + k, one)
        if entry.made.name == 'SWAP':
            state.put(source + k, other)


def test_indicator(state, entry):
    number = entry.address % 64
    was = state.is_on(number)
    if entry.made.after:
        state.indicators(0, bits_of(number))
    return entry.made.second if was == entry.made.sense else None


def test_bit(state, entry):
    was = state.field(entry.address, 1)
    if entry.made.after:
        state.put_field(entry.address, 1, (was, 0, 1, 1 - was)[entry.made.after])
    return entry.made.second if was == entry.made.sense else None


def give_order(state, entry):
    order = entry.address >> 6, state.done + 1 + entry.made.count
    if (state.reader if entry.made.name == 'RD' else state.printer) is not None:
        state.indicators(bits_of(CBJ))
    elif entry.made.name == 'RD':
        state.reader = order
    else:
        state.printer = order


def operate(state, entry):
    """An operation on a field or a connective. The field is written last."""
    made = entry.made
    if made.form == 1:
        bits = entry.address >> 24 - made.length
    else:
        bits = state.field(entry.address, made.length)
    sign_byte = state.word(SIGN_BYTE)
    acc = Number(state.word(LEFT) << 64 | state.word(RIGHT), part(sign_byte, 4, 4), part(sign_byte, 5, 7),
                 part(sign_byte, 0, 3))
    if made.group == 'connective':
        out = connective(made, bits, acc)
    elif made.decimal:
        out = decimal(made, bits, acc, state.is_on)
    else:
        out = binary(made, bits, acc, state.word(FACTOR), state.is_on)
    leave(state, out)
    if out.field is not None:
        state.put_field(entry.address, made.length, out.field)


def leave(state, out):
    if out.accumulator is not None:
        acc = out.accumulator
        state.put(LEFT, acc.magnitude >> 64)
        state.put(RIGHT, acc.magnitude & ones(64))
        state.put(SIGN_BYTE, (acc.zone << 4 | acc.minus << 3 | acc.flags) << 56)
    for register, word in ((REMAINDER, out.remainder), (FACTOR, out.factor), (TRANSIT, out.transit)):
        if word is not None:
            state.put(register, word)
    if out.counts:
        counts = with_part(state.word(COUNTS), 17, 23, out.counts[0])
        state.put(COUNTS, with_part(counts, 44, 50, out.counts[1]))
    state.indicators(out.on, out.off)

"""The formats of instructions as tables, in both directions. Follows docs/instructions.md.

Bits are numbered from the left. A half-word is a number of 32 bits.
"""
from dataclasses import dataclass

INDEX = {                       # half-word operations on index words, and the others that stand alone, by `op`
    1: 'LX', 2: 'LV', 3: 'LC', 4: 'LR', 5: 'SX', 6: 'SV', 7: 'SC', 8: 'SR', 9: 'SVA', 10: 'V+', 11: 'V+C',
    13: 'KV', 14: 'LVS', 16: 'LVI', 17: 'LCI', 18: 'LRI', 19: 'V+I', 20: 'V-I', 21: 'V+IC', 22: 'V+ICR',
    24: 'KVI', 25: 'KC', 26: 'KCI', 27: 'CB', 28: 'CBR', 29: 'R', 30: 'EX'}
BRANCH = {0: 'B', 1: 'BR', 2: 'BE', 3: 'BD', 4: 'BEW', 5: 'NOP'}            # operation 23, by J
FULL = 15                       # bits 24-27 of the first half of a full word
FIELD = {                       # operations on a field, by number
    1: 'L', 2: 'LWF', 3: 'LTRS', 4: 'LFT', 5: 'ST', 7: '+', 8: '+MG', 9: 'M+', 10: 'M+MG', 11: 'M+1',
    12: 'K', 13: 'KF', 14: 'KE', 15: 'KFE', 16: 'KR', 17: 'KFR', 18: '*', 19: '*+', 20: '/', 21: 'LCV'}
OTHERS = {24: 'T', 25: 'SWAP', 26: 'BB', 27: 'BI', 28: 'RD', 29: 'WR', 30: 'SIC'}
CONNECTIVE = {0: 'C', 1: 'CM', 2: 'CT'}                                      # by kind
FLOATING = {'L': 1, 'ST': 2, '+': 3, 'K': 4, '*': 5, '/': 6}                 # J of operation 0; unnormalized 8 more
WRITING = {'ST', 'M+', 'M+MG', 'M+1', 'CM'}                                  # these write their field
FORMS = {2: 'V+I', 3: 'V+IC', 4: 'V+ICR', 5: 'V-I', 6: 'V-IC', 7: 'V-ICR'}   # progressive, by P; 1 is IM

OP_OF = {name: op for op, name in INDEX.items()}
BRANCH_OF = {name: j for j, name in BRANCH.items()}
NUMBER_OF = {name: n for n, name in (FIELD | OTHERS).items()}
KIND_OF = {name: kind for kind, name in CONNECTIVE.items()}


@dataclass(frozen=True)
class Instruction:
    name: str = ''              # 'LX', 'B', '+', 'CM', 'BB' ..; '' where the bits spell none; 'FLOATING' for that group
    group: str = ''             # 'index', 'branch', 'field', 'connective', 'two' (T SWAP BB BI SIC), 'order' (RD WR)
    halves: int = 1             # its length in half-words
    why: str = ''               # why the bits spell no instruction; '' where they spell one
    address: int = 0            # a bit address, also in a half-word; of LVS all of bits 0-18
    i: int = 0                  # the index word of the address, 0 for none
    j: int = 0                  # the index word that is worked on
    form: int = 0               # P
    length: int = 0             # 1 to 64
    byte: int = 0               # 1 to 8
    offset: int = 0
    decimal: int = 0
    unsigned: int = 0
    negated: int = 0
    table: int = 0              # of a connective
    second: int = 0             # the second address, a half-word address
    count: int = 0              # words that T and SWAP move, 1 to 16; of RD and WR a number of instructions
    sense: int = 0              # of BB and BI
    after: int = 0              # BB: 0 left, 1 zeroed, 2 set to one, 3 inverted; BI: 1 turned off

    @property
    def valid(self):
        return not self.why

    @property
    def list(self):
        """The index words that LVS sums."""
        return [k for k in range(16) if self.address >> 23 - k & 1]


def bits(word, first, last, size=32):
    """Bits `first` to `last` of a number of `size` bits, as a number."""
    return word >> size - 1 - last & (1 << last - first + 1) - 1


def is_full(half):
    return bits(half, 24, 27) == FULL


def decode(half0, half1):
    """The instruction that begins with `half0`; `half1` is read only where that is the first half of a full word."""
    return decode_full(half0, half1) if is_full(half0) else decode_half(half0)


def decode_half(half):
    address, j, op, i = bits(half, 0, 18) * 32, bits(half, 19, 22), bits(half, 23, 27), bits(half, 28, 31)
    if op == 0:
        return Instruction('FLOATING', 'floating', 1, 'floating', address, i, j)
    if op == 23:
        name, group = BRANCH.get(j, ''), 'branch'
    else:
        name, group = INDEX.get(op, ''), 'index'
    return Instruction(name, group, 1, '' if name else 'no such operation', address, i, j)


def decode_full(half0, half1):
    word = half0 << 32 | half1
    part = lambda first, last: bits(word, first, last, 64)
    some = dict(halves=2, address=part(0, 23), i=part(28, 31))
    k, number, on_field = part(60, 63), part(55, 59), dict(
        form=part(32, 34), length=part(35, 40) or 64, byte=part(41, 43) or 8, offset=part(44, 50))
    if part(51, 51):
        name = CONNECTIVE.get(part(56, 57), '')
        made = Instruction(name, 'connective', **some, **on_field, table=part(52, 55), unsigned=1)
        spare = part(58, 59) or k
    elif number in FIELD:
        made = Instruction(FIELD[number], 'field', **some, **on_field,
                           decimal=part(52, 52), unsigned=part(53, 53), negated=part(54, 54))
        spare = k
    else:
        name, spare = OTHERS.get(number, ''), part(52, 54)
        if name in ('BB', 'BI'):
            some |= dict(sense=part(52, 52), after=part(53, 54) if name == 'BB' else part(53, 53))
            spare = part(54, 54) if name == 'BI' else 0
        if name in ('RD', 'WR'):
            made = Instruction(name, 'order', **some, count=part(32, 50))
        else:
            made = Instruction(name, 'two', **some, second=part(32, 50), count=k or 16)
        if name not in ('T', 'SWAP'):
            spare = spare or k
    why = broken_rule(made, spare)
    return Instruction(halves=2, why=why) if why else made


def broken_rule(made, spare):
    """Why the bits of a full word spell no instruction, or ''."""
    if not made.name:
        return 'no such operation'
    if spare:
        return 'bits that have to be zero'
    if made.group == 'field' and not fits(made.decimal, made.unsigned, made.length, made.byte):
        return 'a field that is none'
    if made.group in ('field', 'connective'):
        if made.form == 1 and (made.name in WRITING or made.length > 24):
            return 'no operand in the address'
        if made.form >= 2 and made.i == 0:
            return 'a progressive form without an index word'
    if made.group == 'order' and not 1 <= made.count <= 1000:
        return 'no such number of instructions'
    return ''


def fits(decimal, unsigned, length, byte):
    """A decimal field is made of whole bytes of four bits or more, and a signed one has room for its sign byte."""
    if decimal and (byte < 4 or length % byte):
        return False
    return bool(unsigned) or length >= byte


def encode(made):
    """The bits of an instruction that is valid, or of the floating group, as a number and how many they are."""
    if made.halves == 1:
        return encode_half(made), 32
    first = made.address << 8 | FULL << 4 | made.i
    return first << 32 | encode_second(made), 64


def encode_half(made):
    if made.group == 'floating':
        op, j = 0, made.j
    elif made.group == 'branch':
        op, j = 23, BRANCH_OF[made.name]
    else:
        op, j = OP_OF[made.name], made.j
    return made.address // 32 << 13 | j << 9 | op << 4 | made.i


def encode_second(made):
    if made.group in ('field', 'connective'):
        first = made.form << 16 | made.length % 64 << 10 | made.byte % 8 << 7 | made.offset
        if made.group == 'connective':
            return first << 13 | 1 << 12 | made.table << 8 | KIND_OF[made.name] << 6
        marks = made.decimal << 2 | made.unsigned << 1 | made.negated
        return first << 13 | marks << 9 | NUMBER_OF[made.name] << 4
    first, marks, k = made.second, 0, 0
    if made.group == 'order':
        first = made.count
    elif made.name in ('T', 'SWAP'):
        k = made.count % 16
    elif made.name == 'BB':
        marks = made.sense << 2 | made.after
    elif made.name == 'BI':
        marks = made.sense << 2 | made.after << 1
    return first << 13 | marks << 9 | NUMBER_OF[made.name] << 4 | k

"""Statements cut into their parts and read. Follows docs/strap.md from "Statements" to "Progressive forms"."""
import re
from dataclasses import dataclass, field

import expressions
import formats
from cards import NAME
from program import Fault

# Operations and their fields: j an index field, x an address that may have an index part, a an address without one,
# n a plain number, s one that may have a sign; `?` behind a field that may lack, `+` behind one that may be repeated.
FIELDS = {name: 'jx' for name in formats.OP_OF} | {
    'LVS': 'jj+', 'R': 'j', 'EX': 'x', 'B': 'x', 'BR': 'x', 'BE': 'x', 'BD': 'x', 'BEW': '', 'NOP': '',
    'T': 'xan', 'SWAP': 'xan', 'SIC': 'xa', 'RD': 'xn', 'WR': 'xn',
    'DD': 's', 'XW': 'anan?', 'SYN': 'a', 'SLC': 'a', 'DR': 'a', 'END': 'a'}
PSEUDO = ('DD', 'XW', 'SYN', 'SLC', 'DR', 'END')

MODES = {               # the modes of a field: decimal, unsigned, byte size where none is given
    'B': (0, 0, 8), 'BU': (0, 1, 8), 'D': (1, 0, 4), 'DU': (1, 1, 4)}
FORMS = {'IM': 1} | {text: number for number, text in formats.FORMS.items()}
INDEX_WORDS = {f'$X{n}': n for n in range(16)}


@dataclass
class Address:
    terms: list
    i: int = 0


@dataclass
class Operation:
    name: str                                   # as in formats, or a pseudo-operation
    group: str                                  # as in formats, or 'pseudo'
    fields: str
    parts: dict = field(default_factory=dict)   # the parts of an instruction that its name says


@dataclass
class Statement:
    name: str
    operation: Operation
    parts: dict                                 # decimal, unsigned, length, byte, form: what the groups say
    fields: list                                # index words and plain numbers, pairs (minus, number), addresses

    @property
    def addresses(self):
        return [it for it in self.fields if isinstance(it, Address)]


def operation_of(text):
    """The operation that a text spells, or None."""
    if text in FIELDS:
        group = ('pseudo' if text in PSEUDO else 'index' if text in formats.OP_OF else
                 'branch' if text in formats.BRANCH_OF else 'order' if text in ('RD', 'WR') else 'two')
        return Operation(text, group, FIELDS[text])
    if text in formats.FIELD.values():
        return Operation(text, 'field', 'xn?')
    if text[-1:] == 'N' and text[:-1] in formats.FIELD.values():
        return Operation(text[:-1], 'field', 'xn?', {'negated': 1})
    if found := re.fullmatch('(C|CM|CT)([01]{4})', text):
        return Operation(found[1], 'connective', 'xn?', {'table': int(found[2], 2)})
    if found := re.fullmatch('BB([01])([ZSV]?)', text):
        return Operation('BB', 'two', 'xa', {'sense': int(found[1]), 'after': ' ZSV'.index(found[2] or ' ')})
    if found := re.fullmatch('BI([01])(Z?)', text):
        return Operation('BI', 'two', 'xa', {'sense': int(found[1]), 'after': len(found[2])})
    return None


def read(name, text):
    """What the name and the statement of a card say; raises the first of their faults."""
    operation_text, groups, rest = cut(text.partition(';')[0].replace(' ', ''))
    operation = operation_of(operation_text)
    if name and not NAME.fullmatch(name) or operation and is_misnamed(name, operation.name):
        raise Fault('BAD NAME')
    if operation is None:
        raise Fault('UNKNOWN OPERATION')
    described = bool(groups) and groups[0][1:].removesuffix(')') not in FORMS
    operation, parts = describe(operation, groups[0] if described else None)
    parts['form'] = form_of(operation, parts, groups[described:], rest)
    if operation.group == 'connective':
        parts.pop('decimal')
    return Statement(name, operation, parts, read_fields(operation, parts['form'], rest.split(',')[1:]))


def is_misnamed(name, operation):
    return operation == 'SYN' and not name or operation in ('SLC', 'END') and bool(name)


def cut(text):
    """The operation; the groups, with their parentheses; and the rest, which begins with a comma if all is well."""
    operation = re.match('[^(,]*', text)[0]
    groups, rest = [], text[len(operation):]
    while rest.startswith('(') and len(groups) < 2:
        end = rest.find(')') + 1 or len(rest)
        groups.append(rest[:end])
        rest = rest[end:]
    return operation, groups, rest


def describe(operation, group):
    """The operation, which the modes N and U change, and the parts that its data description says."""
    parts = dict(decimal=0, unsigned=1, length=64, byte=8)
    if group is None:
        return operation, parts
    mode, *numbers = group[1:-1].split(',')
    if not group.endswith(')') or len(numbers) > 2:
        raise Fault('BAD DATA DESCRIPTION')
    if mode in ('N', 'U') and not numbers and operation.name in formats.FLOATING and operation.group == 'field' \
            and not operation.parts:
        return floating(operation.name, mode), parts
    if not (operation.group == 'field' or operation.group == 'connective' and mode == 'BU' or operation.name == 'DD'):
        raise Fault('BAD DATA DESCRIPTION')
    if mode not in MODES or not all(re.fullmatch('[0-9]+', number) for number in numbers):
        raise Fault('BAD DATA DESCRIPTION')
    decimal, unsigned, byte = MODES[mode]
    length, byte = [int(n) for n in numbers] + [64, byte][len(numbers):]
    fitting = operation.group == 'connective' or formats.fits(decimal, unsigned, length, byte)
    if not (1 <= length <= 64 and 1 <= byte <= 8 and fitting):
        raise Fault('BAD DATA DESCRIPTION')
    return operation, dict(decimal=decimal, unsigned=unsigned, length=length, byte=byte)


def floating(name, mode):
    return Operation('FLOATING', 'floating', 'x', {'j': formats.FLOATING[name] + (8 if mode == 'U' else 0)})


def form_of(operation, parts, groups, rest):
    """The number of the progressive form, 0 where there is none."""
    text, *more = groups or ['()']
    if more or rest[:1] not in ('', ',') or not text.endswith(')'):
        raise Fault('BAD PROGRESSIVE')
    if not groups:
        return 0
    form = FORMS.get(text[1:-1], 0)
    if not form or operation.group not in ('field', 'connective'):
        raise Fault('BAD PROGRESSIVE')
    if form == 1 and (operation.name in formats.WRITING or parts['length'] > 24):
        raise Fault('BAD PROGRESSIVE')
    return form


def read_fields(operation, form, texts):
    """The fields of a statement. A fault of one counts before a fault of a later kind in another."""
    kinds = kinds_of(operation.fields, len(texts))
    read = [read_field(kind, text) for kind, text in zip(kinds, texts)]
    fields, faults = [it for it, _ in read], [fault for _, some in read for fault in some]
    if form >= 2 and not fields[0].i:
        faults.append('BAD INDEX')
    for fault in ('BAD EXPRESSION', 'BAD INDEX', 'NUMBER TOO LARGE'):
        if fault in faults:
            raise Fault(fault)
    return fields


def kinds_of(fields, n):
    """The kinds of n fields of an operation."""
    if fields.endswith('+'):
        if not 2 <= n <= 16:
            raise Fault('BAD FIELD COUNT')
        return 'j' * n
    kinds = fields.replace('?', '')
    if n != len(kinds) and not (fields.endswith('?') and n == len(kinds) - 1):
        raise Fault('BAD FIELD COUNT')
    return kinds[:n]


def read_field(kind, text):
    """What a field says, and its faults."""
    if kind == 'j':
        return INDEX_WORDS.get(text, 0), [] if text in INDEX_WORDS else ['BAD INDEX']
    text, index = cut_index(text)
    i = INDEX_WORDS.get(index[1:-1], 0)
    value, fault = read_number(kind, text) if kind in 'ns' else read_address(text, i)
    faults = ['BAD INDEX'] if index and (not i or kind != 'x') else []
    return value, faults + [fault]


def read_address(text, i):
    """An address and its fault, or ''."""
    terms = expressions.terms_of(text)
    fault = 'BAD EXPRESSION' if terms is None else 'NUMBER TOO LARGE' if expressions.too_large(terms) else ''
    return Address(terms, i), fault


def read_number(kind, text):
    """A plain number and its fault, or ''; where it may have a sign, a pair with whether that is minus."""
    found = re.fullmatch('([+-]?)([0-9]+)' if kind == 's' else '()([0-9]+)', text)
    if not found:
        return None, 'BAD EXPRESSION'
    number = int(found[2])
    return (found[1] == '-', number) if kind == 's' else number, 'NUMBER TOO LARGE' if number >= 1 << 64 else ''


def cut_index(text):
    """An address and its index part, all from the last `(` on where the field ends with `)`."""
    at = text.rfind('(')
    return (text[:at], text[at:]) if text.endswith(')') and at >= 0 else (text, '')

"""The assembler: three passes over the cards, what is emitted, and the listing.

Follows docs/strap.md from "Three passes" on, and docs/report.md, "The listing".
"""
from dataclasses import dataclass
from types import SimpleNamespace

import cards
import expressions
import formats
import statements
from program import Fault, Program, Refused

MOST_NAMES = 4000
ADDRESSES = 1 << 24
EMITTED = range(32 * 64, 98304 * 64)       # the bits that can be emitted


@dataclass
class Row:
    """A card with what the passes find."""
    card: cards.Card
    statement: statements.Statement = None
    place: int = None                   # as the listing shows it
    bits: int = 0
    size: int = 0                       # how many bits it emits
    passed: int = 0                     # how many bits DR passes over


def assemble(job):
    """The program of a job; raises Refused."""
    rows = [Row(card) for card in cards.split(job)]
    controls, end = form_pass(rows)
    said = [row for row in rows if row.statement]
    symbols = name_pass(said)
    words, start = value_pass(said, symbols)
    controls.set_defaults()
    reader = [row.card.columns for row in rows[end:] if row.card.kind == 'comment']
    return Program(words, start, controls, reader, listing(rows, symbols), first_cards(said))


def over(rows, work):
    """Does something for each row, and refuses the first that has a fault."""
    for row in rows:
        try:
            work(row)
        except Fault as fault:
            raise Refused(row.card.number, fault.args[0]) from None


# The form pass.

def form_pass(rows):
    """Reads each card; gives the controls and the number of the card END."""
    seen = SimpleNamespace(controls=cards.Controls(), end=0)
    over(rows, lambda row: read_card(row, seen))
    if not seen.end:
        raise Refused(len(rows) + 1, 'NO END')
    return seen.controls, seen.end


def read_card(row, seen):
    card = row.card
    after = card.kind == 'statement' and seen.end
    if card.fault and not (after and card.fault == 'BAD NAME'):
        raise Fault(card.fault)
    if after:
        raise Fault('CARD AFTER END')
    if card.kind == 'control':
        if not seen.end:
            raise Fault('BAD CONTROL CARD')
        cards.add_control(card.words, seen.controls)
    if card.kind == 'statement':
        row.statement = statements.read(card.name, card.statement)
        if row.statement.operation.name == 'END':
            seen.end = card.number


# The name pass.

def name_pass(rows):
    """Finds the place of each statement card; gives the symbols in order of definition."""
    seen = SimpleNamespace(location=32 * 64, symbols={}, names={row.statement.name for row in rows})
    over(rows, lambda row: place_card(row, seen))
    return seen.symbols


def place_card(row, seen):
    said = row.statement
    used = [name for address in said.addresses for name in expressions.names_in(address.terms)]
    early = said.operation.name in ('SYN', 'SLC', 'DR')
    if said.name in seen.symbols:
        raise Fault('NAME TWICE')
    if any(name not in seen.names for name in used):
        raise Fault('UNDEFINED SYMBOL')
    if early and any(name not in seen.symbols for name in used):
        raise Fault('SYMBOL NOT EARLIER')
    if said.name and len(seen.symbols) == MOST_NAMES:
        raise Fault('TOO MANY NAMES')
    value = expressions.value_of(said.fields[0].terms, seen.symbols) % ADDRESSES if early else 0
    row.place, location = place_of(said, seen.location, value)
    row.passed = value if said.operation.name == 'DR' else 0
    seen.location = location % ADDRESSES
    if said.name:
        seen.symbols[said.name] = row.place


def place_of(said, location, value):
    """A card's place, and the location behind it."""
    name = said.operation.name
    if name == 'END':
        return None, location
    if name == 'SYN':
        return value, location
    if name == 'SLC':
        return value, value
    if name == 'DD':
        return location, location + said.parts['length']
    unit = 64 if name in ('XW', 'DR') else 32
    place = -(-location // unit) * unit % ADDRESSES
    return place, place + (value if name == 'DR' else size_of(said))


def size_of(said):
    """How many bits an instruction or an index word emits."""
    return 32 if said.operation.group in ('index', 'branch', 'floating') else 64


# The value pass.

def value_pass(rows, symbols):
    """Emits the bits; gives the words, and the start."""
    words = {}
    over(rows, lambda row: emit_card(row, symbols, words))
    return words, field_value(rows[-1].statement.fields[0], symbols)


def emit_card(row, symbols, words):
    row.bits, row.size = emitted(row.statement, symbols)
    covered = row.size + row.passed
    if covered and not (row.place in EMITTED and row.place + covered - 1 in EMITTED):
        raise Fault('LOCATION OUT OF STORAGE')
    put_bits(words, row.place, row.bits, row.size)


def emitted(said, symbols):
    """The bits that a statement emits, and how many; raises Fault."""
    name = said.operation.name
    values = [field_value(field, symbols) for field in said.fields]
    addresses = [value for value, field in zip(values, said.fields) if isinstance(field, statements.Address)]
    if any(not 0 <= address < ADDRESSES for address in addresses[name == 'XW':]):
        raise Fault('ADDRESS OUT OF RANGE')
    if name == 'DD':
        return number_bits(said.parts, *values[0]), said.parts['length']
    if name == 'XW':
        return index_word_bits(*values), 64
    if said.operation.group == 'pseudo':
        if name == 'END' and values[0] % 32:
            raise Fault('NOT ON A BOUNDARY')
        return 0, 0
    return instruction_bits(said, values)


def field_value(field, symbols):
    return expressions.value_of(field.terms, symbols) if isinstance(field, statements.Address) else field


def fit(condition):
    if not condition:
        raise Fault('VALUE DOES NOT FIT')


def instruction_bits(said, values):
    """The bits of an instruction. `values` are its index words, addresses and numbers, in order."""
    operation = said.operation
    parts = dict(operation.parts)
    if operation.name == 'LVS':
        parts |= dict(j=values[0], address=list_bits(values[1:]))
        values = []
    elif operation.fields.startswith('j'):
        parts['j'], *values = values
    if values:
        parts |= dict(address=values[0], i=said.addresses[0].i)
    if operation.group in ('field', 'connective'):
        parts |= said.parts
        parts['offset'] = values[1] if len(values) > 1 else 0
        fit(parts['offset'] <= 127)
    if operation.name in ('T', 'SWAP', 'RD', 'WR'):
        parts['count'] = values[-1]
        fit(1 <= parts['count'] <= (1000 if operation.group == 'order' else 16))
    if operation.group == 'two':
        check_boundary(values[1], 32)
        parts['second'] = values[1] // 32
    halves = size_of(said) // 32
    if halves == 1 and operation.name != 'LVS':
        check_boundary(parts.get('address', 0), 32)
    return formats.encode(formats.Instruction(operation.name, operation.group, halves, **parts))


def check_boundary(value, unit):
    if value % unit:
        raise Fault('NOT ON A BOUNDARY')


def list_bits(index_words):
    """The address of LVS, with a bit for each index word, the first for `$X0`."""
    return sum(1 << 23 - k for k in set(index_words))


def index_word_bits(value, count, refill, flags=0):
    fit(abs(value) < ADDRESSES and count < 1 << 18 and flags < 8)
    check_boundary(refill, 64)
    return abs(value) << 40 | (value < 0) << 39 | flags << 36 | count << 18 | refill // 64


def number_bits(parts, minus, number):
    """A number as a field: its magnitude, and behind it a sign byte where the field is signed."""
    length, byte = parts['length'], parts['byte']
    if parts['unsigned']:
        fit(not minus)
        return magnitude_bits(parts['decimal'], length, byte, number)
    sign = minus << min(byte, 4) - 1
    return magnitude_bits(parts['decimal'], length - byte, byte, number) << byte | sign


def magnitude_bits(decimal, length, byte, number):
    if not decimal:
        fit(number < 1 << length)
        return number
    fit(number < 10 ** (length // byte))
    return sum(int(digit) << byte * k for k, digit in enumerate(reversed(str(number))))


def first_cards(rows):
    """For each half-word in which a card's bits begin, the number of the first such card."""
    cards = {}
    for row in rows:
        if row.size:
            cards.setdefault(row.place // 32, row.card.number)
    return cards


def put_bits(words, place, bits, size):
    """Puts a number of `size` bits into storage, in place of what stood there."""
    while size:
        word, bit = divmod(place, 64)
        n = min(size, 64 - bit)
        part, low = bits >> size - n & (1 << n) - 1, 64 - bit - n
        words[word] = words.get(word, 0) & ~((1 << n) - 1 << low) | part << low
        place, size = place + n, size - n


# The listing.

def place_text(place):
    return f'{place // 64}.{place % 64}'


def listing(rows, symbols):
    return [listed(row) for row in rows] + [f'SYM {name} {place_text(place)}' for name, place in symbols.items()]


def listed(row):
    place = '' if row.place is None else place_text(row.place)
    digits = -(-row.size // 4)
    bits = f'{row.bits << 4 * digits - row.size:0{digits}X}' if digits else ''
    return f'{row.card.number:>5} {place:>9} {bits:<16} {row.card.text}'.rstrip(' ')

"""How an instruction is prepared: fetched, checked and planned.

Follows docs/machine.md, "How an instruction is prepared", and docs/instructions.md for what each one does.
"""
from dataclasses import dataclass, field
from functools import lru_cache

import formats
import indexing as index
from words import AD, EXE, IA, INDEX, INDICATORS, OP, bits_of, ones, part, with_part

COUNTER = ones(19)
ALONE = {'BE', 'BD', 'BEW', 'BB', 'T', 'SWAP', 'SIC', 'RD', 'WR'}
FIELD_STORES = {'ST', 'M+', 'M+MG', 'M+1', 'CM'}
NOT_FETCHED = [formats.Instruction(halves=halves, why='not fetched') for halves in (1, 2)]
decode = lru_cache(1 << 16)(formats.decode)


@dataclass
class Entry:
    """One executed instruction: all that is known of it before its operands are read."""
    place: int                                  # half-word address of the instruction, EX where it is its target
    table: int = None                           # the indicator whose interrupt executes it
    made: formats.Instruction = None            # what is executed, the target where it is EX
    is_ex: bool = False
    words: list = field(default_factory=list)   # the instruction words that are read, one after another
    own: int = 0                                # how many of them are not of the target of EX
    last: int = None                            # the instruction's own last word, where it asks for those behind it
    fault: int = None                           # the indicator of the check that fails
    following: int = 0
    counter: int = 0
    address: int = 0                            # the effective address, or where the field begins
    side: int = None                            # the index-side word
    change: tuple = None                        # an index word that is changed speculatively: its number and the new word
    on: int = 0                                 # its indicators, and those of a comparison
    off: int = 0
    reads: list = field(default_factory=list)
    writes: list = field(default_factory=list)
    store: tuple = None                         # bit address, length and number that completion puts into storage
    cost: int = 1
    alone: bool = False


def prepare(state, table=None):
    """The entry at the counter, or the table instruction of an interrupt."""
    place = state.counter if table is None else (part(state.word(IA), 0, 17) + table & ones(18)) * 2
    entry = Entry(place, table, alone=table is not None)
    entry.fault = fetch_all(state, entry)
    if not entry.fault:
        plan(state, entry)
        entry.fault = failing(state, entry)
    if entry.fault:
        suppress(entry, state)
    else:
        words = entry.reads + entry.writes + ([] if entry.side is None else [entry.side])
        entry.alone |= entry.made.name in ALONE or any(word < 32 for word in words)
    return entry


def suppress(entry, state):
    entry.counter, entry.cost, entry.change, entry.store = entry.following, 1, None, None
    entry.side, entry.reads, entry.writes, entry.on, entry.off = None, [], [], bits_of(entry.fault), 0


# ---- what is fetched

def half(state, place):
    return state.word(place >> 1) >> (0 if place & 1 else 32) & ones(32)


def fetch(state, place):
    """The instruction at a half-word address, the words that were read for it, and the fault where one may not be."""
    first, second = place >> 1, (place + 1 & COUNTER) >> 1
    fault = state.no_fetch(first)
    if fault:
        return NOT_FETCHED[0], [], fault
    half0 = half(state, place)
    if not formats.is_full(half0):
        return decode(half0, 0), [first], None
    fault = second != first and state.no_fetch(second)
    if fault:
        return NOT_FETCHED[1], [first], fault
    return decode(half0, half(state, place + 1 & COUNTER)), [first] if first == second else [first, second], None


def fetch_all(state, entry):
    """Fetches the instruction and the target of EX; gives the indicator of the first check that fails, or None."""
    entry.made, entry.words, fault = fetch(state, entry.place)
    entry.own = len(entry.words)
    last = entry.place + entry.made.halves - 1 >> 1
    entry.following = entry.place + entry.made.halves & COUNTER if entry.table is None else state.counter
    if fault:
        return fault
    if entry.made.name == 'EX':
        entry.is_ex = entry.alone = True
        target = index.effective(entry.made.address, index_word(state, entry.made.i))
        entry.made, words, fault = fetch(state, target >> 5)
        entry.words = entry.words + words
        if fault:
            return fault
    if entry.table is None:
        entry.last = last
    if not entry.made.valid or entry.made.group == 'floating':
        return OP
    return EXE if entry.is_ex and entry.made.name == 'EX' else None


# ---- what is planned: the speculative change, the words, the counter and the cost

def index_word(state, number):
    """The index word whose value is added; number 0 is none."""
    return state.word(INDEX + number) if number else 0


def plan(state, entry):
    made = entry.made
    entry.counter = entry.following
    entry.address = index.effective(made.address, index_word(state, made.i))
    PLANS[made.group](state, entry, made)
    entry.cost = cost(made)


def cost(made):
    if made.name in ('T', 'SWAP'):
        return made.count
    if made.group == 'connective':
        return 2
    if made.group != 'field':
        return 1
    if made.name == 'LCV' or made.name == '/' and not made.decimal:
        return 24
    if made.decimal:
        return 4
    return 12 if made.name in ('*', '*+') else 2


def side_word(state, entry, address):
    """Reads the index-side word, as it was before. The indicator that an interrupt has just taken is off in it."""
    entry.side = address
    word = state.word(address)
    return word & ~bits_of(entry.table) if address == INDICATORS and entry.table is not None else word


def change(state, entry, number, word, refills=False):
    """An index word is changed: its indicators are those of the word before a refill."""
    entry.on, entry.off = index.result(word)
    if refills:
        word = side_word(state, entry, index.refill(word))
    entry.change = number, word


def plan_index(state, entry, made):
    name, j, address, old = made.name, made.j, entry.address, state.word(INDEX + made.j)
    if name in STORED_PARTS:
        first, last = STORED_PARTS[name]
        begin = address // 32 * 32 if name == 'SVA' else address // 64 * 64 + first
        store(entry, begin, last - first + 1, part(old, first, last))
    elif name == 'R':
        word = side_word(state, entry, index.refill(old))
        change(state, entry, j, word)
    elif name in ('V+I', 'V-I', 'V+IC', 'V+ICR'):
        change(state, entry, j, *index.step_on(name, old, address))
    elif name in ('CB', 'CBR'):
        word = index.count_down(old)
        if index.count(word):
            entry.counter = address >> 5
        change(state, entry, j, word, name == 'CBR' and index.count(word) == 0)
    elif name in ('KV', 'KC', 'KVI', 'KCI'):
        number = index.value(old) if name.startswith('KV') else index.count(old)
        if name in ('KVI', 'KCI'):
            operand = address if name == 'KVI' else address >> 6
        else:
            word = side_word(state, entry, address >> 6)
            operand = index.value(word) if name == 'KV' else index.count(word)
        entry.on, entry.off = index.comparison(number, operand)
    else:
        change(state, entry, j, loaded(state, entry, made, old))


# of an index word: the bits that SX, SV, SC, SR and SVA store
STORED_PARTS = {'SX': (0, 63), 'SV': (0, 24), 'SC': (28, 45), 'SR': (46, 63), 'SVA': (0, 18)}
LOADED_PARTS = {'LX': (0, 63), 'LV': (0, 24), 'LC': (28, 45), 'LR': (46, 63)}


def loaded(state, entry, made, old):
    """The index word that a load or an addition makes."""
    name, address = made.name, entry.address
    if name == 'LVS':
        return index.with_value(old, sum(index.value(state.word(INDEX + k)) for k in made.list))
    if name == 'LVI':
        return index.with_value(old, address)
    if name == 'LCI':
        return index.with_count(old, address >> 6)
    if name == 'LRI':
        return index.with_refill(old, address >> 6)
    word = side_word(state, entry, address >> 6)
    if name in LOADED_PARTS:
        first, last = LOADED_PARTS[name]
        return with_part(old, first, last, part(word, first, last))
    old = index.with_value(old, index.value(old) + index.value(word))
    return index.count_down(old) if name == 'V+C' else old


def plan_branch(state, entry, made):
    if made.name in ('B', 'BE', 'BD'):
        entry.counter = entry.address >> 5
    elif made.name == 'BR':
        entry.counter = state.counter + (entry.address >> 5) & COUNTER


def plan_field(state, entry, made):
    """Operations on fields and connectives."""
    if made.form >= 2:
        old = state.word(INDEX + made.i)
        entry.address = index.value(old) & ones(24)
        change(state, entry, made.i, *index.step_on(formats.FORMS[made.form], old, made.address))
    if made.form != 1:
        touched = words_of(entry.address, made.length)
        entry.reads = [] if made.name == 'ST' else touched
        entry.writes = touched if made.name in FIELD_STORES else []


def words_of(bit, length):
    return list(range(bit >> 6, (bit + length - 1 >> 6) + 1))


def store(entry, bit, length, number):
    entry.store = bit, length, number
    entry.writes = words_of(bit, length)


def plan_two(state, entry, made):
    if made.name in ('T', 'SWAP'):
        first, second = (list(range(a, a + made.count)) for a in (entry.address >> 6, made.second >> 1))
        entry.reads, entry.writes = (first, second) if made.name == 'T' else (first + second, first + second)
    elif made.name == 'BB':
        entry.reads = [entry.address >> 6]
        entry.writes = entry.reads if made.after else []
    elif made.name == 'SIC':
        store(entry, entry.address // 32 * 32, 19, entry.following)
        entry.counter = made.second


PLANS = {'index': plan_index, 'branch': plan_branch, 'field': plan_field, 'connective': plan_field, 'two': plan_two,
         'order': lambda state, entry, made: None}


# ---- the checks of its words

def failing(state, entry):
    """The indicator of the first check that fails on a word, or None."""
    checks = [] if entry.side is None else [state.no_read(entry.side)]
    checks += map(state.no_read, entry.reads)
    checks += map(state.no_write, entry.writes)
    if entry.made.group == 'order':
        check = state.no_write if entry.made.name == 'RD' else state.no_read
        first = entry.address >> 6
        checks += [AD if w < 32 else check(w) for w in range(first, first + 8)]
    return next(filter(None, checks), None)

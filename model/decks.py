"""Random jobs with fixed numbers: `made(kind, seed)` gives the words of the command line and the job.

The same kind and seed give the same job. Statements are those of docs/strap.md, control cards and lines of object texts
those of docs/object-text.md. Decks that run long are in running.py, which draws some of its statements here.
"""
import random
import re

import assembler
import expressions
import formats
import objects
import statements
from cards import CONTROLS

INDEXED = [name for name, fields in statements.FIELDS.items() if fields == 'jx']
OPERATIONS = list(formats.FIELD.values())
SYMBOLS = list(expressions.SYSTEM)
LIMITS = [0, 1, 4, 8, 13, 15, 16, 31, 32, 63, 64, 127, 128, 255, 1000, 4096, 98303, 262143, 10**7, (1 << 24) - 1,
          10**12 - 1, (1 << 64) - 1]
NUMBERS = LIMITS + [n + 1 for n in LIMITS]
CODE, DATA = range(40, 58), range(80, 96)       # near words: of a program that runs


class Draw(random.Random):
    """What is drawn. `near` says whether addresses are those of a program that runs."""
    near = False

    def odds(self, part):
        return self.random() < part

    def word(self):
        if not self.near:
            return self.choice([self.randrange(1 << 18), self.randrange(128), self.choice([31, 32, 98303, 98304])])
        return self.choice(self.choices([DATA, CODE, range(7, 32), [0, 3, 98303, 98304]], [72, 10, 15, 3])[0])

    def bit(self):
        return self.choice([0, self.randrange(64)])

    def address(self):
        """A bit address."""
        if self.odds(.06):
            return self.choice(SYMBOLS) + self.choice(['', '+0.1', '+1', '+0.32'])
        return f'{self.word()}.{self.bit()}'

    def half(self):
        return f'{self.word()}.{self.choice([0, 32])}'

    def target(self):
        """Where a branch leads: in a program that runs mostly to its code."""
        return f'{self.choice(CODE)}.{self.choice([0, 32])}' if self.near and self.odds(.97) else self.half()

    def part(self):
        return f'($X{self.randrange(1, 16)})' if self.odds(.25) else ''

    def index(self):
        return f'$X{self.choice([self.randrange(16), self.randrange(1, 5)])}'


# Statements.

def statement(d):
    """An instruction of any kind that has no fault."""
    return d.choices([index_statement, list_statement, other_half, field_statement, connective, two_addresses, order],
                     [30, 3, 8, 40, 8, 10, 2])[0](d)


def index_statement(d):
    return f'{d.choice(INDEXED)},{d.index()},{d.half()}{d.part()}'


def list_statement(d):
    listed = ','.join(d.index() for _ in range(d.randint(1, 9)))
    return d.choice([f'R,{d.index()}', f'LVS,{d.index()},{listed}'])


def other_half(d):
    if d.odds(.2):
        return d.choice(['NOP', 'BEW'])
    name = d.choice(['B', 'BR', 'BE', 'BD', 'EX'])
    return f'{name},{d.choice(["0.32", "1.0", "1.32"]) if name == "BR" and d.near else d.target()}{d.part()}'


def form_group(d, writes):
    if d.odds(.7):
        return ''
    return d.choice(['(IM)'] * (not writes) + [f'({form})' for form in formats.FORMS.values()])


def described(d, mode, form):
    """A mode with a length and a byte size that fit."""
    most = 24 if form == '(IM)' else 64
    byte = d.randint(4 if mode[0] == 'D' else 1, 8)
    if mode[0] == 'D':
        length = byte * d.randint(1, most // byte)
    else:
        length = d.choice([d.randint(1 if mode == 'BU' else byte, most), most])
    return f'({mode},{length},{byte})'


def addressed(d, form):
    """The address of an operation on a field, and its offset."""
    part = f'($X{d.randrange(1, 16)})' if form[1:2] == 'V' else d.part()
    place = f'{d.choice([0, 0, 1, 2])}.{d.bit()}' if form[1:2] == 'V' and d.near else d.address()
    return place + part + d.choice(['', '', f',{d.randint(0, 127)}', f',{d.randint(0, 16) * 4}'])


def field_statement(d):
    name = d.choice(OPERATIONS)
    if d.odds(.02) and name in formats.FLOATING:
        return f'{name}({d.choice("NU")}),{d.half()}{d.part()}'
    form = form_group(d, name in formats.WRITING)
    groups = described(d, d.choice(['B', 'BU', 'D', 'DU']), form) + form
    if form != '(IM)' and d.odds(.1):
        groups = form
    return f'{name}{"N" * d.odds(.3)}{groups},{addressed(d, form)}'


def connective(d):
    name = d.choice(['C', 'CM', 'CT'])
    form = form_group(d, name == 'CM')
    return f'{name}{d.randrange(16):04b}{described(d, "BU", form)}{form},{addressed(d, form)}'


def two_addresses(d):
    name = d.choice(['T', 'SWAP', 'SIC', 'BB', 'BB', 'BI', 'BI'])
    if name in ('T', 'SWAP'):
        return f'{name},{d.address()}{d.part()},{d.half()},{d.choice([1, 2, 3, d.randint(1, 16)])}'
    if name == 'SIC':
        return f'SIC,{d.half()}{d.part()},{d.target()}'
    change = d.choice(['', 'Z', 'S', 'V'] if name == 'BB' else ['', 'Z'])
    first = d.choice(SYMBOLS) if d.odds(.05) else f'0.{d.bit()}' if name == 'BI' else d.address() + d.part()
    return f'{name}{d.randrange(2)}{change},{first},{d.target()}'


def order(d):
    return f'{d.choice(["RD", "WR"])},{d.word()}{d.part()},{d.choice([1, 2, 5, d.randint(1, 1000)])}'


def number(d):
    digits = sum(d.randrange(10) << 4 * k for k in range(16))
    return d.choice([0, 1, 9, d.getrandbits(24), d.getrandbits(64), (1 << 64) - 1, d.getrandbits(18) << 40, digits,
                     d.getrandbits(8) << 56])


def constant(d):
    """A number or an index word that has no fault."""
    if d.odds(.3):
        value = d.choice([f'{d.choice(DATA)}.{d.bit()}', f'{d.randrange(3)}.{d.bit()}', '-0.1', '-262143.63'])
        return f'XW,{value},{d.choice([0, 1, 2, 262143])},{d.choice(DATA)}' + d.choice(['', f',{d.randrange(8)}'])
    sign = d.choice(['', '-', '+'])
    return d.choice([f'DD(BU,64),{number(d)}', f'DD(B,{d.randint(20, 64)},8),{sign}{d.randrange(4096)}',
                     f'DD(D,{4 * d.randint(6, 16)},4),{sign}{d.randrange(10**5)}'])


def card(text, name=''):
    return f' {name:<8}{text}'


# Control cards.

def delays(d):
    style = d.choice([[1], [2], [255], [1, 5, 3, 17], [d.randint(1, 20) for _ in range(12)],
                      [d.randint(1, 255) for _ in range(5)]])
    return '/DELAYS ' + ' '.join(map(str, style))


def controls(d, budget, listed=True):
    """Control cards that have no fault."""
    deck = ['/TRACE', '/TIME', '/CHART', f'/BACK {d.randint(1, 64)}'] + ['/LIST'] * listed
    deck = [control for control in deck if d.odds(.5)] + [f'/BUDGET {d.randint(1, budget)}'] + [delays(d)] * d.odds(.9)
    counts = sorted(d.randrange(40) for _ in range(d.choice([0, 0, 1, 2, 5])))
    deck += [f'/SIGNAL {count} {d.randrange(14)}' for count in counts]
    ticks = sorted({d.choice([d.randrange(60), d.randrange(600)]) for _ in range(d.choice([0, 0, 1, 3]))})
    deck += [f'/SNAP {tick}' for tick in ticks]
    return deck + [d.choice(['/DUMP 32 200', '/DUMP 7 80', '/DUMP 98300 98303'])] * d.odds(.8)


# How many numbers a control card has, and the most that they can be.
KEYWORDS = {kind.keyword: (3 if kind.listed else kind.numbers, kind.limits[-1][1] if kind.limits else 0) for kind in CONTROLS}


def controls_deck(d):
    """Control cards, of which some are at their limits and some past them."""
    deck = [card('END,32.0')]
    for keyword in d.choices(list(KEYWORDS), k=d.randint(1, 6)):
        count, most = KEYWORDS[keyword]
        numbers = sorted(d.choice([1, most, d.randint(1, most)]) for _ in range(count))
        numbers = [d.choice(NUMBERS) if d.odds(.05) else n for n in numbers]
        words = [f'{n:0{d.choice([1, 1, 5, 12])}}' for n in numbers]
        deck.append((' ' * d.randint(1, 3)).join([f'/{keyword}', *words]))
    return text(deck)


# Jobs.

def text(deck):
    return ''.join(line + '\n' for line in deck)


def statement_deck(d):
    """All that can be assembled, with names."""
    deck = []
    for k in range(d.randint(3, 40)):
        kind = d.random()
        if kind < .7:
            deck.append(card(statement(d), f'N{k}' * d.odds(.2)))
        elif kind < .9:
            deck.append(card(constant(d), f'N{k}' * d.odds(.2)))
        elif kind < .95:
            deck.append(card(d.choice([f'DR,{d.randrange(4)}.{d.bit()}', f'SLC,{d.randrange(32, 98000)}.{d.bit()}'])))
        else:
            name = f'N{k}'
            comment = '* ' + 'ABC' * d.randrange(27)
            deck.append(d.choice([card(f'SYN,{d.half()}', name), card(f'B,{name}', name), comment]))
    return text(deck + [card('END,32.0')] + controls(d, 40) + ['*CARD'] * d.odds(.1))


STEMS = 'L LN ST LVI LVS R B BEW T RD C0110 CM0001 C01 BB0 BI1S SIC DD XW SYN SLC DR END EX X'.split()
GROUPS = ('(BU) (B,9,3) (D,10) (BU,24) (DU,12,6) (N) (U) (X) (BU,65) (B,8,9) (BU (IM) (V+I) (V-ICR) (V+I () ) (BU,)'
          ' (BU,024) (IM)(V+I) ((IM) (DU,3) (B,8,) (BU,1,1) (N,64)').split()
RIGHT = {'j': ['$X1', '$X0'], 'x': ['5', '100.0($X1)', '-1+2'], 'a': ['5', '1-0.32'],
         'n': ['1', '16', '17', '1001', '128'], 's': ['+7', '-0', '99']}
WRONG = ('-1 $X16 $X01 A B1 A+1 A-B 5($X0) 5) 5( 1.64 262144 18446744073709551616 1.5 --1 $Q $MASK 3,4 ($X1) A($X2)'
         ' 5($X1)($X2) 5() .5 1. a $ $12345678 + 0.1').split() + ['']


def pieces_deck(d):
    """Statements put together from pieces, right and wrong."""
    deck = []
    for k in range(d.randint(1, 3)):
        stem = d.choice(STEMS)
        name = d.choice(['A', 'B1', '9', 'A B', '']) if d.odds(.1) else 'S' * (stem == 'SYN')
        deck.append(card(pieces(d, stem)[:63], name))
    return text(deck + [card('END,32.0', 'E' * d.odds(.05))])


def pieces(d, stem):
    groups = d.choices(GROUPS, k=d.choice([0, 0, 1, 2]) if stem in ('L', 'ST', 'DD', 'C0110') or d.odds(.1) else 0)
    operation = statements.operation_of(stem)
    kinds = operation.fields.strip('?+') if operation else 'x'
    fields = [d.choice(RIGHT[kind] if d.odds(.8) else WRONG) for kind in kinds] + ['1'] * d.odds(.1)
    return ','.join([stem + ''.join(groups), *fields]) + d.choice(['', ' ;', ' ; )('])


def names_deck(d):
    """Names defined and used early, late, twice and never, and places past the ends."""
    deck, names = [], 'ABCDEFGH'[:d.randint(2, 8)]
    for name in names:
        operation = d.choice(['B,#', 'L,#', 'SYN,#', 'DR,#', 'SLC,#', 'LVI,$X1,#', 'DD(BU,13),5', 'XW,5,1,#', 'L,#'])
        used = d.choice([name, 'A', 'I']) if d.odds(.05) else d.choice(names[:names.index(name)] or '7')
        used = d.choice(names) if operation[0] in 'LX' else used
        term = d.choice(['$L', '0.32', '98303', '0.1', '7', '0.32', '64'])
        field = '-' * d.odds(.05) + d.choice([used, used + d.choice('++-') + term, f'{term}+{used}', term])
        if operation == 'SLC,#':
            deck.append(card('NOP', name))
        deck.append(card(operation.replace('#', field), name if operation != 'SLC,#' else '' if d.odds(.95) else 'A'))
    return text(deck + [card('END,' + d.choice(['32.0', '32.0', 'A', '0.1']))])


def edges_deck(d):
    """Places at the ends of storage and of addresses, with names that are used before they are there."""
    deck = [card(f'{d.choice(["B", "L", "L", "XW,0,0"])},{d.choice("ABC")}{d.choice(["", "", "+0.1", "-0.32"])}')]
    word = d.choice([31, 32, 32, 98302, 98302, 98303, 98304, 262142, 262143])
    deck.append(card(f'SLC,{word}.{d.choice([0, 1, 31, 32, 63])}'))
    for name in 'ABC':
        passed = f'{d.choice([0, 0, 1, 2])}.{d.choice([0, 1, 63])}'
        number = f'DD({d.choice(["BU", "B"])},{d.randint(8, 64)}),{d.choice(["0", "255", "-0", "+1"])}'
        value = d.choice(['', '-']) + d.choice(['262143.63', '0', '0.1', '262143.63+0.1'])
        index = f'XW,{value},262143,{d.choice([0, 262143])},7'
        deck.append(card(d.choice([f'DR,{passed}', number, 'NOP', 'L,1', index]), name))
    return text(deck + [card('END,32.0')])


WISHES = {                  # what stands several times: how often at most, and the k-th of them
    'SNAP': (64, lambda k: f'{k}'), 'DUMP': (16, lambda k: f'0 {k}'), 'SIGNAL': (4096, lambda k: f'{k} {k % 14}'),
    'DELAY': (4096, lambda k: f'{k % 255 + 1}')}


def limits_job(d):
    """As many wishes of a kind, or names, as there may be, or one more or less; as a deck or as an object text."""
    if d.odds(.3):
        return 'assemble', many_names(d)
    keyword, (most, wish) = d.choice(list(WISHES.items()))
    count = most + d.choice([-1, 0, 1])
    lines = [f'{keyword} {wish(k)}' for k in range(count)]
    if d.odds(.5):
        cards = ['/' + line.replace('DELAY', 'DELAYS') for line in lines]
        return 'assemble', text([card('END,32.0'), *cards, *['/DELAYS 7'] * d.odds(.3)])
    delays = lines if keyword == 'DELAY' else ['DELAY 1']
    lines = [] if keyword == 'DELAY' else lines
    return 'disassemble', text(['OBJECT', 'START 32.0', 'BUDGET 1', *delays, *lines, 'FIN'])


def many_names(d):
    """About as many names as there may be, and cards with names that are twice, unknown or too late behind them."""
    deck = [card('NOP', f'N{k}') for k in range(4000 - d.randint(0, 2))]
    last = [card('NOP', 'N7'), card('B,NONE', 'LAST'), card('SYN,END', 'A'), card('NOP', 'B'), card('SLC,N9')]
    return text(deck + d.sample(last + [card('NOP', 'END')], d.randint(1, 5)) + [card('END,32.0')])


def mutated(d, job):
    """A job with a few characters, numbers or cards changed, dropped, doubled or put elsewhere."""
    for _ in range(d.choice([1, 1, 2, 3])):
        job = d.choice([mutated_character, mutated_character, mutated_number, mutated_card])(d, job)
    return job


def mutated_character(d, job):
    at = d.randrange(len(job))
    new = d.choice(['', job[at] * 2, d.choice(' ,().;+-*/$BXINUZVM\n'), d.choice(' ,()'), d.choice('\r\t\x80a'),
                    *d.choices('0159ABCF', k=3)])
    return job[:at] + new + job[at + 1:]


def mutated_number(d, job):
    starts = [at for at in range(len(job)) if job[at].isdigit() and not (at and job[at - 1].isdigit())]
    at = d.choice(starts or [0])
    end = next((k for k in range(at, len(job)) if not job[k].isdigit()), len(job))
    old = int(job[at:end] or 0)
    return job[:at] + str(d.choice([d.choice(NUMBERS), old + 1, max(old - 1, 0), f'0{old}'])) + job[end:]


def mutated_card(d, job):
    lines = job.split('\n')
    at, to = d.randrange(len(lines)), d.randrange(len(lines))
    line = lines[at]
    kept = lines[:at] + lines[at + 1:]
    change = d.choice(['drop', 'move', 'double', 'lengthen'])
    if change == 'move':
        kept.insert(to, line)
    if change == 'double':
        kept = lines[:to] + [line] + lines[to:]
    if change == 'lengthen':
        kept.insert(at, line.ljust(d.choice([73, 79, 80, 81])) + d.choice(['', 'X']))
    return '\n'.join(kept)


def object_text(d):
    """The object text of a program of random words, many of them instructions."""
    deck = [card(f'SLC,{d.choice([32, 33, d.randrange(32, 90000)])}')]
    for _ in range(d.randint(1, 25)):
        deck.append(card(d.choice([statement, constant, lambda d: f'DD(BU,64),{spelled(d)}'])(d)))
    job = text(deck + [card('END,32.0')] + controls(d, 30, False))
    return objects.write_object(assembler.assemble(job.encode())).decode()


def spelled(d):
    """A word that nearly is an instruction: some of the bits that tell kinds apart are set for it."""
    word = d.getrandbits(64)
    if d.odds(.7):
        word = word | 0xF0 << 32 if d.odds(.6) else word & ~(0x10 << 32)
        word &= ~(0xF if d.odds(.7) else 0) & ~(0x1000 if d.odds(.6) else 0xC0)
    return word & ~(7 << 29 if d.odds(.4) else 0)


def object_job(d):
    """A mutated object text; it is run only where its budget is small."""
    job = mutated(d, object_text(d))
    return d.choice(['load', 'disassemble']) if re.search('BUDGET [0-9]{1,3}\n', job) else 'disassemble', job


def soak_job(d):
    return f'soak {d.getrandbits(64)} {d.choice([1, 3, 40, d.randint(1, 200)])}', ''


KINDS = {                   # of each kind the words of the command line and the job
    'statements': lambda d: ('assemble', statement_deck(d)),
    'listed': lambda d: ('run', statement_deck(d)),
    'controls': lambda d: ('assemble', controls_deck(d)),
    'faulty': lambda d: ('assemble', mutated(d, statement_deck(d))),
    'pieces': lambda d: ('assemble', pieces_deck(d)),
    'names': lambda d: ('assemble', names_deck(d)),
    'edges': lambda d: ('assemble', edges_deck(d)),
    'limits': limits_job,
    'returned': lambda d: ('disassemble', object_text(d)),
    'objects': object_job,
    'soaks': soak_job}


def made(kind, seed):
    """The words of the command line and the job."""
    words, job = KINDS[kind](Draw(f'{kind} {seed}'))
    return words.split(' '), job.encode('latin-1')

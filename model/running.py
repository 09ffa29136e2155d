"""Random decks that run, with fixed numbers: `made(kind, seed)` gives the words of the command line and the job.

Each kind looks at something else; all have random data, index words, delays, and wishes for the report.
"""
import decks
import formats

CODE, DATA, TABLE = 40, 80, 128                 # where these begin; a deck has at most 20 words of data
FIELDS = [*formats.FIELD.values()]
INDEX_PLAIN = ['LVI', 'LCI', 'LRI', 'V+I', 'V-I', 'V+IC', 'KVI', 'KCI', 'V+ICR', 'CB', 'CBR']
INDEX_READING = ['LX', 'LV', 'LC', 'LR', 'V+', 'V+C', 'KV', 'KC']
INDEX_STORES = ['SX', 'SV', 'SC', 'SR', 'SVA']
INDICATORS = ['$XCZ', '$XVLZ', '$XVZ', '$XVGZ', '$XL', '$XE', '$XH', '$MOP', '$RLZ', '$RZ', '$RGZ', '$RN', '$AL', '$AE',
              '$AH', '$LC', '$PF', '$XF', '$EOP', '$CBJ']


class Draw(decks.Draw):
    """What is drawn for one deck. `words` are the words that its statements speak of, few so that they meet."""
    near = True
    code = 12               # how many words the instructions take, and at which of them the deck is
    at = 0
    registers = 3           # how much weight registers have among addresses,
    faults = 2              # and words that do not exist
    burst = 0

    def some(self, *weighted):
        """One of the things that stand behind weights."""
        return self.choices(weighted[1::2], weighted[::2])[0]

    def data(self):
        return self.some(40, DATA + self.randrange(4), 40, DATA + self.randrange(16),
                         5, CODE + self.randrange(self.code),
                         self.faults, self.choice([31, 32, 98303, 98304]),
                         self.registers, self.some(1, self.randrange(32), 1, 11), 4, 65535 + self.randrange(4))

    def bit(self):
        return self.some(5, 0, 2, 32, 3, self.randrange(64))

    def place(self):
        """A half-word of the program, often one that comes soon."""
        word = self.some(1, self.randrange(self.code + 1), 1, self.at * 3 // 4 + self.randrange(4))
        return f'{CODE + word}.{self.choice([0, 0, 32])}'

    def part(self):
        return self.some(4, '', 1, f'($X{self.randrange(1, 8)})')


# ---- statements

def on_index(d):
    name = d.some(8, d.choice(INDEX_PLAIN), 6, d.choice(INDEX_READING), 4, d.choice(INDEX_STORES), 1, 'LVS', 1, 'R')
    j = d.randrange(8)
    if name in ('R', 'LVS'):
        return f'{name},$X{j}' + f',$X{d.randrange(8)},$X{d.randrange(8)}' * (name == 'LVS')
    if name in ('CB', 'CBR'):
        return f'{name},$X{j},{d.place()}'
    if name in INDEX_READING + INDEX_STORES:
        return f'{name},$X{j},{d.data()}.{d.choice([0, 32])}{d.part()}'
    return f'{name},$X{j},{d.some(3, d.randrange(3), 2, d.data())}.{d.choice([0, 32])}{d.part()}'


def on_field(d):
    name = d.some(5, d.choice(FIELDS), 1, 'ST', 1, d.choice(['*', '/', 'LCV']),
                  1, d.choice(['C0110', 'CM0111', 'CT0001']))
    sort = 'BU' if name[0] == 'C' else d.choice(['B', 'BU', 'BU', 'BU', 'D', 'DU'])
    form = d.some(8, '', 1, '(IM)' if name[:2] != 'CM' and name not in formats.WRITING else '',
                  3, f'({d.choice([*formats.FORMS.values()])})')
    byte = d.randint(4 if sort[0] == 'D' else 1, 8)
    most = 24 if form == '(IM)' else 64
    length = byte * d.randint(1, most // byte) if sort != 'BU' else d.some(1, most, 1, d.randint(1, most))
    offset = d.some(3, '', 1, f',{d.randrange(128)}')
    address = f'{d.randrange(2)}.{d.bit()}($X{d.randrange(1, 8)})' if 'V' in form else f'{d.data()}.{d.bit()}{d.part()}'
    return f'{name}{"N" * (name[0] != "C" and d.odds(.2))}({sort},{length},{byte}){form},{address}{offset}'


def branch(d):
    sense, indicator = d.randrange(2), d.choice(INDICATORS)
    bit = f'{d.choice(["", "Z", "S", "V"])},{d.data()}.{d.bit()}'
    return d.some(5, f'BI{sense}{d.choice(["", "Z"])},{indicator},{d.place()}', 2, f'B,{d.place()}',
                  2, f'EX,{d.place()}', 1, f'EX,{d.data()}.0', 1, f'BB{sense}{bit},{d.place()}',
                  1, f'BR,0.{d.choice([32, 0])}', 1, f'SIC,{d.place()},{d.place()}', 1, f'BD,{d.place()}',
                  1, f'BE,{d.place()}')


def move(d):
    count = d.some(3, d.randint(1, 3), 1, d.randint(1, 16))
    return f'{d.choice(["T", "SWAP"])},{d.data()}.0{d.part()},{d.data()}.0,{count}'


def order(d):
    return f'{d.choice(["RD", "WR"])},{DATA + d.randrange(12)}.0,{d.some(3, d.randint(1, 4), 1, d.randint(1, 30))}'


def ahead(d):
    """Mostly what is not done alone; behind some long operations what is prepared at once."""
    if d.burst:
        d.burst -= 1
        j = d.randrange(8)
        return d.some(3, f'V+I,$X{j},{d.randrange(2)}.32', 1, f'LVI,$X{j},{d.data()}.0', 1, on_index(d), 1, on_field(d),
                      2, f'BI{d.randrange(2)},{d.choice(INDICATORS)},{d.place()}')
    if d.odds(.2):
        d.burst = d.randint(2, 6)
        return f'{d.choice(["*", "/", "LCV", "*+"])}(BU,{d.randint(1, 64)}),{DATA + d.randrange(8)}.0'
    late_store = d.choice([f'ST(BU,{d.choice([32, 64])}),', f'{d.choice(INDEX_STORES)},$X{d.randrange(8)},',
                           'M+1(BU,24),'])
    return d.some(12, on_index(d), 10, on_field(d), 2, branch(d), 1, late_store + d.place())


def mixed(d):
    return d.some(4, on_index(d), 4, on_field(d), 2, branch(d), 1, move(d), 1, decks.statement(d))


def with_orders(d):
    return d.some(6, ahead(d), 1, branch(d), 3, order(d), 1, 'BEW')


def any_word(d):
    """Two halves of random bits, or one instruction with a bit turned."""
    return f'DD(BU,64),{d.some(2, d.getrandbits(64), 3, decks.spelled(d))}'


# ---- decks

def card(text):
    return ' ' * 9 + text


def constant(d, odds=.4):
    """A number, or with these odds an index word."""
    if d.odds(odds):
        value = d.some(4, f'{d.randrange(3)}.{d.bit()}', 4, f'{d.data()}.{d.bit()}', 1, f'-{d.randrange(3)}.{d.bit()}')
        return f'XW,{value},{d.some(3, d.randrange(4), 1, 262143)},{d.data()},{d.some(4, 0, 1, d.randrange(8))}'
    return f'DD(BU,64),{decks.number(d)}'


def boundary(d):
    """Upper and lower bound and control bit: none, some of the data, a few words, or all but the program."""
    low = d.choice([DATA, DATA + d.randrange(16), CODE + d.randrange(d.code)])
    high = low + d.choice([1, 2, 8, 0, -1])
    return d.some(6 if d.faults else 60, 0, 4, high << 46 | low << 14, 1, 200 << 46 | 1 << 6, 1, d.getrandbits(64))


def deck_of(d, statement, table_statement, enabled, count):
    """The program: words 90 .. of registers are moved to their places first."""
    d.code, d.registers, d.faults = max(count * 3 // 4, 1), d.some(4, 3, 1, 40, 5, 0), d.some(1, 2, 2, 0)
    deck = [card('T,120.0,$IA,2'), card('T,122.0,$L,4'), card(f'T,96.0,$X{d.randrange(3)},{d.randint(1, 12)}')]
    deck += [card(f'{"BE" if enabled else "BD"},{CODE}.0'), card(f'SLC,{CODE}.0')]
    for d.at in range(count):
        deck.append(card(statement(d)))
    deck.append(card('BEW'))
    deck += [card(f'SLC,{DATA}.0')] + [card(constant(d)) for _ in range(16)]
    deck += [card('SLC,96.0')] + [card(constant(d, .4 if d.faults else .97)) for _ in range(12)]
    deck += [card('SLC,120.0'), card(f'XW,{d.some(20, TABLE, 1, 98290, 1, 262132)}.0,0,0')]
    deck += [card(f'DD(BU,64),{boundary(d)}')]
    deck += [card(f'DD(BU,64),{decks.number(d)}') for _ in range(3)]
    deck += [card(f'DD(BU,64),{d.some(5, 0, 3, d.getrandbits(44), 1, d.getrandbits(64))}')]
    if d.odds(.15):
        deck[3:3] = [card('T,127.0,$MASK,1')]
        deck += [card('SLC,127.0'), card(f'DD(BU,64),{d.getrandbits(64)}')]
    for indicator in range(48):
        if d.odds(.95):
            deck += [card(f'SLC,{TABLE + indicator}.0'), card(table_statement(d))]
    return deck + [card('END,32.0')]


def table_entry(d):
    own = f'{d.choice(INDEX_READING)},$X{d.randrange(8)},$IND'      # the indicator that is taken is off in it
    return d.some(3, 'NOP', 2, on_index(d), 1, on_field(d), 2, branch(d), 1, f'BD,{d.place()}', 1, move(d), 1, order(d),
                  1, own)


def delays(d):
    return '/DELAYS ' + ' '.join(map(str, d.some(
        5, [1], 2, [d.randint(1, 9)], 1, [255], 2, [1, 5, 3, 17], 2, [d.randint(1, 6) for _ in range(d.randint(2, 12))],
        1, [d.randint(1, 255) for _ in range(d.randint(2, 9))])))


def wishes(d, snaps):
    cards = [delays(d), f'/BUDGET {d.some(3, 40, 1, d.randint(1, 60))}', '/CHART', '/TIME']
    counts = sorted(d.randrange(30) for _ in range(d.some(3, 0, 2, 1, 2, d.randint(2, 6))))
    cards += [f'/SIGNAL {count} {d.randrange(14)}' for count in counts]
    ticks = sorted(d.sample(range(d.choice([60, 150, 600])), snaps))
    cards += [f'/SNAP {tick}' for tick in ticks]
    cards += [f'/DUMP {DATA} {DATA + 19}'] * d.odds(.8) + ['/DUMP 0 70'] * d.odds(.3)
    return cards + ['/TRACE'] * d.odds(.2) + [f'/BACK {d.randint(1, 64)}'] * d.odds(.3) + ['/LIST'] * d.odds(.05)


def reader_cards(d):
    cards = [d.choice(['*', '*A CARD', '*' + 'BANK' * 16, '*' + ''.join(chr(d.randint(32, 126)) for _ in range(70))])
             for _ in range(d.randrange(5))]
    return cards + [''] * d.odds(.2)


KINDS = {       # statement, statement of the table, odds of enabled interrupts, whether the reader has cards, words
    'overlap': (ahead, table_entry, .3, False, 'run'),
    'mixed': (mixed, table_entry, .6, False, 'run'),
    'devices': (with_orders, table_entry, .8, True, 'run'),
    'bits': (lambda d: d.some(1, any_word(d), 1, mixed(d)), table_entry, .5, True, 'run'),
    'levels': (lambda d: d.some(8, ahead(d), 1, with_orders(d)), table_entry, .2, False, 'sweep')}


def made(kind, seed):
    statement, table_statement, odds, cards, words = KINDS[kind]
    d = Draw(f'{kind} {seed}')
    deck = deck_of(d, statement, table_statement, d.odds(odds), d.randint(3, 24))
    deck += wishes(d, d.some(1, 0, 1, 1, 2, d.randint(2, 12))) + (reader_cards(d) if cards else [])
    return words.split(), ''.join(line + '\n' for line in deck).encode()

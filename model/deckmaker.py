"""The made deck of the command `soak`. Follows docs/deck.md."""


class Draws:
    """A linear congruential generator that stands at its seed."""

    def __init__(self, seed):
        self.x = seed

    def below(self, m):
        self.x = (6364136223846793005 * self.x + 1442695040888963407) % (1 << 64)
        return (self.x >> 33) % m

    def within(self, first, last):
        return first + self.below(last - first + 1)


FORMS = [               # the statements, with letters for what is drawn, in the order in which it is drawn
    ('jw', 'LVI,$X{j},{w}.0'),
    ('jd', 'V+I,$X{j},{d}.0'),
    ('w', 'L(BU,64),{w}.0'),
    ('lwbo', '+(BU,{l}),{w}.{b},{o}'),
    ('lwbo', 'ST(BU,{l}),{w}.{b},{o}'),
    ('lwb', 'M+1(B,{l},8),{w}.{b}'),
    ('lwbo', 'C0110(BU,{l}),{w}.{b},{o}'),
    ('lj', '*(BU,{l})(V+I),0.32($X{j})')]
RANGES = {'j': (1, 7), 'w': (4096, 4351), 'b': (0, 63), 'o': (0, 63), 'd': (0, 3), 'l': (1, 64)}


def made_deck(seed, cards):
    """The deck of a seed and a number of cards, as bytes."""
    draws = Draws(seed)
    deck = ['         ' + drawn_card(draws) for _ in range(cards)]
    deck += ['         BEW', '         END,32.0', f'/BUDGET {cards + 2}']
    deck += [f'/DELAYS {draws.within(1, 20)}' for _ in range(16)]
    return ''.join(card + '\n' for card in deck + ['/TIME']).encode()


def drawn_card(draws):
    form = draws.below(8)
    letters, statement = FORMS[form]
    drawn = {}
    for letter in letters:
        drawn[letter] = draws.within(*((8, 64) if form == 5 and letter == 'l' else RANGES[letter]))
    return statement.format(**drawn)

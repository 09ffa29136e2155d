"""Jobs cut into cards, and control cards. Follows docs/strap.md, "Cards", "Names" and "Control cards"."""
import re
from collections.abc import Callable
from dataclasses import dataclass

from program import Fault

MOST_CARDS = 20000
NAME = re.compile(r'[A-Z][A-Z0-9]{0,7}')
NUMBER = re.compile(r'[0-9]{1,12}')


@dataclass
class Card:
    number: int
    kind: str           # 'comment', 'control' or 'statement'
    text: str           # without the line's end
    fault: str          # what shows on the card by itself, or ''

    @property
    def name(self):
        return self.text[1:9].strip(' ')

    @property
    def statement(self):
        return self.text[9:72]

    @property
    def words(self):
        """A control card's words."""
        return [word for word in self.text[:72].split(' ') if word]

    @property
    def columns(self):
        """What the reader takes of a card: columns 2 to 65, with blanks where the card has none."""
        return self.text[1:65].ljust(64).encode()


def lines_of(job):
    """The lines of a job without their ends."""
    lines = job.decode('latin-1').split('\n')
    last = lines.pop()
    lines = [line[:-1] if line.endswith('\r') else line for line in lines]
    return lines + [last] if last else lines


def split(job):
    """The cards of a job. The 20,001st has its fault, and none follows it."""
    lines = lines_of(job)[:MOST_CARDS + 1]
    return [Card(n, kind_of(line), line, fault_of(n, line)) for n, line in enumerate(lines, 1)]


def kind_of(line):
    if not line[:72].strip(' ') or line[0] == '*':
        return 'comment'
    return 'control' if line[0] == '/' else 'statement'


def fault_of(number, line):
    if number > MOST_CARDS:
        return 'TOO MANY CARDS'
    if any(not ' ' <= byte <= '~' for byte in line):
        return 'NOT ASCII'
    if len(line) > 80:
        return 'CARD TOO LONG'
    if kind_of(line) == 'statement' and line[0] != ' ':
        return 'BAD NAME'
    return ''


# Control cards.

@dataclass
class Control:
    """A kind of control card: a row of the table of strap.md, in its order."""
    keyword: str
    field: str                                          # of Controls
    limits: list                                        # the least and the most of each number of a request
    most: int = 1                                       # how many requests there may be
    fits: Callable = lambda before, *numbers: True      # whether numbers fit each other, and the requests before them
    default: int = 0                                    # the number where no card asks; 0 where there is none
    listed: bool = False                                # a card has one request or more, one for each number

    @property
    def numbers(self):
        """How many numbers a request has."""
        return len(self.limits)

    def allows(self, before, numbers):
        return (len(numbers) == self.numbers and self.fits(before, *numbers)
                and all(least <= n <= most for n, (least, most) in zip(numbers, self.limits)))


CONTROLS = [
    Control('BUDGET', 'budget', [(1, 10_000_000)], default=1000),
    Control('DELAYS', 'delays', [(1, 255)], 4096, default=1, listed=True),
    Control('SIGNAL', 'signals', [(0, 10_000_000), (0, 13)], 4096,
            lambda before, count, indicator: not before or before[-1][0] <= count),
    Control('DUMP', 'dumps', [(0, 98303), (0, 98303)], 16, lambda before, first, last: first <= last),
    Control('TRACE', 'trace', []),
    Control('TIME', 'time', []),
    Control('CHART', 'chart', []),
    Control('SNAP', 'snaps', [(0, 10**12 - 1)], 64, lambda before, tick: not before or before[-1] < tick),
    Control('BACK', 'back', [(1, 64)]),
    Control('LIST', 'list', [])]
KIND = {kind.keyword: kind for kind in CONTROLS}


class Controls:
    """What control cards ask for, a field for each kind. Numbers are 0, lists empty and marks off where no card asked."""

    def __init__(self):
        for kind in CONTROLS:
            setattr(self, kind.field, [] if kind.most > 1 else 0 if kind.numbers else False)

    def requests(self, kind):
        """The numbers of each request of a kind, in the order of their cards."""
        held = getattr(self, kind.field)
        held = held if kind.most > 1 else [held] if held else []
        return [one if kind.numbers > 1 else (one,) * kind.numbers for one in held]

    def add(self, kind, numbers):
        """Adds a request; raises Fault where it is past a limit."""
        held = getattr(self, kind.field)
        count = len(held) if kind.most > 1 else bool(held)
        if count >= kind.most or not kind.allows(held, numbers):
            raise Fault('BAD CONTROL CARD')
        if kind.most > 1:
            held.append(tuple(numbers) if kind.numbers > 1 else numbers[0])
        else:
            setattr(self, kind.field, numbers[0] if numbers else True)

    def set_defaults(self):
        for kind in CONTROLS:
            if kind.default and not self.requests(kind):
                self.add(kind, [kind.default])


def add_control(words, controls):
    """Adds what a control card asks for."""
    kind, numbers = KIND.get(words[0][1:]), words[1:]
    if not kind or not all(map(NUMBER.fullmatch, numbers)) or kind.listed and not numbers:
        raise Fault('BAD CONTROL CARD')
    numbers = [int(number) for number in numbers]
    for request in [[number] for number in numbers] if kind.listed else [numbers]:
        controls.add(kind, request)

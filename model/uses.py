"""The words that an entry uses, and the reads that are made for them. Follows docs/ledger.md, "Uses"."""
from dataclasses import dataclass, field

from timetable import Bus, bank


@dataclass
class Read:
    """A read with its ticks, the row that asks for it, and the read before it in its segment."""
    row: int
    word: int
    want: int
    turn: int                   # the first tick at which the bus is free
    free: int                   # the tick at which the bank is
    accept: int
    answer: int
    before: 'Read'
    fetched: bool = False       # of an instruction word

    @property
    def bank(self):
        return bank(self.word)


@dataclass
class Use:
    kind: str                   # 'INSTRUCTION', 'INDEX', 'OPERAND' or 'FOLLOWING'
    word: int
    how: str                    # 'READ', 'HELD', 'FORWARDED' or 'REGISTER'
    read: Read = None           # that brings the word; of a held one it was made earlier
    row: int = None             # where it is forwarded, the row that writes it
    done: int = None            # and its C

    @property
    def there(self):
        """The tick at which the word is there, of a word that is no register."""
        return self.done if self.how == 'FORWARDED' else self.read.answer


@dataclass
class NotingBus(Bus):
    """A bus that notes what it is asked for, for one row after another."""
    row: int = 0                                            # the row that asks
    latest: Read = None                                     # the last read of the segment
    asked: list = field(default_factory=list)               # of this row: (word, read, whether it is made anew)

    def copy(self):
        """The bus for the next row."""
        bus = super().copy()
        return NotingBus(bus.delays, bus.last, bus.free, bus.held, bus.base, bus.reads, self.row + 1, self.latest)

    def read(self, word, want):
        turn, free = self.free, self.last[bank(word)]
        answer = super().read(word, want)
        self.latest = Read(self.row, word, want, turn, free, self.free - 1, answer, self.latest)
        self.asked.append((word, self.latest, True))
        return answer

    def fetch(self, word, want):
        before = self.latest
        answer = super().fetch(word, want)
        if self.latest is before:
            self.asked.append((word, self.fetched(word), False))
        else:
            self.latest.fetched = True
        return answer

    def fetched(self, word):
        """The read that brings a word that is held: the last one that was made for it as an instruction word."""
        read = self.latest
        while not (read.fetched and read.word == word):
            read = read.before
        return read


def noting(bus, row):
    """A bus that notes, in place of the one with which a segment opens behind a row."""
    return NotingBus(bus.delays, bus.last, bus.free, bus.held, bus.base, bus.reads, row)


def uses_of(entry, a, p, issue, behind):
    """The words of an entry in the order of its reads; a and p are ticks of its row."""
    asked = iter(behind.bus.asked)

    def taken(kind):
        word, read, made = next(asked)
        return Use(kind, word, 'READ' if made else 'HELD', read)

    def data(kind, word, tick):
        if word < 32:
            return Use(kind, word, 'REGISTER')
        done = issue.writer_done(word)
        return Use(kind, word, 'FORWARDED', None, writer(issue, word), done) if done > tick else taken(kind)

    uses = [taken('INSTRUCTION') for _ in entry.words]
    uses += [data('INDEX', entry.side, a)] if entry.side is not None else []
    uses += [data('OPERAND', word, p) for word in entry.reads]
    return uses + [Use('FOLLOWING', word, 'READ' if made else 'HELD', read) for word, read, made in asked]


def writer(issue, word):
    """The row of the latest writer of a word."""
    return issue.bus.row - next(k for k, (_, words) in enumerate(reversed(issue.done)) if word in words)

"""The ticks of entries, found one entry after another. Follows docs/timetable.md up to "Entries and their ticks"."""
from dataclasses import dataclass, field

from words import WORDS


def bank(word):
    return word % 4 if word < 65_536 else 4 + word % 2


@dataclass
class Bus:
    """Reads as they were made up to some entry; each is kept with its tick until no segment can end before it."""
    delays: list
    last: list = field(default_factory=lambda: [0] * 6)     # the last answer of each bank
    free: int = 0                                           # the first tick at which the next read can be accepted
    held: list = field(default_factory=list)                # (word, tick of its answer), at most four, the oldest first
    base: list = field(default_factory=lambda: [0] * 6)     # the last answers without the reads that are listed
    reads: list = field(default_factory=list)               # (tick of acceptance, bank, answer)

    def copy(self):
        return Bus(self.delays, self.last[:], self.free, self.held[:], self.base, self.reads[:])

    def read(self, word, want):
        """A read that is wanted from a tick on: gives the tick of its answer."""
        where = bank(word)
        accepted = max(self.free, want, self.last[where])
        answer = accepted + self.delays[accepted % len(self.delays)]
        self.last[where], self.free = answer, accepted + 1
        self.reads.append((accepted, where, answer))
        return answer

    def fetch(self, word, want):
        """An instruction word: one that is held makes no read."""
        for other, answer in self.held:
            if other == word:
                return answer
        answer = self.read(word, want)
        self.held = (self.held + [(word, answer)])[-4:]
        return answer

    def answers_before(self, tick):
        """The last answers of the banks with the reads that are accepted before a tick."""
        last = self.base[:]
        for accepted, where, answer in self.reads:
            if accepted < tick:
                last[where] = answer
        return last

    def settle(self, tick):
        """Forgets the ticks of reads before a tick; no segment will end before it."""
        self.base = self.answers_before(tick)
        self.reads = [read for read in self.reads if read[0] >= tick]


@dataclass
class IssueState:
    """What the row of the next entry is computed from."""
    bus: Bus
    p: int
    c: int
    alone: bool = False
    done: list = field(default_factory=list)                # (C, words written) of the last eight, the oldest first

    def writer_done(self, word):
        """C of the latest writer of a word, or 0."""
        return max((c for c, words in self.done if word in words), default=0)


def opening(delays, last, start):
    """The issue state with which a segment opens: no word is held, and the start stands for P and C."""
    return IssueState(Bus(delays, last[:], start, [], last[:]), start, start)


@dataclass
class Row:
    a: int
    p: int
    r: int
    c: int


def next_row(issue, entry, levels):
    """The row of the next entry on a machine of so many levels, and the issue state behind it."""
    bus = issue.bus.copy()
    a = form(issue, bus, entry)
    p = 1 + max(a, side_there(issue, bus, entry, a), issue.done[-levels][0] if len(issue.done) >= levels else 0)
    r = p
    for word in entry.reads:
        if word >= 32 and issue.writer_done(word) <= p:     # else it is a register, or it is forwarded
            r = max(r, bus.read(word, p))
    c = max(r, issue.c) + entry.cost
    if entry.last is not None:
        for word in (entry.last + 1, entry.last + 2):
            if 32 <= word < WORDS:
                bus.fetch(word, p)
    done = (issue.done + [(c, set(entry.writes))])[-8:]
    return Row(a, p, r, c), IssueState(bus, p, c, entry.alone, done)


def form(issue, bus, entry):
    """Asks for the instruction words; gives A."""
    first = issue.c if issue.alone else issue.p
    there = 0                                               # when the words so far are answered and their writers done
    for k, word in enumerate(entry.words):
        want = max(first, there, issue.c if k >= entry.own else 0)
        there = max(there, bus.fetch(word, want), issue.writer_done(word))
    last = issue.c if issue.alone or entry.alone else 0
    return max(1 + max(there, issue.p, last), issue.bus.free)


def side_there(issue, bus, entry, a):
    """When the index-side word is there."""
    if entry.side is None or entry.side < 32:
        return a
    writer = issue.writer_done(entry.side)
    return writer if writer > a else bus.read(entry.side, a)

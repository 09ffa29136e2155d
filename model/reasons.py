"""What a row waited for, and why it was not prepared earlier. Follows docs/ledger.md, "Waits" and "Reasons".

The walk begins at the completion of a row and goes back, from what decided a tick to what decided that.
"""
from dataclasses import dataclass

from uses import Read


@dataclass
class Wait:
    """The ticks behind `start`, up to and with `end`."""
    start: int
    end: int
    stage: str
    why: str                    # 'STORAGE', 'TURN' or 'BANK'
    word: int                   # that is waited for
    read: Read                  # that is on its way, was accepted, or stood first in its turn


@dataclass
class StallCause:
    why: str
    row: int                    # None for the start of a segment, as `late`, and for a word that was prefetched
    tick: int
    late: int
    word: int = None            # of `PREFETCH`, the word that was asked for


class Walk:
    """The walk of one row; `uses` are its words, `issue` is the one before it."""

    def __init__(self, entry, row, uses, issue, levels):
        self.entry, self.row, self.issue = entry, row, issue
        self.number = issue.bus.row + 1
        self.waits = []                         # the last one first
        words = {kind: [use for use in uses if use.kind == kind] for kind in ('INSTRUCTION', 'INDEX', 'OPERAND')}
        side = next((use for use in words['INDEX'] if use.how != 'REGISTER'), None)
        there = max(row.a, side.there) if side else row.a
        full = len(issue.done) >= levels and issue.done[-levels][0] > there
        self.level_wait = row.p - 1 - there if full else 0
        if row.r > row.p:
            self.back(next(u.read for u in words['OPERAND'] if u.how == 'READ' and u.there == row.r), 'OPERAND')
        if full:
            self.because = StallCause('LEVEL', self.number - levels, row.p - 1, self.level_wait)
        elif there > row.a and side.how == 'FORWARDED':
            self.because = StallCause('FORWARDING', side.row, there, there - row.a)
        else:
            if there > row.a:
                self.back(side.read, 'INDEX')
            self.because = self.from_address(words['INSTRUCTION'])

    def from_address(self, words):
        """From the tick A - 1 on; a row is at its address one tick behind what it awaited."""
        tick = self.row.a - 1
        last = self.issue.bus.latest
        return (self.by_completion(self.entry.words, tick, self.entry.alone)
                or self.by_answer(words, tick)
                or self.by_bus(last, tick)
                or self.in_order())

    def by_completion(self, words, tick, alone):
        """The row before was done then, and it or this one is done alone; or a writer of one of the words was."""
        issue = self.issue
        if not issue.done:
            return None
        late = tick - issue.p
        if tick == issue.c and (alone or issue.alone):
            return StallCause('SERIAL', self.number - issue.alone, tick, late)
        for k, (done, written) in enumerate(reversed(issue.done), 1):
            if done == tick and not written.isdisjoint(words):
                return StallCause('STORE', self.number - k, tick, late)
        return None

    def by_answer(self, words, tick):
        """The last answers of these instruction words came then; the first of them decides."""
        if max((use.there for use in words), default=None) != tick:
            return None
        place = next(k for k, use in enumerate(words) if use.there == tick)
        read = words[place].read
        self.back(read, 'INSTRUCTION')
        if read.row != self.number:
            return StallCause('PREFETCH', None, None, tick - self.issue.p, read.word)
        earlier, of_target = words[:place], self.entry.is_ex and place >= self.entry.own
        return (self.by_completion([use.word for use in earlier], read.want, of_target)
                or self.by_answer(earlier, read.want)
                or self.in_order())

    def by_bus(self, last, tick):
        """The last read of the rows before was accepted then."""
        if last is None or not last.accept == tick > self.issue.p:
            return None
        self.in_turn(last, 'INSTRUCTION')
        return StallCause('BUS', last.row, last.want, tick - self.issue.p)

    def in_order(self):
        if not self.issue.done:
            return StallCause('START', None, self.issue.p, None)
        return StallCause('ORDER', self.number - 1, self.issue.p, 0)

    def back(self, read, stage):
        """From the answer of a read back to its want."""
        self.wait(read.accept, read.answer, stage, 'STORAGE', read.word, read)
        self.in_turn(read, stage)

    def in_turn(self, read, stage):
        """From its acceptance back to its want."""
        first, other = read, read.before                        # `first` is next in its turn
        while other is not None and other.accept >= read.want:
            self.wait(other.accept + 1, first.accept, stage, 'BANK', read.word, first)
            self.wait(other.accept, other.accept + 1, stage, 'TURN', read.word, other)
            first, other = other, other.before
        self.wait(read.want, first.accept, stage, 'BANK', read.word, first)

    def wait(self, start, end, *what):
        if start < end:
            self.waits.append(Wait(start, end, *what))

"""The run: signals, orders, rests and steps, with the ticks of a machine that works ahead.

Follows docs/machine.md, "A run" and "Running ahead", and docs/timetable.md, "Levels, and what an
interrupt undoes".
"""
from dataclasses import dataclass

from exchange import next_device, print_out, read_in
from prepare import prepare
from state import State
from step import complete
from timetable import next_row, opening
from words import bits_of


@dataclass
class Moment:
    """What happens at a tick between two steps."""
    tick: int
    dropped: list               # (entry, row) of the levels of a segment that ends, the oldest first
    prints: list
    interrupt: int = None
    end: str = ''               # 'WAIT' or 'BUDGET'


@dataclass
class View:
    """The machine at a tick: index words as it sees them, and its levels with the index word that each replaced."""
    index: list
    levels: list                # (entry, row, old word)


class Run:
    def __init__(self, program, levels=4, cards=None):
        self.state = State(program.words, program.start)
        self.controls, self.levels = program.controls, levels
        self.signals = list(program.controls.signals)
        self.cards = list(program.reader if cards is None else cards)
        self.issue = opening(program.controls.delays, [0] * 6, 0)
        self.mispredicted = False               # the last entry is a BI that was predicted wrongly
        self.prediction = None                  # the predicted counter after it
        self.trails = []                        # of the last steps, as many as /BACK asks for
        self.calm = True                        # so far: one segment, and nothing read that was written
        self.written = set()
        self.table = None                       # the indicator whose interrupt is taken

    # ---- between two steps

    def decide(self):
        """All that comes before the next step."""
        moment = Moment(self.issue.c, [], [])
        self.outside(moment)
        while self.state.at_rest() and self.wake(moment):
            self.calm = False
        if self.state.at_rest():
            moment.end = 'WAIT'
        elif self.state.done >= self.controls.budget:
            moment.end = 'BUDGET'
        else:
            moment.interrupt = self.state.pending()
        self.table = moment.interrupt
        if self.mispredicted or self.table is not None:
            self.calm = False
        if moment.end or self.mispredicted or self.table is not None:
            self.end_segment(moment)
        return moment

    def outside(self, moment):
        state = self.state
        while self.signals and self.signals[0][0] <= state.done:
            state.indicators(bits_of(self.signals.pop(0)[1]))
        if state.reader and state.reader[1] <= state.done:
            self.bring_card(moment)
        if state.printer and state.printer[1] <= state.done:
            moment.prints.append(print_out(state))

    def wake(self, moment):
        """At rest: an order takes effect or the next signal comes; False where there is none."""
        device = next_device(self.state)
        if device == 'reader':
            self.bring_card(moment)
        elif device == 'printer':
            moment.prints.append(print_out(self.state))
        elif self.signals:
            self.state.indicators(bits_of(self.signals.pop(0)[1]))
        else:
            return False
        return True

    def bring_card(self, moment):
        if self.cards:
            self.calm = False
            self.end_segment(moment)
        read_in(self.state, self.cards)

    # ---- the next step

    def next(self):
        """The entry that is done next, with its row."""
        self.entry = prepare(self.state, self.table)
        self.row, self.behind = next_row(self.issue, self.entry, self.levels)
        return self.entry, self.row

    def step(self):
        entry, words = self.entry, set(self.entry.reads) | {self.entry.side}
        self.calm = self.calm and not words & self.written
        self.written.update(entry.writes)
        trail = self.state.begin()
        if self.controls.back:
            self.trails = (self.trails + [trail])[-self.controls.back:]
        self.mispredicted = complete(self.state, entry)
        self.prediction = entry.following
        self.issue = self.behind
        self.issue.bus.settle(self.issue.c)

    # ---- what is ahead

    def ahead(self, tick, table=None):
        """The entries ahead that are prepared before a tick, with their rows, and the issue state behind one more.

        They are found by predicted steps, which are undone again.
        """
        state, outer, issue, trails, found = self.state, self.state.trail, self.issue, [], []
        while True:
            entry = prepare(state, table)
            row, behind = next_row(issue, entry, self.levels)
            self.look(entry, row, issue, behind)
            if row.p >= tick:
                break
            found.append((entry, row))
            trails.append(state.begin())
            complete(state, entry)
            if entry.made.name == 'BI' and entry.fault is None:
                state.counter = entry.following
            issue, table = behind, None
        for trail in reversed(trails):
            state.undo(trail)
        state.trail = outer
        return found, behind

    def look(self, entry, row, issue, behind):
        """What else is to be noted of an entry ahead, with the fronts before and behind it; here nothing."""

    def end_segment(self, moment):
        """Drops what is ahead, and opens the next segment; the prediction, not what came of it, tells what is ahead."""
        counter, tick = self.state.counter, moment.tick
        if self.mispredicted:
            self.state.counter = self.prediction
        found, behind = self.ahead(tick)
        self.state.counter = counter
        moment.dropped += found
        start = max(self.issue.p, tick + 1 + len(found))    # a card may have ended one at this tick, with levels
        self.issue = opening(self.controls.delays, behind.bus.answers_before(tick), start)
        self.mispredicted = False

    def view(self, tick, over=False):
        """The machine at a tick up to which everything is done; where the run is over, nothing is ahead."""
        found = [] if over else self.ahead(tick + 1, self.table)[0]
        index, levels = [self.state.word(16 + k) for k in range(16)], []
        for entry, row in found:
            old = None
            if entry.change:
                old = index[entry.change[0]]
                index[entry.change[0]] = entry.change[1]
            levels.append((entry, row, old))
        return View(index, levels)

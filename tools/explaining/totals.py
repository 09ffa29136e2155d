"""The sums of a run, row after row (docs/explain.md): of causes, reasons, addresses, levels in use, banks and words."""
from .lines import CAUSES, NOTED, Off, check_sums

KINDS = ("instruction", "index", "operand", "following")
BANKS = 6


class Totals:
    def __init__(self, levels):
        self.rows = self.dropped = self.mispredicted = self.interrupts = self.ticks = 0
        self.by_cause = dict.fromkeys(CAUSES, 0)
        self.by_reason = {reason: {"rows": 0, "ticks": 0, "late": 0} for reason in NOTED}
        self.places = {}                                # by half-word address: [text, times, ticks by cause]
        self.level_wait_rows = self.level_wait_ticks = 0
        self.banks = [{"bank": k, "reads": 0, "busy": 0, "waited": 0} for k in range(BANKS)]
        self.words = dict.fromkeys([kind + "_reads" for kind in KINDS] + ["held", "forwarded"], 0)
        self.standing = Standing(levels)
        self.answers = []                               # (bank, tick) of reads that may be answered behind the end

    def add(self, row, text):
        """Adds a row, with what is dropped behind it."""
        self.rows += 1
        self.ticks = row.c
        self.mispredicted += row.mispredicted
        self.interrupts += row.interrupt is not None
        self.add_place(row, text)
        for piece in row.charges:
            self.by_cause[piece.cause] += piece.ticks
        if row.because is not None:
            self.add_reason(row)
        if row.level_wait:
            self.level_wait_rows += 1
            self.level_wait_ticks += row.level_wait
        self.standing.enter(row.p, row.c)
        self.add_reads(row)
        self.words["held"] += sum(use.how == "held" and use.kind == "instruction" for use in row.uses)
        self.words["forwarded"] += sum(use.how == "forwarded" for use in row.uses)
        if row.ends:
            self.dropped += len(row.segment.dropped)
            for entry in row.segment.dropped:
                self.standing.enter(entry.p, row.segment.end)
                self.add_reads(entry)
            self.add_reads(row.segment.begun)
        self.answers = [(bank, tick) for bank, tick in self.answers if tick > row.c]

    def add_place(self, row, text):
        place = self.places.setdefault(row.address, [text, 0, {}])
        place[1] += 1
        for piece in row.charges:
            place[2][piece.cause] = place[2].get(piece.cause, 0) + piece.ticks

    def add_reason(self, row):
        first = row.because.reason == "start"
        one = self.by_reason[row.segment.reason if first else row.because.reason]
        one["rows"] += 1
        one["ticks"] += row.waited
        one["late"] += row.waited if first else min(row.waited, row.because.late)

    def add_reads(self, entry):
        for use in entry.uses:
            read = use.read
            if read is not None and read.made:
                self.words[read.kind + "_reads"] += 1
                bank = self.banks[read.bank]
                bank["reads"] += 1
                bank["busy"] += read.answer - read.accept
                bank["waited"] += read.accept - max(read.want, read.turn)
                self.answers.append((read.bank, read.answer))

    def close(self, end):
        """All is added: what reads take behind the last tick does not count. The sums have to be those of the end."""
        for bank, tick in self.answers:
            self.banks[bank]["busy"] -= tick - self.ticks
        self.by_levels = self.standing.ticks_by_number(self.ticks)
        self.check(end)

    def check(self, end):
        stages = {}
        for cause, spent in self.by_cause.items():
            stages.setdefault(cause.split("_")[0], []).append(spent)
        wanted = {stage: sum(spent) for stage, spent in stages.items()} | {c: n for c, n in self.by_cause.items() if "_" in c}
        check_sums(
            end.ticks, self.by_cause, self.by_reason,
            (self.ticks == end.ticks and self.rows == end.done, "the last row is not the end of the run"),
            (end.sums == wanted, "the charges do not add up to the lines SUM"),
            (sum(self.by_levels) == end.ticks, "the levels in use do not add up to the ticks of the run"),
        )

    def by_address(self):
        """(address, text, times, ticks by cause), most ticks first."""
        places = [(address, *place) for address, place in self.places.items()]
        return sorted(places, key=lambda place: (-sum(place[3].values()), place[0]))


class Standing:
    """At how many ticks so many levels were in use. Entries come in the order in which they enter."""

    def __init__(self, levels):
        self.ticks = [0] * (levels + 1)
        self.leaving = []                               # the ticks at which those leave that stand, the earliest first
        self.at = 0

    def go(self, tick):
        self.ticks[len(self.leaving)] += tick - self.at
        self.at = tick

    def enter(self, tick, leaves):
        self.leave_before(tick)
        self.go(tick)
        self.leaving.append(leaves)
        if len(self.leaving) >= len(self.ticks):
            raise Off("more levels are in use at tick %d than there are" % tick)

    def leave_before(self, tick):
        while self.leaving and self.leaving[0] <= tick:
            self.go(self.leaving[0])
            self.leaving.pop(0)

    def ticks_by_number(self, end):
        self.leave_before(end)
        self.go(end)
        return self.ticks

"""The totals and tables of a long run, which the ledger adds up itself (docs/ledger.md, "Tables"), in the shape of totals.Totals."""
from .lines import CAUSES, NOTED, PARTED, SEGMENT_REASONS, Frame, Off, check_sums


class Sums(Frame):
    """Reads the lines of `ledger sums`."""

    def __init__(self, lines):
        super().__init__()
        self.by_reason, self.cards, self.counts = {}, {}, {}    # cards: number to [rows, ticks by stage and by cause]
        for line in lines:
            self.take(line.split(" "), line)
        self.by_cause = causes_of(self.end.sums)
        self.check()

    @property
    def rows(self):
        return self.end.done

    @property
    def ticks(self):
        return self.end.ticks

    @property
    def dropped(self):
        return self.counts["DROP"][0]

    @property
    def mispredicted(self):
        return self.counts["MISSED"][0]

    @property
    def interrupts(self):
        return self.by_reason["interrupt"]["rows"]

    @property
    def level_wait_rows(self):
        return self.counts["LEVEL"][0]

    @property
    def level_wait_ticks(self):
        return self.counts["LEVEL"][1]

    def by_card(self):
        """(card, times, ticks by cause), most ticks first; card 0 has the rows that no card emitted."""
        cards = [(card, rows, {cause: n for cause, n in causes_of(sums).items() if n}) for card, (rows, sums) in self.cards.items()]
        return sorted(cards, key=lambda one: (-sum(one[2].values()), one[0]))

    # ---- lines

    def take_card(self, words, line):
        self.sums = {}
        self.cards[int(words[1])] = named(words[2:])["rows"], self.sums

    def take_reason(self, words, line):
        reason = SEGMENT_REASONS.get(words[1], words[1].lower())
        if reason not in NOTED:
            raise ValueError(reason)
        self.by_reason[reason] = named(words[2:])

    def take_count(self, words, line):
        self.counts[words[1]] = [int(word) for word in words[2:] if word.isdigit()]

    def check(self):
        """The tables have to add up to the totals."""
        of_cards = [causes_of(sums) for _, sums in self.cards.values()]
        check_sums(
            self.end.ticks, self.by_cause, self.by_reason,
            (list(self.by_reason) == NOTED, "a reason has no line"),
            (sum(rows for rows, _ in self.cards.values()) == self.end.done, "the rows of the cards are not those of the run"),
            (all(sum(one[cause] for one in of_cards) == n for cause, n in self.by_cause.items()),
             "the charges of the cards do not add up to those of the run"),
        )


Sums.LINES = Frame.LINES | {"CARD": Sums.take_card, "REASON": Sums.take_reason, "COUNT": Sums.take_count}


def named(words):
    """Numbers by the words before them."""
    return {name.lower(): int(number) for name, number in zip(words[::2], words[1::2])}


def causes_of(sums):
    """The ticks by cause of sums by stage, and by stage and kind of wait."""
    for stage in PARTED:
        if sums[stage] != sum(n for name, n in sums.items() if name.startswith(stage + "_")):
            raise Off("the waits of %s do not add up to its charges" % stage)
    return {cause: sums[cause] for cause in CAUSES}

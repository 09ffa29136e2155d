"""Blocks of rows and tables, for people (docs/explain.md, "The text")."""
from itertools import groupby

from .lines import CAUSES, place
from .totals import KINDS

WIDE = 32                       # columns of a card
BAR = 30                        # marks of a bar that is the whole
MOST_PLACES = 10
HELP = {
    "start": "nothing: the first words are fetched",
    "interrupt": "fewer interrupts",
    "wrong_guess": "branch where it is rare, or by CB",
    "card": "fewer reader cards",
    "serial": "no registers as words; no BB, BE, EX, T",
    "store": "no stores into instructions close ahead",
    "level": "more levels",
    "forwarding": "store earlier what an index load reads",
    "bus": "fewer reads at a time",
    "prefetch": "faster storage, code and data apart",
    "order": "shorter waits of the row before",
}
WORDS = {
    "store": "row %d stored into its words, done at %d",
    "level": "none was free until row %d was done at %d",
    "forwarding": "its index word came from row %d, done at %d",
    "bus": "the reads that row %d wanted at %d came first",
    "prefetch": "row %d asked for its word at %d",
    "order": "behind row %d, prepared at %d",
}


def plain(name):
    return name.replace("_", " ")


def opening(segment):
    """Why a segment begins."""
    number = "" if segment.indicator is None else " %d" % segment.indicator
    return plain(segment.reason) + number + " in a wait" * segment.after_wait


class Text:
    """The form: takes row after row, and then the totals."""

    def __init__(self, asked, names, out):
        self.asked, self.names, self.out = asked, names, out     # names are those of indicators
        self.alone = None                                        # what the row before was done alone for
        self.start = None

    def begin(self, start):
        self.start = start

    def add(self, row, text, text_of):
        if self.asked.shows(row.row):
            self.put(self.block(row, text, text_of))
        self.alone = row.alone

    def end(self, sums, ledger, other, at_once, deck):
        last = self.asked.last
        if self.asked.is_cut and sums.rows > last:
            rest = last + 1, sums.rows
            self.put(["", "rows %d to %d are not shown: ./explain text %d %d" % (rest + rest)])
        if other is None:
            self.put(totals_of_long(sums, self.start.levels, deck))
        else:
            self.put(totals(sums, self.start.levels, other, at_once, set(self.start.delays) != {1}))

    def put(self, lines):
        for line in lines:
            self.out.write(line.rstrip(" ") + "\n")

    # ---- rows

    def block(self, row, text, text_of):
        head = "%5d %9s  %-*s A %d P %d R %d C %d +%d"
        yield head % (row.row, place(row.address), WIDE, text[:WIDE], row.a, row.p, row.r, row.c, row.ticks)
        if len(row.charges) > 1:
            for _, group in groupby(row.charges, lambda piece: piece.cause if piece.kind else piece.end):
                yield charge_line(list(group), row)
        if row.because:
            yield "%17s %s" % ("", self.reason(row))
        for note in self.notes(row):
            yield "%17s %s" % ("", note)
        if row.ends:
            for entry in row.segment.dropped:
                cells = place(entry.address), WIDE, text_of(entry)[:WIDE], entry.p, row.segment.end
                yield " drop %9s  %-*s P %d, dropped at %d" % cells

    def reason(self, row):
        because = row.because
        if because.reason == "start":
            return "first of its segment: " + opening(row.segment)
        if because.reason != "serial":
            return "%s: %s" % (because.reason, WORDS[because.reason] % (because.row, because.tick))
        if because.row == row.row:
            return "serial: this row (%s), behind row %d, done at %d" % (row.alone, because.row - 1, because.tick)
        return "serial: row %d (%s), done at %d" % (because.row, self.alone, because.tick)

    def notes(self, row):
        for use in row.uses:
            if use.how == "forwarded" and use.kind == "operand":
                yield "word %d forwarded from row %d" % (use.word, use.row)
        if row.level_wait and not (row.because and row.because.reason == "level"):
            yield "prepared %d ticks later for want of a free level" % row.level_wait
        if row.mispredicted:
            yield "guessed wrongly"
        if row.suppressed is not None:
            yield "suppressed: $%s" % self.names[row.suppressed]


def charge_line(pieces, row):
    """A charge, or turns behind each other."""
    first, last = pieces[0].start + 1, pieces[-1].end
    ticks = "%d" % first if first == last else "%d-%d" % (first, last)
    more = " and %d more" % (len(pieces) - 1) if len(pieces) > 1 else ""
    return "%17s %5d %-19s %s%s" % (ticks, last - first + 1, plain(pieces[0].cause), waited_for(pieces[0], row), more)


def waited_for(piece, row):
    if piece.cause == "restart":
        return "anew after %s: 1 and %d dropped" % (opening(row.segment), piece.ticks - 1)
    if piece.read is None:
        return ""
    number, word, bank = piece.read
    if piece.kind:
        return "behind word %d (%s, row %d)" % (word, piece.kind, number)
    if piece.cause.endswith("_bank"):
        holder = piece.holder
        busy = "an earlier segment" if holder is None else "%d (%s, row %d)" % (holder[1], holder[2], holder[0])
        return "word %d behind %s, bank %d" % (word, busy, bank)
    asked = "" if number == row.row else ", asked for by row %d" % number
    return "word %d, bank %d%s" % (word, bank, asked)


# ---- totals

def totals(sums, levels, other, at_once, slow):
    """The lines behind the rows; `other` are the ticks on one to eight levels, `at_once` those of reads of one tick."""
    yield from ticks_and_reasons(sums, levels)
    yield from places(sums)
    yield from bars("levels in use", {str(k): n for k, n in enumerate(sums.by_levels)}, sums.ticks)
    yield from level_waits(sums)
    yield from ["", "bank      reads     busy   waited for"]
    for bank in sums.banks:
        if bank["reads"]:
            yield "  %d    %8d %8d     %8d" % (bank["bank"], bank["reads"], bank["busy"], bank["waited"])
    numbers = [(kind, sums.words[kind + "_reads"]) for kind in KINDS]
    numbers += [(how, sums.words[how]) for how in ("held", "forwarded")]
    yield from ["", "reads: " + ", ".join("%s %d" % one for one in numbers if one[1])]
    yield from ["", "the same run on other machines"]
    yield "  levels  " + " ".join("%8d" % n for n in range(1, len(other) + 1))
    yield "  ticks   " + " ".join("%8d" % n for n in other)
    if slow:
        yield "  %d ticks (%+d) if every read took one tick" % (at_once, at_once - sums.ticks)


def totals_of_long(sums, levels, deck):
    """Those of a run of which not all rows are read."""
    yield from ticks_and_reasons(sums, levels)
    yield from level_waits(sums)
    yield from cards(sums, deck)
    yield from ["", "not shown of so long a run: instructions by address, levels in use, banks, reads, other machines",
                "  (./explain --whole shows them too: it reads all rows, in some 45 seconds a million)"]


def ticks_and_reasons(sums, levels):
    ticks, rows = sums.ticks, sums.rows
    yield ""
    each = rounded(100 * ticks, rows, 2)
    yield "%d ticks, %d instructions, %s ticks an instruction, %d levels" % (ticks, rows, each, levels)
    yield "%d dropped, %d wrong guesses, %d interrupts" % (sums.dropped, sums.mispredicted, sums.interrupts)
    yield from bars("where the ticks went", sums.by_cause, ticks)
    yield from reasons(sums)


def level_waits(sums):
    if sums.level_wait_rows:
        cells = sums.level_wait_rows, sums.level_wait_ticks
        yield "  %d rows were prepared later for want of a free level, by %d ticks in all" % cells


def rounded(whole, parts, digits):
    """A quotient times a power of ten, rounded with halves up, with so many digits behind the point."""
    number = (2 * whole + parts) // (2 * parts)
    return "%d.%0*d" % (number // 10**digits, digits, number % 10**digits)


def share(ticks, whole):
    return "%5s%%" % rounded(1000 * ticks, whole, 1)


def bars(title, parts, whole):
    yield from ["", title]
    for name, ticks in parts.items():
        if ticks:
            yield "  %-20s %8d %s  %s" % (plain(name), ticks, share(ticks, whole), "#" * max(1, ticks * BAR // whole))


def reasons(sums):
    yield from ["", "what kept rows back       rows    ticks    so late   what may help"]
    for name, one in sums.by_reason.items():
        if one["rows"]:
            cells = plain(name), one["rows"], one["ticks"], one["late"], share(one["late"], sums.ticks), HELP[name]
            yield "  %-20s %8d %8d %8d %s  %s" % cells


def places(sums):
    yield from ["", "instructions with most ticks"]
    for address, text, times, causes in sums.by_address()[:MOST_PLACES]:
        yield spent_line(place(address), text, times, causes, sums.ticks)


def cards(sums, deck):
    yield from ["", "cards with most ticks"]
    for card, times, causes in sums.by_card()[:MOST_PLACES]:
        yield spent_line("card %d" % card if card else "", deck.text_of(card), times, causes, sums.ticks)


def spent_line(where, text, times, causes, whole):
    ticks = sum(causes.values())
    waits = [cause for cause in CAUSES if cause != "executing" and causes.get(cause)]
    most = max(waits, key=causes.get, default=None)
    said = "" if most is None else "  %s %d" % (plain(most), causes[most])
    return "  %9s %-*s %6d x %8d %s%s" % (where, WIDE, text[:WIDE], times, ticks, share(ticks, whole), said)

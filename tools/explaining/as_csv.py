"""A header and one line an entry (docs/explain.md, "The table")."""
from .as_text import opening
from .lines import CAUSES, place

COLUMNS = (
    "row", "address", "text", "segment", "segment_reason", "a", "p", "r", "c", "cost", "ticks", "serial", "missed",
    "fault", "because", "because_row", "level_wait", "reads", "held", "forwarded") + CAUSES
HOWS = ("read", "held", "forwarded")


class Csv:
    """The form: takes row after row."""

    def __init__(self, asked, names, out):
        self.asked, self.names, self.out = asked, names, out     # names are those of indicators

    def begin(self, start):
        self.put(COLUMNS)

    def add(self, row, text, text_of):
        if self.asked.shows(row.row):
            self.put(cells_of(row, text, self.names))

    def end(self, sums, ledger, other, at_once, deck):
        pass

    def put(self, cells):
        self.out.write(",".join("" if cell is None else str(cell) for cell in cells) + "\n")


def cells_of(row, text, names):
    spent = dict.fromkeys(CAUSES, 0)
    for piece in row.charges:
        spent[piece.cause] += piece.ticks
    hows = [use.how for use in row.uses if use.kind != "following"]
    because, quoted = row.because, '"%s"' % text.strip(" ").replace('"', '""')
    return [
        row.row, place(row.address), quoted, row.segment.number, opening(row.segment),
        row.a, row.p, row.r, row.c, row.cost, row.ticks, row.alone, int(row.mispredicted),
        None if row.suppressed is None else names[row.suppressed], because and because.reason, because and because.row,
        row.level_wait, *(hows.count(how) for how in HOWS), *spent.values()]

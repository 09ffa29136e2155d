"""The lines of a ledger (docs/ledger.md) as rows and segments, one row after another: no memory grows with the run."""
from dataclasses import dataclass, field

CAUSES = (                  # where a tick can go, in the order of time: a stage, and what is waited for in it
    "restart", "instruction_turn", "instruction_bank", "instruction_storage", "address", "index_bank", "index_storage",
    "preparing", "operand_turn", "operand_bank", "operand_storage", "executing")
PARTED = ("instruction", "index", "operand")        # stages whose ticks lines WAIT tell
REASONS = ("start", "serial", "store", "level", "forwarding", "bus", "prefetch", "order")
# Of the first row of a segment, in place of `start`, by the words of the lines.
SEGMENT_REASONS = {"RUN": "start", "INTERRUPT": "interrupt", "MISSED": "wrong_guess", "CARD": "card"}
NOTED = [*SEGMENT_REASONS.values(), *REASONS[1:]]     # all reasons, in the order of their lines
FETCHED = ("instruction", "following")      # reads by which a word is held
REACH = 512                 # no read waits, or keeps a bank busy, for so many ticks


class Off(Exception):
    """The lines are not those of a ledger, or do not add up."""


class TooFewRows(Exception):
    """A row refers to one before the first row of a part."""


@dataclass(slots=True)
class Read:
    """A read of a row; `holder` is the one before it in its bank, of its segment: (row, word, kind)."""
    row: int
    kind: str
    word: int
    bank: int
    want: int
    turn: int
    free: int
    accept: int
    answer: int
    made: bool
    holder: tuple = None


@dataclass(slots=True)
class Use:
    kind: str
    word: int
    how: str                # read, held, forwarded or register
    row: int = None         # of a held word the row that asked for it, of a forwarded one the row that writes it
    tick: int = None        # its answer, or that row's C
    read: Read = None


@dataclass(slots=True)
class Piece:
    """The ticks behind `start`, up to and with `end`, with their cause. Of a wait also the word that is waited for, and
    the read that is on its way, was accepted, or stood first in its turn, as (row, word, bank); of the second its kind,
    of the third the read that kept its bank busy, as (row, word, kind)."""
    start: int
    end: int
    cause: str
    word: int = None
    read: tuple = None
    kind: str = None
    holder: tuple = None

    @property
    def ticks(self):
        return self.end - self.start


@dataclass(slots=True)
class StallCause:
    reason: str
    row: int
    tick: int
    late: int               # None: by all ticks of the row that it did not execute


@dataclass(slots=True)
class Entry:
    """What is told of an entry, whether it was done or not; addresses are those of half-words."""
    row: int
    address: int
    a: int
    p: int
    r: int
    alone: str = None       # table, execute, register or operation
    table: int = None
    suppressed: int = None
    card: int = None
    kept: bool = False
    code: tuple = ()
    uses: list = field(default_factory=list)
    writes: list = field(default_factory=list)
    index: tuple = None     # number, before, after
    is_open: bool = False   # it refers to a row before the first one of a part


@dataclass(slots=True)
class Row(Entry):
    c: int = None
    segment: object = None
    before: int = 0         # C of the row before
    mispredicted: bool = False
    charges: list = field(default_factory=list)
    level_wait: int = 0
    because: StallCause = None
    ends: bool = False      # its segment ends with it
    counter: int = None
    enabled: bool = None    # where it has changed
    words: list = field(default_factory=list)       # (word, before, after)
    prints: list = field(default_factory=list)
    interrupt: int = None

    @property
    def ticks(self):
        return self.c - self.before

    @property
    def waited(self):
        """The ticks that it did not execute."""
        return sum(piece.ticks for piece in self.charges if piece.cause != "executing")

    @property
    def cost(self):
        return sum(piece.ticks for piece in self.charges if piece.cause == "executing")


@dataclass(slots=True)
class Segment:
    number: int
    start: int
    after_wait: bool
    reason: str
    indicator: int = None
    end: int = None
    dropped: list = field(default_factory=list)
    begun: Entry = None


@dataclass
class Start:
    """The machine before the first row."""
    levels: int = 0
    delays: list = field(default_factory=list)
    counter: int = 0
    enabled: bool = False
    words: list = field(default_factory=list)       # (word, number)


@dataclass
class End:
    kind: str = ""
    done: int = 0
    ticks: int = 0
    sums: dict = field(default_factory=dict)        # by stage, and by cause where a stage is parted


def half_word(address):
    """The number of the half-word at an address `word.bit`."""
    word, bit = address.split(".")
    return 2 * int(word) + (bit == "32")


def place(number):
    """An address `word.bit`."""
    return "%d.%d" % (number >> 1, 32 * (number & 1))


def number(text):
    return None if text == "-" else int(text)


def check_sums(ticks, by_cause, by_reason, *more):
    """Checks what holds of the totals of each run, and more pairs: whether it holds, and what is said where it does not."""
    for holds, what in (
        (sum(by_cause.values()) == ticks, "the charges do not add up to the ticks of the run"),
        (sum(one["ticks"] for one in by_reason.values()) + by_cause["executing"] == ticks,
         "the reasons do not add up to the ticks of the run"),
        (all(0 <= one["late"] <= one["ticks"] for one in by_reason.values()), "a reason is late by more than its ticks"),
        *more,
    ):
        if not holds:
            raise Off(what)


class Frame:
    """What a ledger and its sums say in equal lines: the machine before the first row, and the totals at the end."""

    LINES = {}                          # what takes a line, by its first word

    def take(self, words, line):
        try:
            self.LINES[words[0]](self, words, line)
        except (AttributeError, IndexError, KeyError, TypeError, ValueError) as error:
            raise Off("a line that means nothing there: %s" % line) from error

    def __init__(self):
        self.start, self.end = Start(), End()
        self.sums = self.end.sums       # those to which a line SUM belongs

    def take_levels(self, words, line):
        self.start.levels = int(words[1])

    def take_delays(self, words, line):
        self.start.delays += [int(delay) for delay in words[1:]]

    def take_end(self, words, line):
        self.end.kind = words[1].lower()

    def take_done(self, words, line):
        self.end.done = int(words[1])

    def take_ticks(self, words, line):
        self.end.ticks = int(words[1])

    def take_sum(self, words, line):
        self.sums["_".join(words[1:-1]).lower()] = int(words[-1])


Frame.LINES = {
    "LEVELS": Frame.take_levels, "DELAYS": Frame.take_delays, "END": Frame.take_end, "DONE": Frame.take_done, "TICKS": Frame.take_ticks,
    "SUM": Frame.take_sum,
}


# The holder of a bank that a row before the first one of a part may have kept busy.
UNKNOWN = (None, None, None)


class Ledger(Frame):
    """The lines of a ledger, read one after another: `rows()` gives each row when all is read that belongs to it. A part of a
    ledger begins with the row `first`; rows that refer to earlier ones of their segment are then marked as open."""

    def __init__(self, lines, first=1):
        super().__init__()
        self.lines = lines
        self.segment = self.row = self.entry = None
        self.is_cut = first > 1     # rows of the segment are missing
        self.done = None if self.is_cut else 0      # C of the row before
        self.reads = {}             # of the segment, by the tick at which they are accepted
        self.last = {}              # of the segment, the last read of each bank
        self.fetched = {}           # of the segment, the last read of each instruction word

    def rows(self):
        for line in self.lines:
            words = line.split(" ")
            name = words[0]
            if name in ("ROW", "END") or name == "SEGMENT" and words[2:3] == ["START"]:
                yield from self.finished()
            self.take(words, line)

    def finished(self):
        if self.row is not None:
            row, self.row = self.row, None
            row.charges = pieces_of(row)
            self.done = row.c
            yield row

    # ---- segments and entries

    def take_segment(self, words, line):
        if words[2] == "END":
            self.segment.end = int(words[3])
            self.row.ends = True
            return
        indicator = int(words[8]) if words[7] == "INTERRUPT" else None
        self.is_cut = self.is_cut and self.segment is None
        self.segment = Segment(int(words[1]), int(words[3]), words[5] == "1", SEGMENT_REASONS[words[7]], indicator)
        self.reads, self.last, self.fetched = {}, {}, {}

    def take_row(self, words, line):
        self.row = self.entry = Row(*named(words), c=int(words[10]), segment=self.segment, before=self.done)

    def take_drop(self, words, line):
        self.entry = Entry(*named(words))
        self.segment.dropped.append(self.entry)

    def take_begun(self, words, line):
        self.entry = self.segment.begun = Entry(*named(words))

    # ---- what is told of an entry

    def take_mispredicted(self, words, line):
        self.row.mispredicted = True

    def take_alone(self, words, line):
        self.entry.alone = words[1].lower()
        self.entry.table = int(words[2]) if words[1] == "TABLE" else None

    def take_suppressed(self, words, line):
        self.entry.suppressed = int(words[1])

    def take_laid(self, words, line):
        self.entry.card, self.entry.kept = int(words[1]), words[3] == "1"

    def take_code(self, words, line):
        self.entry.code = tuple(int(half, 16) for half in words[1:])

    def take_use(self, words, line):
        use = Use(words[1].lower(), int(words[2]), words[3].lower())
        if use.how == "read":
            ticks = (int(words[k]) for k in range(5, 16, 2))
            use.read = Read(self.entry.row, use.kind, use.word, *ticks, words[17] == "1")
            self.note(use.read)
        elif use.how == "held":
            use.tick = int(words[5])
            read = self.found(self.fetched, use.word)
            # A read that is told of no one was made by the entry itself, which was begun and wanted it behind the end.
            use.row = read.row if read and read.answer == use.tick else None if self.entry.is_open else self.entry.row
        elif use.how == "forwarded":
            use.row, use.tick = int(words[5]), int(words[7])
        self.entry.uses.append(use)

    def found(self, reads, key):
        """A read that is kept. Where there is none, a row before the first one of a part may have made it."""
        read = reads.get(key)
        self.entry.is_open = self.entry.is_open or read is None and self.is_cut
        return read

    def note(self, read):
        """Keeps a read for the waits of rows that come soon."""
        read.holder = self.last.get(read.bank, UNKNOWN if self.is_cut else None)
        self.last[read.bank] = read.row, read.word, read.kind
        if read.kind in FETCHED:
            self.fetched[read.word] = read
        self.reads[read.accept] = read
        if len(self.reads) > 2 * REACH:
            self.reads = {tick: one for tick, one in self.reads.items() if tick > read.accept - REACH}

    def take_writes(self, words, line):
        first = int(words[1])
        self.entry.writes += range(first, first + int(words[2]))

    def take_index(self, words, line):
        self.entry.index = int(words[1]), int(words[3], 16), int(words[5], 16)

    # ---- what its ticks went to

    def take_charge(self, words, line):
        self.row.charges.append((Piece(int(words[1]), int(words[2]), words[3].lower()), []))
        if self.row.before is None:         # the first row of a part
            self.row.before = int(words[1])

    def take_wait(self, words, line):
        charge, waits = self.row.charges[-1]
        start, end, why = int(words[1]), int(words[2]), words[3].lower()
        piece = Piece(start, end, "%s_%s" % (charge.cause, why), int(words[5]))
        waits.append(piece)
        read = self.waited_for(charge.cause, why, start, end, piece.word)
        if self.row.is_open and read is None:
            return
        piece.read = read.row, int(words[7]), int(words[9])
        if why == "turn":
            piece.kind = read.kind
        elif why == "bank":
            piece.holder = read.holder
            self.row.is_open = self.row.is_open or read.holder is UNKNOWN

    def waited_for(self, stage, why, start, end, word):
        """The read that was accepted at a tick, or that stood first, or that is on its way."""
        if why == "turn":
            return self.found(self.reads, start)
        if why == "bank":
            return self.found(self.reads, end)
        if stage == "instruction":
            return self.found(self.fetched, word)
        reads = [use.read for use in self.row.uses if use.read]
        return [read for read in reads if read.word == word and read.answer == end][0]

    def take_level(self, words, line):
        self.row.level_wait = int(words[1])

    def take_because(self, words, line):
        reason = words[1].lower()
        if reason not in REASONS:
            raise ValueError(reason)
        if reason == "prefetch":
            read = self.found(self.fetched, int(words[3]))
            if read is not None or not self.row.is_open:
                self.row.because = StallCause(reason, read.row, read.want, number(words[5]))
        else:
            self.row.because = StallCause(reason, number(words[3]), int(words[5]), number(words[7]))

    # ---- the state, and the end

    def take_counter(self, words, line):
        (self.row or self.start).counter = half_word(words[1])

    def take_enabled(self, words, line):
        (self.row or self.start).enabled = words[1] == "1"

    def take_word(self, words, line):
        if self.row is None:
            self.start.words.append((int(words[1]), int(words[3], 16)))
        else:
            self.row.words.append((int(words[1]), int(words[3], 16), int(words[5], 16)))

    def take_print(self, words, line):
        self.row.prints.append(line[4:])

    def take_interrupt(self, words, line):
        self.row.interrupt = int(words[1])


Ledger.LINES = Frame.LINES | {
    "IC": Ledger.take_counter, "EN": Ledger.take_enabled, "WORD": Ledger.take_word, "SEGMENT": Ledger.take_segment, "ROW": Ledger.take_row, "MISSED": Ledger.take_mispredicted,
    "ALONE": Ledger.take_alone, "SUPPRESSED": Ledger.take_suppressed, "LAID": Ledger.take_laid,
    "CODE": Ledger.take_code, "USE": Ledger.take_use, "WRITES": Ledger.take_writes, "INDEX": Ledger.take_index,
    "CHARGE": Ledger.take_charge, "WAIT": Ledger.take_wait, "LEVEL": Ledger.take_level,
    "BECAUSE": Ledger.take_because, "DROP": Ledger.take_drop, "BEGUN": Ledger.take_begun, "PRT": Ledger.take_print,
    "INT": Ledger.take_interrupt,
}


def named(words):
    """Of a line that begins an entry: its number, its address, and its ticks A, P and R."""
    return int(words[1]), half_word(words[2]), int(words[4]), int(words[6]), int(words[8])


def pieces_of(row):
    """The charges of a row, those of waits cut further, in the order of time. They follow each other without a gap from
    the completion before to that of the row."""
    pieces, at = [], row.before
    for charge, waits in row.charges:
        parts = sorted(waits, key=lambda piece: piece.start) if charge.cause in PARTED else [charge]
        for piece in parts:
            if piece.cause not in CAUSES:
                raise Off("row %d: no such cause: %s" % (row.row, piece.cause))
            if piece.start != at or piece.end <= at:
                raise Off("row %d: its charges leave a gap at tick %d" % (row.row, at))
            at = piece.end
        if charge.end != at:
            raise Off("row %d: its waits end at tick %d, not at %d" % (row.row, at, charge.end))
        pieces += parts
    if at != row.c:
        raise Off("row %d: its charges end at tick %d, not at %d" % (row.row, at, row.c))
    return pieces

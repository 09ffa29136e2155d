"""Where the lines of a ledger come from, and the ticks on other machines."""
import os
import subprocess
import tempfile

from .lines import Off

HOME = os.path.join(os.path.dirname(os.path.realpath(__file__)), "..", "..")
MOST_LEVELS = 8
OWN = 4             # the levels of the machine of `run`
NO_PROGRAM = 70
JOB_LIMIT = 2_000_000       # bytes that a job may have
BUDGET = 1000       # instructions of a job that asks for no other number


class Stopped(Exception):
    """A program ended with a status, or there is none; what it wrote is to be passed on."""

    def __init__(self, status, written=b""):
        super().__init__(status)
        self.status, self.written = status, written


class Programs:
    """The programs that are asked. `stretch` answers as ./stretch does; LEDGER names one that answers as ./ledger does."""

    def __init__(self, stretch):
        self.stretch = stretch
        self.named = os.environ.get("LEDGER") or None

    def lines(self, levels, job, *words):
        """The lines of the ledger of a job on a machine of so many levels; the words ask for a part of it."""
        command = [self.named or os.path.join(HOME, "programs", "ledger")]      # where it is installed
        if not os.access(command[0], os.X_OK):
            command = ["sh", os.path.join(HOME, ".ci", "start"), "ledger"]
        return lines_of(started([*command, str(levels), *map(str, words)], job))

    def ticks(self, levels, job):
        """The ticks of a run, by its ledger."""
        return [int(line[6:]) for line in self.lines(levels, job, "sums") if line.startswith("TICKS ")][-1]

    def start(self, words, job):
        if self.stretch is None:
            raise Stopped(NO_PROGRAM)
        return started([self.stretch] + words, job)


def started(command, job):
    """A process that has the job on its standard input."""
    with tempfile.TemporaryFile() as file:
        file.write(job)
        file.seek(0)
        try:
            process = subprocess.Popen(command, stdin=file, stdout=subprocess.PIPE)
        except OSError as error:
            raise Stopped(NO_PROGRAM) from error
    os.environ["STRETCH_UNPROVED"] = "silent"       # that a program is an unproved one is said once
    return process


def lines_of(process):
    """What a program writes, line by line. Where it refuses the job, or writes nothing, Stopped has what it wrote."""
    first = process.stdout.readline()
    if not first or first.startswith(b"CARD "):
        rest = process.stdout.read()
        status = process.wait()
        raise Stopped(status, first + rest)
    return told(process, first)


def told(process, first=b""):
    if first:
        yield first[:-1].decode("latin-1")
    for line in process.stdout:
        yield line[:-1].decode("latin-1")
    status = process.wait()
    if status:
        raise Stopped(status)


def output(process):
    with process.stdout:
        written = process.stdout.read()
    return process.wait(), written


# ---- decks

class Deck:
    """A deck, as its cards are told apart: `lines` have no line ends."""

    def __init__(self, job, deck):
        self.job = job
        self.lines = [line for line, _ in deck.lines_of(job)]
        self.end = next((n for n, line in enumerate(self.lines)
                         if deck.is_statement(line) and deck.operation_of(line) == "END"), len(self.lines))

    @property
    def has_reader_cards(self):
        return any(line[:1] != "/" for line in self.lines[self.end + 1:])

    def text_of(self, card):
        """The text of a card, without its comment; of card 0, which is none, that there is none."""
        return self.lines[card - 1][1:72].split(";")[0].rstrip(" ") if card else "(no card)"

    @property
    def budget(self):
        """The most instructions that the run can have, if the deck is not refused."""
        words = [line[:72].split() for line in self.lines if line[:1] == "/"]
        numbers = [word[1] for word in words if word[0] == "/BUDGET" and len(word) > 1]
        return max((int(number) for number in numbers if number.isascii() and number.isdigit()), default=BUDGET)

    @property
    def snapshots(self):
        """The ticks of its snapshots."""
        words = [line[:72].split() for line in self.lines if line[:1] == "/"]
        return [int(word) for words in words if words[0] == "/SNAP" for word in words[1:]]

    def without(self, *names):
        """The job without control cards of these names."""
        return text_of(line for line in self.lines if not (line[:1] == "/" and line[1:72].split(" ")[0] in names))


def text_of(lines):
    return "".join(line + "\n" for line in lines).encode("latin-1")


# ---- other machines

def swept(programs, job):
    """The ticks of a run with an empty reader on machines of one to eight levels."""
    status, written = output(programs.start(["sweep"], job))
    if status:
        raise Stopped(status)
    return [int(line.split()[3]) for line in written.decode("latin-1").split("\n") if line.startswith("LEVELS ")]


def other_machines(programs, deck, levels, delays, ticks):
    """The ticks on machines of one to eight levels, and those where each read takes one tick. The run took `ticks`."""
    at_once = deck.without("DELAYS")
    slow = set(delays) != {1}
    if deck.has_reader_cards:
        numbers = range(1, MOST_LEVELS + 1)
        on_levels = [ticks if n == levels else programs.ticks(n, deck.job) for n in numbers]
        return on_levels, programs.ticks(levels, at_once) if slow else ticks
    on_levels = swept(programs, deck.job)
    if on_levels[levels - 1] != ticks:
        raise Off("the ledger has %d ticks, and ./stretch sweep %d" % (ticks, on_levels[levels - 1]))
    return on_levels, swept(programs, at_once)[levels - 1] if slow else ticks

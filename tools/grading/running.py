"""Runs a deck in the cases of a task, within limits of time and output, and says what is not as it has to be."""
import os
import re
import signal
import subprocess
import threading

from diagnosing.knowledge import Knowledge
from diagnosing.report import Report

REFUSED, NO_PROGRAM = 1, 70
MOST_DUMPS = 16                 # so many /DUMP cards a deck may have
REGISTERS = 32                  # so many words are registers, which a report shows without a dump


class Limits:
    """So many seconds a run may take, and so many bytes it may write."""

    def __init__(self, seconds, size):
        self.seconds, self.size = seconds, size


class Stopped(Exception):
    """A run that came to no report; the text says why."""


class NoProgram(Exception):
    """There is no program to ask."""


def ran(program, words, job, limits):
    """The status and the output of a run. It is stopped, with all that it started, where it is past a limit."""
    late = threading.Event()
    with started([program, *words]) as process:
        def stop():
            late.set()
            killed(process)

        def give():
            try:
                process.stdin.write(job)
                process.stdin.close()
            except OSError:
                pass                # the program has ended before it read all

        timer, giver = threading.Timer(limits.seconds, stop), threading.Thread(target=give)
        timer.start()
        giver.start()
        written = process.stdout.read(limits.size + 1)
        if len(written) > limits.size:
            killed(process)
        giver.join()
        status = process.wait()
        timer.cancel()
    if late.is_set():
        raise Stopped("the run was stopped after %g seconds" % limits.seconds)
    if len(written) > limits.size:
        raise Stopped("the run was stopped when it had written %d bytes" % limits.size)
    return status, written.decode("latin-1")


def started(command):
    """A process in a session of its own, so that all that it starts can be stopped with it."""
    try:
        return subprocess.Popen(command, stdin=subprocess.PIPE, stdout=subprocess.PIPE, stderr=subprocess.DEVNULL, start_new_session=True)
    except OSError as error:
        raise NoProgram() from error


def killed(process):
    try:
        os.killpg(process.pid, signal.SIGKILL)
    except ProcessLookupError:
        pass


class Field:
    """What has to stand at a place: the place and the length in bits, and the bits as a number."""

    def __init__(self, wanted, place, length, number):
        self.wanted, self.place, self.length, self.number = wanted, place, length, number

    def words(self):
        return range(self.place // 64, (self.place + self.length - 1) // 64 + 1)

    def shown(self, number):
        """Bits of the field as they are read: a binary number without a sign in decimal, others by their digits."""
        form = self.wanted.form
        return str(number) if form.startswith("(BU") else "%0*X" % (-(-self.length // 4), number)


class Runner:
    """Runs decks by a program. `plain` is the module of tools/deck."""

    def __init__(self, plain, program, limits):
        self.plain, self.program, self.limits, self.says = plain, program, limits, Knowledge().says

    def run(self, cards):
        status, text = ran(self.program, ["run"], "".join(card + "\n" for card in cards).encode("latin-1"), self.limits)
        if status == NO_PROGRAM:
            raise NoProgram()
        if status not in (0, REFUSED):
            raise Stopped("the program gave status %d" % status)
        return status, text

    def fields(self, case):
        """The fields that a case wants, as the assembler lays them. A place may be a symbol of the machine."""
        probe = ["         SLC,32.0"]
        for n, one in enumerate(case.wanted):
            probe += [" P%07dSYN,%s" % (n, one.place), " Q%07dDR,0" % n, "         DD%s,%s" % (one.form, one.number), " R%07dDR,0" % n]
        status, text = self.run([card for card in probe] + ["         END,32.0", "/BUDGET 1", "/LIST", "/DUMP 32 8191"])
        if status == REFUSED:
            one = case.wanted[max(0, (int(text.split()[1]) - 2) // 4)]
            raise Stopped("at %s %s = %s: %s" % (one.place, one.form, one.number, text.split(" ", 2)[2].strip()))
        report = Report(text)
        lengths = [len_of(one.form) for one in case.wanted]
        return [Field(one, report.places["P%07d" % n], lengths[n], report.bits(report.places["Q%07d" % n], lengths[n]))
                for n, one in enumerate(case.wanted)]

    def graded(self, plain, case):
        """What is not as it has to be in one case, and the report. The deck's own control cards are left out."""
        cards = [card for card, _ in plain.cards]
        end = len(cards) if plain.end is None else plain.end
        fields = case.fields
        reader = case.reader if case.reader is not None else [card for card in cards[end + 1:] if card[:1] == "*"]
        asked = ["/BUDGET %d" % case.budget, "/TIME", *case.controls, *dumps(fields), *reader]
        status, text = self.run(cards[:end] + case.data + cards[end:end + 1] + (asked if plain.end is not None else []))
        if status == REFUSED:
            return [self.refusal(text, plain, end, len(case.data))], None
        report = Report(text)
        report.ticks = int(re.search(r"(?m)^TICKS (\d+)$", text).group(1))
        return list(faults(case, report, fields, text)), report

    def refusal(self, text, plain, end, added):
        """A refusal by the line of the student's own deck, or by the cards of the task."""
        number, fault = re.match(r"CARD (\d+) (.*)", text).groups()
        card, told = int(number) - 1, "%s: %s" % (fault, self.says.get(fault, ""))
        if end <= card < end + added:
            return "a card of the task's data is refused behind this deck: %s" % told
        card -= added if card >= end else 0
        return "line %d: %s" % (plain.numbers[card], told) if card < len(plain.numbers) else told


def len_of(form):
    found = re.match(r"\([BD]U?,(\d+)", form)
    return int(found.group(1)) if found else 64


def dumps(fields):
    """The cards that dump the words of fields, as few as there have to be."""
    words = sorted({word for field in fields for word in field.words() if word >= REGISTERS})
    spans = []
    for word in words:
        if spans and word == spans[-1][1] + 1:
            spans[-1][1] = word
        else:
            spans.append([word, word])
    spans = spans if len(spans) <= MOST_DUMPS else [[words[0], words[-1]]]
    return ["/DUMP %d %d" % tuple(span) for span in spans]


def faults(case, report, fields, text):
    """What is not as it has to be in a run."""
    if report.why != case.ends:
        yield "it ends with END %s, and END %s is wanted (%d instructions done)" % (report.why, case.ends, report.done)
    for field in fields:
        number = report.bits(field.place, field.length)
        if number != field.number:
            told = "" if case.hidden else ": it is %s, and %s is wanted" % (field.shown(number), field.shown(field.number))
            yield "the number at %s %s is wrong%s" % (field.wanted.place, field.wanted.form, told)
    printed = re.findall(r"(?m)^PRT (.*)$", text)
    if case.printed is not None and printed != case.printed:
        yield "what is printed is wrong" if case.hidden else "what is printed is wrong: %s, and not %s" % (
            " / ".join(printed) or "nothing", " / ".join(case.printed) or "nothing")
    for name, number in (("ticks", report.ticks), ("instructions", report.done)):
        if case.limits[name] is not None and number > case.limits[name]:
            yield "it takes %d %s, and at most %d are allowed" % (number, name, case.limits[name])

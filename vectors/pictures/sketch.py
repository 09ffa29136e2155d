#!/usr/bin/env python3
"""Draws a report as ./chart does, written apart from that program after docs/chart.md. It is slow, and not proved.

    python3 sketch.py [svg|text|kanata] [FROM TO] < REPORT

The pictures beside it were made with it."""
import os
import sys
from collections import namedtuple

MOST = 2**64 - 1
NAMES = (
    "MK IK IJ EK TS CPUS EKJ UNRJ CBJ EPGK UK EE EOP CS - OP AD USA EXE DS DF IF LC PF ZD - - - - - - - - - - "
    "TF UF VF XF BTR DTR PG0 PG1 PG2 PG3 PG4 PG5 PG6 XCZ XVLZ XVZ XVGZ XL XE XH MOP RLZ RZ RGZ RN AL AE AH -"
).split()

# kind is row, drop, int or snap; ticks are p r turn c of a row, p end of what was dropped, or the one tick.
Entry = namedtuple("Entry", "kind number place ticks")


def number(text):
    if text and all(c in b"0123456789" for c in text) and int(text) <= MOST:
        return int(text)
    return None


def numbers(texts):
    found = [number(text) for text in texts]
    return None if None in found else found


def place(text):
    parts = (text + b".").split(b".")
    return numbers(parts[:2])


def timetable(report, low, high):
    """The entries of the rows low to high, oldest first, and how many rows follow them."""
    entries, dropped = [], []
    row, end, later = 1, 0, 0

    def wanted(n):
        return low <= n <= high

    def put(n, entry):
        entries.extend(reversed(dropped))
        dropped.clear()
        if wanted(n):
            entries.append(entry)

    for line in report.split(b"\n"):
        w = line.split(b" ") + [b""] * 9
        if w[0] == b"ROW" and w[3] == b"P" and w[5] == b"R" and w[7] == b"C":
            got, at = numbers([w[1], w[4], w[6], w[8]]), place(w[2])
            if got and at:
                n, p, r, c = got
                turn = max(r, end)
                turn = turn if turn <= c else max(r, c)
                put(n, Entry("row", n, at, (p, r, turn, c)))
                row, end, later = n, c, later + (n > high)
        elif w[0] == b"DROP" and w[2] == b"P":
            p, at = number(w[3]), place(w[1])
            if p is not None and at and wanted(row):
                dropped.append(Entry("drop", 0, at, (p, end)))
        elif w[0] == b"INT" and w[2] == b"AFTER":
            if number(w[1]) is not None:
                put(row, Entry("int", number(w[1]), None, (end,)))
        elif w[0] == b"SNAP":
            if number(w[1]) is not None:
                put(row, Entry("snap", 0, None, (number(w[1]),)))
    return entries + dropped[::-1], later


def listing(report):
    """The first card that lays bits at each place: a dictionary."""
    cards = {}
    for line in report.split(b"\n"):
        if number(line[:5].lstrip(b" ")) is None:
            break
        at = place(line[6:15].lstrip(b" "))
        if at and line[16:17] not in (b"", b" "):
            cards.setdefault(tuple(at), line[33:].strip(b" "))
    return cards


def texts(entry, cards):
    """The three texts before the bars."""
    where = entry.place and b"%d.%d" % tuple(entry.place)
    card = entry.place and cards.get(tuple(entry.place), b"")
    if entry.kind == "row":
        return b"%d" % entry.number, where, card
    if entry.kind == "drop":
        return b"drop", where, card
    if entry.kind == "int":
        name = "" if entry.number > 63 else NAMES[entry.number].replace("-", "").ljust(4)
        return b"INT", b"%d" % entry.number, name.encode()
    return b"SNAP", b"%d" % entry.ticks[0], b""


def plain(text):
    return bytes(c if 32 <= c <= 126 else 63 for c in text)


def escaped(text):
    return plain(text).replace(b"&", b"&amp;").replace(b"<", b"&lt;").replace(b">", b"&gt;")


def dotted(text):
    return text if len(text) <= 40 else text[:37] + b"..."


class Axis:
    def __init__(self, entries, least, left, width):
        low = min((e.ticks[0] for e in entries), default=MOST)
        self.last = max((e.ticks[-1] for e in entries), default=0)
        span, unit = max(0, self.last - low), 1
        steps = [m * 10**k for k in range(20) for m in (1, 2, 5)]
        self.step = next(s for s in steps if span <= 5 * s)
        self.start = low // self.step * self.step
        self.span = max(least, self.last - self.start)
        self.left, self.width = left, width

    def at(self, tick):
        return self.left + min(self.width, max(0, tick - self.start) * self.width // self.span)

    def marks(self):
        return [t for t in range(self.start, self.start + 8 * self.step, self.step) if t <= self.last]


def bars(entry):
    """The phases: the class, the byte of text, the least width and the two ticks of each."""
    t = entry.ticks
    if entry.kind == "row":
        return [("w", b".", 0, t[0], t[1]), ("t", b"-", 0, t[1], t[2]), ("e", b"#", 1, t[2], t[3])]
    if entry.kind == "drop":
        return [("d", b"x", 1, t[0], t[1])]
    return []


def title(entry):
    t = entry.ticks
    if entry.kind == "row":
        form = "row %d: waits for operands from P %d to R %d, for its turn to %d, executes to C %d"
        return (form % ((entry.number,) + t)).encode()
    return b"prepared at P %d, dropped at %d" % t


STYLE = (
    '<defs><pattern id="h" width="5" height="5" patternUnits="userSpaceOnUse" patternTransform="rotate(45)">'
    '<rect width="5" height="5" fill="#fff"/><rect width="2" height="5" fill="#8a3b12"/></pattern></defs>\n'
    "<style>text{font:11px monospace;fill:#111;white-space:pre}.n{text-anchor:end}.m{text-anchor:middle;fill:#555}"
    ".p{fill:#fff}.g{stroke:#ddd}.w{fill:#b5d0eb}.t{fill:#6f9ccb}.e{fill:#17365a}"
    ".d{fill:url(#h);stroke:#8a3b12}"
    ".i{stroke:#b3261e}.s{stroke:#2e7d32;stroke-dasharray:2 3}</style>\n"
)


def svg(entries, cards, rows, later):
    out = []
    wide = max((min(40, len(texts(e, cards)[2])) for e in entries), default=0)
    axis = Axis(entries, 1, 124 + 7 * wide, 504 - 7 * wide)
    bottom = 36 + 16 * len(entries)

    def box(kind, x, y, width, height, inner=None):
        end = b"/>" if inner is None else b"><title>" + escaped(inner) + b"</title></rect>"
        form = b'<rect class="%s" x="%d" y="%d" width="%d" height="%d"%s\n'
        out.append(form % (kind.encode(), x, y, width, height, end))

    def line(kind, x, y, x2, y2):
        out.append(b'<line class="%s" x1="%d" y1="%d" x2="%d" y2="%d"/>\n' % (kind.encode(), x, y, x2, y2))

    def text(kind, x, y, inner):
        out.append(b'<text class="%s" x="%d" y="%d">%s</text>\n' % (kind.encode(), x, y, inner))

    box("p", 0, 0, 640, bottom + 60)
    if entries:
        text("m", axis.left - 48, 22, b"ticks")
    else:
        text("c", 12, 20, b"no rows")
    for tick in axis.marks():
        line("g", axis.at(tick), 28, axis.at(tick), bottom)
        text("m", axis.at(tick), 22, b"%d" % tick)
    for k, entry in enumerate(entries):
        y = 36 + 16 * k
        first, second, third = texts(entry, cards)
        text("n", 48, y + 12, escaped(first))
        text("n", 110, y + 12, escaped(second))
        text("c", 120, y + 12, escaped(third) if len(third) <= 40 else escaped(third[:39]) + "…".encode())
        for kind, _, least, start, end in bars(entry):
            box(kind, axis.at(start), y + 3, max(least, axis.at(end) - axis.at(start)), 10, title(entry))
        if not bars(entry):
            kind, x = entry.kind[0], axis.at(entry.ticks[0])
            line(kind, axis.left, y + 8, axis.left + axis.width, y + 8)
            line(kind, x, 28, x, bottom)
    keys = [(12, "w", "waiting for operands"), (186, "t", "waiting for its turn"), (360, "e", "executing"), (466, "d", "dropped")]
    for x, kind, meaning in keys:
        box(kind, x, bottom + 8, 20, 10)
        text("c", x + 26, bottom + 17, meaning.encode())
    for x, kind, meaning in [(12, "i", "interrupt"), (186, "s", "snapshot")]:
        line(kind, x, bottom + 29, x + 20, bottom + 29)
        text("c", x + 26, bottom + 33, meaning.encode())
    text("c", 12, bottom + 54, b"%d rows, %d follow" % (rows, later))
    head = '<svg xmlns="http://www.w3.org/2000/svg" xml:space="preserve" viewBox="0 0 640 %d">\n' % (bottom + 60)
    return (head + STYLE).encode() + b"".join(out) + b"</svg>\n"


def lines(entries, cards, rows, later):
    wide = max((min(40, len(texts(e, cards)[2])) for e in entries), default=0)
    axis = Axis(entries, 60, 0, 60)
    out = b"no rows\n"
    if entries:
        out = b"ticks".rjust(18 + wide)
        for tick in axis.marks():
            place = 19 + wide + axis.at(tick)
            if len(out) < place:
                out = out.ljust(place) + b"%d" % tick
        out += b"\n"
    for entry in entries:
        first, second, third = texts(entry, cards)
        out += first.rjust(7) + second.rjust(10) + b" " + plain(dotted(third)).ljust(wide) + b" "
        out += b" " * axis.at(entry.ticks[0])
        for _, byte, least, start, end in bars(entry):
            out += byte * max(least, axis.at(end) - axis.at(start))
        out += {"int": b"!", "snap": b"|"}.get(entry.kind, b"") + b"\n"
    out += b". waiting for operands  - waiting for its turn  # executing  x dropped\n! interrupt  | snapshot\n"
    return out + b"%d rows, %d follow\n" % (rows, later)


def stages(entry):
    """The stages by their letters, the tick at which each begins, and that at which the last one ends."""
    t = entry.ticks
    if entry.kind == "row":
        p, r, turn, c = t[0], max(t[:2]), max(t[:3]), max(t)
        return "WTX", (p, r, turn), c
    if entry.kind == "drop":
        return "D", t[:1], max(t)
    return {"int": "I", "snap": "S"}[entry.kind], t, min(t[0] + 1, MOST)


def log(entries, cards):
    told = []
    begun = sorted(entries, key=lambda e: e.ticks[0])
    for k, entry in enumerate(begun):
        letters, starts, end = stages(entry)
        label = plain(b" ".join(texts(entry, cards)[:2] + (dotted(texts(entry, cards)[2]),)))
        for i, letter in enumerate(letters):
            ends = "E\t%d\t0\t%s\n" % (k, letters[i - 1]) if i else "I\t%d\t%d\t0\nL\t%d\t0\t%s\n" % (k, k, k, label.decode())
            told.append((starts[i], "%sS\t%d\t0\t%s\n" % (ends, k, letter)))
        last = "E\t%d\t0\t%s\nR\t%d\t%d\t%d\n" % (k, letters[-1], k, entry.number if entry.kind == "row" else 0, entry.kind == "drop")
        told.append((end, last))
    told.sort(key=lambda moment: moment[0])
    now = told[0][0] if told else 0
    out = "Kanata\t0004\nC=\t%d\n" % now
    for tick, text in told:
        out += ("C\t%d\n" % (tick - now) if tick != now else "") + text
        now = tick
    return out.encode()


def main(words):
    kinds = ("svg", "text", "kanata")
    kind = words.pop(0) if words and words[0] in kinds else "svg"
    low, high = 1, 200
    if words:
        bounds = numbers([word.encode() for word in words])
        if len(words) != 2 or not bounds or not 1 <= bounds[0] <= bounds[1]:
            return 2
        low, high = bounds[0], min(bounds[1], bounds[0] + 199)
    if sys.stdin is None:
        return 4
    report = sys.stdin.buffer.read()
    entries, later = timetable(report, low, high)
    rows = sum(e.kind == "row" for e in entries)
    if not rows:
        entries = []
    cards = listing(report)
    made = log(entries, cards) if kind == "kanata" else (svg if kind == "svg" else lines)(entries, cards, rows, later)
    try:
        sys.stdout.buffer.write(made)
        sys.stdout.buffer.flush()
    except OSError:
        os._exit(5)
    return 0 if rows else 1


if __name__ == "__main__":
    sys.exit(main(sys.argv[1:]))

"""Everything as one object (docs/explain.md, "The object"). Its lists wait in files, since the totals come first."""
import json
import tempfile

from .lines import place


def dumped(value):
    return json.dumps(value, separators=(",", ":"))


def hexadecimal(word):
    return "%016X" % word


class Json:
    """The form: takes row after row, and then puts the whole together."""

    def __init__(self, asked, names, out):
        self.asked, self.names, self.out = asked, names, out     # names are those of indicators
        self.segments, self.entries, self.interrupts, self.prints = Items(), Items(), Items(), Items()
        self.state = State()

    def begin(self, start):
        self.state.begin(start)

    def add(self, row, text, text_of):
        shown = self.asked.shows(row.row)
        if shown:
            self.state.show()
        state = self.state.add(row)
        if shown:
            self.entries.add(entry_of(row, text, self.names, state))
        if self.asked.is_part and not shown:
            return
        if row.ends or self.asked.is_part and row.row == self.asked.last:
            self.segments.add(segment_of(row.segment, text_of))
        for printed in row.prints:
            self.prints.add({"after_row": row.row, "tick": row.c, "text": printed})
        if row.interrupt is not None:
            name = self.names.get(row.interrupt)
            self.interrupts.add({"after_row": row.row, "tick": row.c, "indicator": row.interrupt, "name": name})

    def end(self, sums, ledger, other, at_once, deck):
        self.state.show()
        start = ledger.start
        totals = totals_of_long(sums, deck.text_of) if self.asked.is_part else totals_of(sums, other, at_once)
        head = {"levels": start.levels, "delays": start.delays, "end": ledger.end.kind, "totals": totals,
                "snapshots": deck.snapshots, "first": self.state.shown}
        self.out.write(dumped(head)[:-1])
        for name in ("segments", "entries", "interrupts", "prints"):
            self.out.write(',"%s":[' % name)
            getattr(self, name).copy_to(self.out)
            self.out.write("]")
        self.out.write("}\n")


class Items:
    """The items of a list, kept in a file."""

    def __init__(self):
        self.file = tempfile.SpooledTemporaryFile(1 << 20, "w+", encoding="ascii", newline="")
        self.count = 0

    def add(self, item):
        self.file.write("," * (self.count > 0) + dumped(item))
        self.count += 1

    def copy_to(self, out):
        self.file.seek(0)
        while part := self.file.read(1 << 16):
            out.write(part)
        self.file.close()


class State:
    """The state after the rows so far, and the one before the first row shown."""

    def __init__(self):
        self.counter, self.enabled, self.words, self.shown = 0, False, {}, None

    def begin(self, start):
        self.counter, self.enabled, self.words = start.counter, start.enabled, dict(start.words)

    def add(self, row):
        """Goes on behind a row; gives what is told of the state there: of words those that the row changed."""
        self.counter = row.counter
        self.enabled = self.enabled if row.enabled is None else row.enabled
        changed = [(word, after) for word, _, after in row.words]
        if self.shown is None:
            self.words.update(changed)
        return self.told(changed)

    def told(self, words):
        spelled = [[word, hexadecimal(number)] for word, number in words]
        return {"counter": place(self.counter), "enabled": self.enabled, "words": spelled}

    def show(self):
        """From here on rows are shown."""
        if self.shown is not None:
            return
        self.shown = self.told((word, number) for word, number in sorted(self.words.items()) if number)
        self.words = {}


# ---- what is told of segments and entries

def segment_of(segment, text_of):
    return {
        "segment": segment.number, "reason": segment.reason, "indicator": segment.indicator,
        "after_wait": segment.after_wait, "start": segment.start, "end": segment.end,
        "dropped": [ahead_of(entry, text_of) for entry in segment.dropped], "begun": ahead_of(segment.begun, text_of),
    }


def ahead_of(entry, text_of):
    """An entry that was not done; None where a segment goes on behind the last row that is shown."""
    return entry and {
        "address": place(entry.address), "text": text_of(entry).strip(" "), "card": entry.card,
        "a": entry.a, "p": entry.p, "r": entry.r, "serial": entry.alone, "writes": entry.writes,
        "uses": [use_of(use) for use in entry.uses], "index": change_of(entry.index),
    }


def entry_of(row, text, names, state):
    because = row.because
    changed = row.index[0] if row.index else None
    stored = [(w - 16, before, after) for w, before, after in row.words if 16 <= w < 32 and w - 16 != changed]
    return {
        "row": row.row, "segment": row.segment.number, "address": place(row.address), "text": text.strip(" "),
        "card": row.card, "a": row.a, "p": row.p, "r": row.r, "c": row.c, "cost": row.cost,
        "serial": row.alone, "table": row.table, "missed": row.mispredicted,
        "fault": None if row.suppressed is None else names[row.suppressed],
        "charges": [piece_of(piece) for piece in row.charges],
        "because": because and {name: getattr(because, name) for name in ("reason", "row", "tick", "late")},
        "level_wait": row.level_wait,
        "uses": [use_of(use) for use in row.uses], "writes": row.writes,
        "index": change_of(row.index), "stored_index": [change_of(one) for one in stored], "state": state,
    }


def piece_of(piece):
    told = {"from": piece.start, "to": piece.end, "cause": piece.cause}
    if piece.read:
        told.update(word=piece.word, read=dict(zip(("row", "word", "bank"), piece.read)))
    if piece.cause.endswith("_bank"):
        told["busy_with"] = piece.holder and dict(zip(("row", "word", "kind"), piece.holder))
    return told


def use_of(use):
    told = {"kind": use.kind, "word": use.word, "how": use.how}
    read = use.read
    if read:
        told.update(bank=read.bank, want=read.want, turn=read.turn, bank_free=read.free,
                    accept=read.accept, answer=read.answer, made=read.made)
    elif use.how == "held":
        told.update(row=use.row, answer=use.tick)
    elif use.how == "forwarded":
        told.update(row=use.row, done=use.tick)
    return told


def change_of(change):
    return change and {"number": change[0], "before": hexadecimal(change[1]), "after": hexadecimal(change[2])}


def totals_of(sums, other, at_once):
    return summed(sums) | {
        "by_levels": sums.by_levels,
        "by_address": [{"address": place(address), "text": text.strip(" "), "times": times, "by_cause": causes}
                       for address, text, times, causes in sums.by_address()],
        "waited_for_level": waited_for_level(sums), "banks": sums.banks, "words": sums.words,
        "ticks_on_levels": other, "ticks_if_delays_were_one": at_once,
    }


def totals_of_long(sums, text_of_card):
    """Those of a run of which not all rows are read."""
    unknown = dict.fromkeys(("by_levels", "by_address", "banks", "words", "ticks_on_levels", "ticks_if_delays_were_one"))
    return summed(sums) | unknown | {
        "by_card": [{"card": card or None, "text": text_of_card(card).strip(" "), "times": times, "by_cause": causes}
                    for card, times, causes in sums.by_card()],
        "waited_for_level": waited_for_level(sums),
    }


def summed(sums):
    return {
        "ticks": sums.ticks, "instructions": sums.rows, "dropped": sums.dropped, "wrong_guesses": sums.mispredicted,
        "by_cause": sums.by_cause, "by_reason": sums.by_reason,
    }


def waited_for_level(sums):
    return {"rows": sums.level_wait_rows, "ticks": sums.level_wait_ticks}

"""What is odd at the end of a run."""
from .odd_order import counting
from .report import OP

CHECKS = range(15, 22)            # OP to IF: an instruction was suppressed
MASKABLE = range(22, 48)          # indicators whose bit of the mask a program sets
INTERRUPTING = 48                 # so many indicators can interrupt
STORM = 20                        # so many interrupts and more, at every second instruction or more of them
BELOW_ZERO = 1 << 17              # a count from here on was counted down from zero
SHOWN = 8                         # so many cards are named
ENDS = (11, 12)                   # EE and EOP: an order has ended
HALF = (1 << 13) - 1              # the bits of a half-word instruction behind its address
FULL = 0xFF << 32 | HALF          # those of a full-word one behind its two addresses


def of_end(deck, report, dumped):
    """What is odd at the end: pairs of what is seen and the facts of this run."""
    storm, on = is_storm(report), report.on()
    if storm:
        yield from of_storm(deck, report)
    elif report.why == "BUDGET" or OP in on:
        lost = stored_over(deck, report, dumped)
        if lost:
            yield "an instruction that was stored over", "; ".join("card %d: %s" % one for one in lost[:SHOWN])
        if report.why == "BUDGET" and not (lost and report.is_behind()):
            yield of_budget(deck, report)
            yield from of_taken(deck, report)
    if "" in report.printed:
        yield "a printed line is blank", ""
    counts = [n for n in range(16) if report.count(n) >= BELOW_ZERO] if not has_high_counts(deck) else []
    if counts:
        yield "a count below zero", "; ".join(counts_told(deck, report, counts))
    checks = [deck.known.indicators[n] for n in on if n in CHECKS]
    if checks and not storm:
        yield "an indicator of a check is on at the end", " ".join(checks)
    if report.table():
        yield from of_waiting(deck, report, on)


def has_high_counts(deck):
    """Whether a card lays or loads such a count: then it may be one that is left."""
    fields = [card.fields[1] for _, card in deck.statements if card.operation in ("XW", "LCI") and len(card.fields) > 1]
    return any(BELOW_ZERO <= int(field.split(".")[0]) for field in fields if field[:1].isdigit())


def counts_told(deck, report, below):
    """The counts below zero with the cards that count them, and counts above it that no card counts."""
    cards = counting(deck)
    for n in below:
        numbers = [deck.numbers[one] for one in cards.get("$X%d" % n, [])]
        yield "$X%d: %d" % (n, report.count(n)) + (
            ", counted by card%s %s" % ("s" * (len(numbers) > 1), ", ".join(map(str, numbers))) if numbers else "")
    for n in range(16):
        if 0 < report.count(n) < BELOW_ZERO and "$X%d" % n not in cards:
            yield "$X%d: %d, counted by no card" % (n, report.count(n))


def of_waiting(deck, report, on):
    """Interrupts that did not come, or came late, in a program with a table."""
    masked = [deck.known.indicators[n] for n in on if n in MASKABLE and report.masked(n)]
    if masked:
        yield "an indicator is on and masked", " ".join(masked)
    waits = [deck.known.indicators[n] for n in on if n < INTERRUPTING and not report.masked(n)]
    if waits and not report.enabled:
        yield "an indicator waits, and interrupts are disabled", " ".join(waits)
    late = [(count, n, after) for count, n in deck.signals() for k, after in report.interrupts[:1] if k == n and after > count]
    if late and not deck.uses("BE"):
        yield "a signal that waited for BEW", "signal %d came after %d instructions, and interrupted after %d" % (late[0][1], late[0][0], late[0][2])


def is_storm(report):
    """Whether interrupts came at every second instruction or more often, and the last ones alike."""
    last = report.interrupts[-STORM:]
    return len(last) == STORM and last[-1][1] - last[0][1] <= 2 * STORM and len({n for n, _ in last}) == 1


def of_storm(deck, report):
    (first, after), (last, _) = report.interrupts[0], report.interrupts[-1]
    name = lambda n: "%d %s" % (n, deck.known.indicators[n])
    facts = "%d of them in %d instructions; the first was %s after %d" % (len(report.interrupts), report.done, name(first), after)
    empty = [n for n in (first, last) if not any(one.word == report.table() + n for one in report.emitted)]
    if not report.table():
        if first in ENDS and not deck.uses("BE") and not any(
                card.operation[:2] == "BI" and card.fields[:1] and card.fields[0] in ("$EOP", "$EE") for _, card in deck.statements):
            yield "an order that no card waits for", ""
        yield "interrupts without a table", facts
    elif empty:
        facts += "; word %d, for %s, is empty" % (report.table() + empty[0], name(empty[0]))
        yield "interrupts, and no instruction in the table", facts
    else:
        yield "interrupts without end", "%s; the last ones were %s" % (facts, name(last))


def of_budget(deck, report):
    facts = "IC %d.%d, %d instructions done" % (report.counter // 64, report.counter % 64, report.done)
    if not report.is_behind():
        return "END BUDGET, and the counter in the program", facts
    if deck.uses("BEW"):
        return "END BUDGET, and the counter after a program with BEW", facts
    return "END BUDGET, and the counter after the program", facts


def of_taken(deck, report):
    """Indicators that an interrupt turned off, and that cards look at: a loop waits for them in vain."""
    names = {"$" + deck.known.indicators[n] for n, _ in report.interrupts}
    taken = sorted({field for _, card in deck.statements if card.operation[:2] == "BI" for field in card.fields[:1] if field in names})
    if taken:
        yield "an interrupt took what a card looks at", " ".join(taken)


def stored_over(deck, report, dumped):
    """The cards whose instructions are no longer what they were, their addresses apart: numbers and texts."""
    places = {one.number: one for one in report.emitted}
    code = [(n, card, places[n + 1]) for n, card in deck.statements if n + 1 in places and deck.is_instruction(card)]
    last = dumped([one.word for _, _, one in code]) if code else None
    if last is None:
        return []
    return [(deck.numbers[n], card.body.strip()) for n, card, one in code if is_changed(one, last)]


def is_changed(one, report):
    """Whether the bits of an instruction are others at the end, but for addresses, which programs may change."""
    at_end = report.bits(one.place, 4 * len(one.digits))
    kept = HALF if len(one.digits) == 8 else FULL
    return (at_end ^ int(one.digits, 16)) & kept != 0

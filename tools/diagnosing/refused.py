"""What is shown of a refused card: its columns, its parts, what its fault says, and the causes found."""
import difflib
import os

from .cards import Card, is_statement, shown
from .repairs import Trial

RULER = "%s\n%s" % ("".join("%10d" % k for k in range(1, 9)), "1234567890" * 8)
SHOWN = 3                 # so many causes, and examples of the manual
EXAMPLES = 4
GUESSED = ("a word of another machine", "a misspelled operation")


def differing(old, new):
    """Where two texts differ: the begin and the end in the first one."""
    front = len(os.path.commonprefix([old, new]))
    back = len(os.path.commonprefix([old[front:][::-1], new[front:][::-1]]))
    return front, max(front + 1, len(old) - back)


def card_shown(text, repaired):
    """A card below its ruler, with a mark below what a repair would change."""
    lines = RULER.split("\n") + [shown(text)]
    if repaired is not None and shown(text) == text:
        begin, end = differing(text, repaired)
        lines.append(" " * begin + "^" * (end - begin))
    return "\n".join("    " + line for line in lines)


def cut_shown(text):
    card = Card(text)
    return "    name: %s   operation: %s   %sfields: %s" % (
        shown(card.name) or "none", shown(card.operation) or "none", "".join("group: %s   " % shown(group) for group in card.groups),
        "   ".join("%d %s" % (n, shown(field) or "(empty)") for n, field in enumerate(card.fields, 1)) or "none")


def change_shown(cards, made):
    """The cards of a repaired deck that are not in the first one, those that are gone, and before which card new ones stand."""
    for tag, a, b, c, d in difflib.SequenceMatcher(None, cards, made, False).get_opcodes():
        if tag != "equal":
            yield from ("    - %s" % shown(card) for card in cards[a:b] if tag == "delete")
            yield from ("    %s" % card for card in made[c:d])
            yield from ("    %s   <- as it was" % shown(card) for card in cards[b:b + 1] if tag == "insert")


def explained(cards, number, fault, known, slow, line=None):
    """All that is shown of a refused card. Where the program is slow to start, no repair is tried."""
    where = "" if line is None else "   (line %d of the deck)" % line
    out = ["CARD %d %s%s" % (number, fault, where), ""]
    text = cards[number - 1] if number <= len(cards) else None
    found = Trial(known, slow).causes(cards, number, fault)
    if text is not None:
        first = found[0][1] if found else None
        same = first is not None and len(first) == len(cards)
        out.append(card_shown(text, first[number - 1] if same else None))
        if is_statement(text) and fault not in ("NOT ASCII", "CARD TOO LONG", "BAD NAME"):
            out += ["", cut_shown(text)]
    out += ["", "%s: %s." % (fault, known.says.get(fault, ""))]
    out += wanted_shown(text, fault, known)
    if fault == "NAME TWICE":
        name = Card(text).name
        out += ["The earlier card: %s" % card for card in cards[:number - 1] if is_statement(card) and Card(card).name == name]
    return "\n".join(out + (causes_shown(found[:SHOWN], cards, known) or examples_shown(text, fault, known)))


def first_cause(cards, number, fault, known, slow):
    """The likeliest cause in words, none where none was found."""
    found = Trial(known, slow).causes(cards, number, fault)
    return causes_told(found[0][0]) if found else ""


def causes_told(rows):
    return ". And ".join(row.text for row in rows)


def wanted_shown(text, fault, known):
    card = Card(text) if text is not None and is_statement(text) else None
    if card and card.operation in known.operations and fault in ("BAD FIELD COUNT", "BAD INDEX", "BAD EXPRESSION"):
        return ["%s has %s." % (card.operation, known.operations[card.operation].said())]
    if card and fault == "UNKNOWN OPERATION" and card.operation in known.here:
        return ["%s is a word of other machines; here it is %s." % (card.operation, known.here[card.operation])]
    return []


def meaning_shown(rows, cards, made, known):
    """What a new operation does, where the repair has another one."""
    if not rows[0].text.startswith(GUESSED):
        return []
    names = [Card(new).operation for old, new in zip(cards, made) if old != new and is_statement(new)]
    return ["   %s: %s." % (name, known.operations[name].does) for name in names if name in known.operations]


def causes_shown(found, cards, known):
    out = []
    for n, (rows, made) in enumerate(found, 1):
        out += ["", "%d. %s." % (n, causes_told(rows))]
        if made is not None:
            out += ["   With this the card is accepted:"] + list(change_shown(cards, made)) + meaning_shown(rows, cards, made, known)
        elif not rows[0].text.startswith(GUESSED):
            out.append("   Example: %s   Repair: %s" % (rows[0].example, rows[0].repair))
    return out


def examples_shown(text, fault, known):
    """Cards of the manual with this fault, those with the same operation first."""
    rows = [row for row in known.rows if row.fault == fault]
    operation = Card(text).operation if text is not None else ""
    rows.sort(key=lambda row: operation == "" or "_%s" % operation not in row.example)
    return ["", "Cards with this fault, and without it (_ stands for nine blanks):"] + [
        "    %-36s %s: %s" % (row.example, row.text, row.repair) for row in rows[:EXAMPLES]]

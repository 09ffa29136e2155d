"""Causes in the operation of a card: words of other machines, letters turned round, a comma that lacks."""
import difflib
import re

from .cards import Card, defined, end_of, is_statement, put
from .knowledge import is_index
from .odd_order import OF_INDEX, compared

IMMEDIATE = re.compile(r"(LVI|LCI|LRI|V[+-]I|V[+]ICR?|KVI|KCI)$")     # the address itself is the operand


def of_long_name(cards, k, fault, known):
    card = Card(cards[k])
    letters = re.match(r"[A-Z0-9]*", card.text[1:9]).group()
    for cut in range(1, len(card.operation)):
        if len(letters) == 8 and card.operation[cut:] in known.operations and card.text[9] != " ":
            yield "a name of nine letters", put(cards, k, card.written(card.operation[cut:]))
            return


def of_comma(cards, k, fault, known):
    """The operation ends where the longest known one does, and a comma lacks there."""
    card = Card(cards[k])
    begins = [name for name in known.operations if card.operation.startswith(name) and name != card.operation]
    for name in sorted(begins, key=len, reverse=True)[:2]:
        rest = card.operation[len(name):]
        fields = [rest + "".join(card.groups)] + card.fields
        if rest[0] in "$0123456789+-" or rest in defined(cards) or " " in re.split("[,(]", card.body)[0].strip():
            yield "a missing comma after the operation", put(cards, k, card.written(name, [], fields))


def of_word(cards, k, fault, known):
    card = Card(cards[k])
    if is_glued(card, known) or any(of_long_name(cards, k, fault, known)):
        return
    if not card.operation and card.name:
        behind = cards[k + 1] if k + 1 < len(cards) and is_statement(cards[k + 1]) and not Card(cards[k + 1]).name else None
        made = cards[:k] + [card.front + behind[9:]] + cards[k + 2:] if behind else put(cards, k, card.front + "NOP")
        yield "the empty word is no operation", made
        return
    if card.operation.endswith("N") and card.operation[:-1] in known.operations:
        yield "only operations on a field have the letter N", put(cards, k, card.written(card.operation[:-1]))
    if card.operation in known.elsewhere:
        yield from of_elsewhere(cards, k, card, known)
        return
    turned = [name for name in known.operations if len(name) > 1 and sorted(name) == sorted(card.operation)]
    near = turned + difflib.get_close_matches(card.operation, known.operations, 4, 0.6)
    for name in [name for name in dict.fromkeys(near) if is_meant(name, card, cards, known)][:2]:
        yield "a misspelled operation", put(cards, k, card.written(name))


def is_glued(card, known):
    """Whether columns 2 to 9 end in the first letters of an operation: it begins left of its column."""
    return " " not in card.text[8:10] and re.split("[(, ;]", card.text.strip())[0] in known.operations


def is_meant(name, card, cards, known):
    """Whether an operation that is spelled nearly so can be meant here: its fields fit, and a second end is none."""
    if name == "END" and end_of(cards) is not None:
        return False
    return known.operations[name].fits(card.fields) and not is_register(name, card.fields, known)


def is_register(name, fields, known):
    """Whether the address of a register would be taken as a number: it is a good card, and hardly ever meant."""
    return IMMEDIATE.match(name) is not None and any(field in known.registers for field in fields[1:])


def indicator_of(cards, tested):
    """Of the indicators of a result and of a comparison the one that the last card before sets, or that of an index word."""
    before = next((Card(text) for text in cards[::-1] if is_statement(text)), None)
    result, equal = tested[0], tested[-1]
    looks_at = compared(before) if before else set()
    return "$X" + equal[2:] if looks_at == OF_INDEX else equal if looks_at else result


def of_elsewhere(cards, k, card, known):
    """A word of another machine: what stands for it here, of an index word where the first field is one."""
    indexed = [name for name in known.elsewhere[card.operation] if known.wanted(name)[:1] == ["$Xj"]]
    others = [name for name in known.elsewhere[card.operation] if name not in indexed]
    names = indexed if indexed and card.fields and is_index(card.fields[0]) else others or indexed
    a_number = len(card.fields) > 1 and re.match(r"[0-9]", card.fields[1]) is not None
    names = sorted(names, key=lambda name: (IMMEDIATE.match(name) is not None) != a_number)
    for name in names:
        tested = re.findall(r"\$[RA](?:LZ|GZ|Z|L|E|H)\b", known.here[card.operation])
        fields = [indicator_of(cards[:k], tested)] + card.fields if tested and len(card.fields) == 1 else card.fields
        fields = fields + ["1"] * (known.wanted(name)[len(fields):] == ["n"])
        if not is_register(name, fields, known):
            yield "a word of another machine", put(cards, k, card.written(name, fields=fields))

"""Causes in names and values: symbols, addresses, boundaries, numbers that have no room."""
import difflib
import re

from .cards import Card, NINE, defined, free_name, is_number, is_statement, put, with_card
from .of_words import IMMEDIATE

# What takes from a word of storage what these take from the address itself.
IN_WORDS = {"V+I": "V+", "V-I": "V+", "V+IC": "V+C", "LVI": "LV", "KVI": "KV"}


def of_symbol(cards, k, fault, known):
    card, names = Card(cards[k]), defined(cards)
    used = [name for field in card.fields for name in re.findall(r"\$?[A-Z][A-Z0-9]*", field)]
    if fault == "NAME TWICE":
        yield "card 2 defines A again", put(cards, k, " %-8s%s" % ((card.name + "2")[-8:], cards[k][9:]))
        return
    if fault == "SYMBOL NOT EARLIER":
        if card.name in used:
            yield "the card is not earlier than itself", None
        for name in used:
            place = names.get(name, -1)
            if place > k:
                yield "the place of card 2 depends on card 1", cards[:k] + [cards[place]] + cards[k:place] + cards[place + 1:]
        return
    for name in used:
        if name not in names and name not in known.symbols:
            yield from of_unknown(cards, k, name, names, known)


def of_unknown(cards, k, name, names, known):
    """A name that nothing defines."""
    card = Card(cards[k])
    swap = lambda new: put(cards, k, card.written(
        fields=[re.sub(r"(?<![$A-Z0-9])%s(?![A-Z0-9])" % re.escape(name), lambda _: new, field) for field in card.fields]))
    if "$" + name in known.symbols:
        yield "a symbol of the machine without its $", swap("$" + name)
    for near in difflib.get_close_matches(name, list(names), 2, 0.6):
        yield "a name that no card has", swap(near)
    for near in difflib.get_close_matches(name, [s for s in sorted(known.symbols) if name[0] == "$" and s != name], 1, 0.6):
        yield "there is no such system symbol", swap(near)
    yield "a name that no card has" if name[0] != "$" else "there is no such system symbol", None


def of_value(cards, k, fault, known):
    card = Card(cards[k])
    if fault == "ADDRESS OUT OF RANGE":
        below = re.match(r"-(\d+)(?:\.(\d+))?(\(.*\))?$", card.fields[-1] if card.fields else "")
        if below:
            bits = 262144 * 64 - 64 * int(below.group(1)) - int(below.group(2) or 0)
            yield "an address below zero", put(cards, k, card.written(
                fields=card.fields[:-1] + ["%d.%d%s" % (bits // 64, bits % 64, below.group(3) or "")]))
        yield "an address is 0 to 2^24 - 1", None
    elif fault == "LOCATION OUT OF STORAGE":
        if card.operation == "SLC":
            yield "words 0 to 31 are registers", put(cards, k, card.written(fields=["32"]))
        behind = [int(n) for text in cards[:k] if is_statement(text) for n in re.findall(r"^ {9}SLC,(\d+)", text)]
        causes = ["words 0 to 31 are registers", "the last word is 98,303"]
        for cause in causes[::-1] if behind and behind[-1] > 31 else causes:
            yield cause, None
    elif fault == "NOT ON A BOUNDARY":
        yield from of_boundary(cards, k, card)
    elif card.operation == "DD":
        yield from of_laid(cards, k, card, card.fields[0] if card.fields else "")
    else:
        causes = {"T": "1 to 16 words", "SWAP": "1 to 16 words", "RD": "an order waits", "WR": "an order waits", "XW": "flags are 0 to 7"}
        yield causes.get(card.operation, "an offset is at most 127"), None


def of_boundary(cards, k, card):
    """An address within a half-word, or a word: of a field that begins where the one before it ended, or a number."""
    cause = "a refill address is a word" if card.operation == "XW" else "the address of a half-word instruction"
    names = defined(cards)
    for name in {name for field in card.fields for name in re.findall(r"(?<![$A-Z0-9])[A-Z][A-Z0-9]*", field)}:
        place = names.get(name)
        if place is not None and Card(cards[place]).operation == "DD":
            yield "a field that begins within a word", cards[:place] + [NINE + "DR,0"] + cards[place:]
    if IMMEDIATE.match(card.operation):
        yield from of_step(cards, k, card)
        return
    for k2, field in enumerate(card.fields):
        size = 64 if card.operation == "XW" else 32
        near = re.sub(r"(\d+)\.(\d+)", lambda m: "%s.%d" % (m.group(1), int(m.group(2)) // size * size), field)
        if near not in (field, "0.0"):
            yield cause, put(cards, k, card.written(fields=card.fields[:k2] + [near] + card.fields[k2 + 1:]))
    yield cause, None


def of_step(cards, k, card):
    """An address that is a number itself, and within a half-word: a word may hold it, or words were meant and not bits."""
    name, (index, field) = free_name(cards, "VALUE"), card.fields
    is_held = card.operation in IN_WORDS and "(" not in field
    if is_held:
        made = put(cards, k, card.written(IN_WORDS[card.operation], fields=[index, name]))
        yield "a step of less than half a word", with_card(made, name, "XW,%s,0,0" % (negated(field) if card.operation == "V-I" else field))
    meant = re.sub(r"^0\.(\d+)", r"\1.0", field)
    if meant != field:
        yield "a number of words written as bits", put(cards, k, card.written(fields=[index, meant]))
    elif not is_held:
        yield "the address of a half-word instruction", None


def negated(expression):
    """The expression with each sign turned round."""
    signed = expression if expression[:1] in "+-" else "+" + expression
    return signed.translate(str.maketrans("+-", "-+")).lstrip("+")


def of_laid(cards, k, card, number):
    """A number that has no room in its field."""
    mode = re.match(r"\((BU|DU|B|D)", card.groups[0]).group(1) if card.groups else "BU"
    digits = number.lstrip("+-")
    if number.startswith("-") and mode in ("BU", "DU"):
        group = re.sub(r"^\(([BD])U", r"(\1", card.groups[0]) if card.groups else "(B)"
        yield "an unsigned field has no minus", put(cards, k, card.written(groups=[group]))
    if is_number(digits):
        room = int(digits).bit_length() or 1 if mode[0] == "B" else 4 * len(str(int(digits)))
        room += 0 if mode.endswith("U") else (8 if mode == "B" else 4)
        if room <= 64:
            yield "four bits hold 0 to 15", put(cards, k, card.written(groups=["(%s,%d)" % (mode, room)]))
    yield "four bits hold 0 to 15", None

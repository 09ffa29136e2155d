"""Causes on control cards, and around the end of a deck."""
import difflib
import re

from .cards import NINE, end_of, is_number, is_statement, put, start_of

SIGNALS = 14              # so many indicators can be turned on from outside


def of_control(cards, k, fault, known):
    text = cards[k][:72].rstrip()
    words, end = text.split(), end_of(cards)
    if text.startswith(("//", "/*", "/ ")):
        yield "a comment without its *", put(cards, k, "*" + text.lstrip("/* "))
    if words[0].upper() not in known.controls:
        for name in difflib.get_close_matches(words[0], known.controls, 1, 0.5):
            yield "an unknown control card", put(cards, k, " ".join([name] + words[1:]))
        yield "an unknown control card", None
        return
    if end is None or k < end:
        yield "a control card before the end", None if end is None else cards[:k] + cards[k + 1:end + 1] + [cards[k]] + cards[end + 1:]
        return
    yield from of_numbers(cards, k, words, known)
    kind = known.controls.get(words[0])
    if kind and kind["often"] == "once":
        if any(card[:72].split()[:1] == words[:1] for card in cards[:k]):
            yield "the same control card a second time", put(cards, k)
        elif not kind["numbers"] and len(words) > 1:
            yield "an unknown control card", put(cards, k, words[0])
    if words[0] in ("/SNAP", "/SIGNAL"):
        yield "numbers that do not rise", rising(cards, words[0])


def of_numbers(cards, k, words, known):
    """Causes in the numbers of a control card."""
    numbers = words[1:]
    made = lambda *some: put(cards, k, " ".join([words[0], *some]))
    if any("," in word for word in numbers):
        yield "a comma", made(*" ".join(numbers).replace(",", " ").split())
    if any(re.match(r"0[xX][0-9A-Fa-f]+$", word) for word in numbers):
        yield "a hexadecimal number", made(*[str(int(w, 16)) if w[:2] in ("0x", "0X") else w for w in numbers])
    if words[0] == "/DUMP":
        if any(re.match(r"[0-9]+\.[0-9]+$", word) for word in numbers):
            yield "a dump of bit addresses", made(*[w.split(".")[0] for w in numbers])
        if any(re.search(r"[A-Z$]", word) for word in numbers):
            yield "a dump by name", None
        elif len(numbers) == 1:
            yield "a dump with one address", made(*numbers, *numbers)
        elif len(numbers) == 2 and all(is_number(word) for word in numbers) and int(numbers[0]) > int(numbers[1]):
            yield "a dump with its addresses exchanged", made(*numbers[::-1])
    if words[0] == "/SIGNAL" and len(numbers) == 2:
        yield from of_signal(made, numbers, known)
    if words[0] == "/BUDGET":
        yield "n is 1 to 10,000,000", None


def of_signal(made, numbers, known):
    names, name = known.indicators[:SIGNALS], numbers[1].lstrip("$")
    if name in names:
        yield "an indicator by name", made(numbers[0], str(names.index(name)))
    elif is_number(name) and int(name) >= SIGNALS:
        yield "a signal above 13", made(numbers[1], numbers[0]) if is_number(numbers[0]) and int(numbers[0]) < SIGNALS else None


def rising(cards, word):
    """The deck with its cards of one kind in rising order, each number once."""
    places = [n for n, card in enumerate(cards) if card[:72].split()[:1] == [word]]
    texts = sorted({cards[n].rstrip() for n in places} if word == "/SNAP" else [cards[n] for n in places],
                   key=lambda text: [int(w) if is_number(w) else 0 for w in text[:72].split()[1:2]])
    out = [card for n, card in enumerate(cards) if n not in places]
    return out[:places[0]] + texts + out[places[0]:]


def of_end(cards, k, fault, known):
    if fault == "NO END":
        last = max((n for n, card in enumerate(cards) if is_statement(card)), default=-1)
        yield "no card is the end", cards[:last + 1] + [NINE + "END," + start_of(cards)] + cards[last + 1:]
        return
    end = end_of(cards)
    behind = [card for card in cards[end + 1:] if is_statement(card)]
    rest = [card for card in cards[end + 1:] if not is_statement(card)]
    first = cards[k].strip()
    if "/" + first.split(" ")[0] in known.controls:
        yield "a control card without its /", put(cards, k, "/" + first)
    yield "a statement after the end", cards[:end] + behind + [cards[end]] + rest
    yield "a comment, or a card of the reader", put(cards, k, "*" + cards[k])

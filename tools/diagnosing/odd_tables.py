"""What is odd in how far a form steps through data."""
from .cards import is_number
from .odd_cards import described
from .odd_order import changed

WORD = 64                         # bits of a word
DATA = ("DD", "DR", "XW")


def of_tables(deck):
    """Places of cards XW, what is seen there, and the facts: their count leads past the data where their value begins."""
    ends = data_ends(deck)
    for n, card in deck.statements:
        if card.operation == "XW" and card.name and card.fields[0] in ends and is_number(card.fields[1]):
            first, count, step = deck.places[card.fields[0]], int(card.fields[1]), step_of(deck, card.name)
            if step and count > 1 and first + (count - 1) * step[0] + step[1] > ends[card.fields[0]]:
                yield n, "a count that leads past the data", "%d fields, %d.%d apart, from %s on; the data there end before %d.%d" % (
                    count, *divmod(step[0], WORD), card.fields[0], *divmod(ends[card.fields[0]], WORD))


def step_of(deck, name):
    """The step and the length of the one form (V+IC) of an index word that `LX` loads from here, and nothing else changes."""
    loads = [card for _, card in deck.statements if card.operation == "LX" and card.fields[1:] == [name]]
    index = loads[0].fields[0] if len(loads) == 1 else None
    changes = [card for _, card in deck.statements if changed(card) and changed(card)[0] == index]
    forms = [card for card in changes if card.groups[-1:] == ["(V+IC)"]]
    step = deck.value(forms[0].fields[0].split("(")[0]) if len(forms) == 1 and len(changes) == 2 else None
    return (step, length(forms[0])) if step else None


def length(card):
    form = described(card)
    return form.length if form else WORD


def data_ends(deck):
    """Of each name of data the bit address where the data that follow it without a gap end."""
    ends, names, place = {}, [], None
    for _, card in deck.statements:
        if card.operation in DATA:
            names, place = names + [card.name] * bool(card.name), deck.places.get(card.name, place)
        elif card.operation != "SYN":
            names, place = [], None
        if card.operation in DATA and place is not None:
            begin = place if card.operation == "DD" else -(-place // WORD) * WORD
            more = deck.value(card.fields[0]) if card.operation == "DR" else WORD if card.operation == "XW" else length(card)
            place = begin + more if more is not None else None
            ends.update(dict.fromkeys(names if place is not None else [], place))
    return ends

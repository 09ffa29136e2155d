"""What is odd in the order of cards: a branch that looks at no result, and a count that another index word hides."""
import re

from .knowledge import is_index

FAR = 8                           # so many cards are looked at from a branch on
AWAY = ("B", "BR", "BE", "BD", "BEW", "EX", "SIC")        # behind these stands a card that is not the next one
BRANCHES = ("B", "BE", "BD")      # the next card is the one that these name
OF_FIELDS, OF_INDEX = {"$AL", "$AE", "$AH"}, {"$XL", "$XE", "$XH"}
RESULTS = OF_FIELDS | OF_INDEX | {"$RLZ", "$RZ", "$RGZ", "$RN"}
VALUE, COUNTS, LOADS = "value", "counts", "loads"         # what a card does to an index word, as far as its count goes
CHANGES = {**dict.fromkeys(("LV", "LR", "LVI", "LRI", "V+", "V+I", "V-I", "LVS"), VALUE),
           **dict.fromkeys(("V+C", "V+IC", "V+ICR", "CB", "CBR"), COUNTS), **dict.fromkeys(("LX", "LC", "LCI", "R"), LOADS)}


def of_order(deck):
    """Places of cards, what is seen there, and the facts."""
    for k, (n, card) in enumerate(deck.statements):
        if card.operation == "BE" and k > 0:
            looks_at = compared(deck.statements[k - 1][1])
            if looks_at and card.fields and card.fields[0] in deck.code and not is_tested(deck, deck.named[card.fields[0]], looks_at):
                yield n, "BE after a comparison", ""
        if card.operation[:2] == "BI" and is_of_another(deck, k):
            yield n, "an indicator that the comparison before it does not set", ""
        if card.operation[:2] == "BI" and card.fields[:1] == ["$XCZ"]:
            hidden = hidden_count(deck, k)
            if hidden:
                yield n, "XCZ of an index word that is not counted", hidden


def compared(card):
    """The indicators that a comparison sets; none of any other card."""
    if re.fullmatch("KF?|K[FER]|KF[ER]", card.operation.rstrip("N")):
        return OF_FIELDS
    return OF_INDEX if card.operation in ("KV", "KVI", "KC", "KCI") else set()


def is_of_another(deck, k):
    """Whether a branch right behind a comparison looks at a result that this does not set, and no branch behind it at its own."""
    indicators = compared(deck.statements[k - 1][1]) if k else set()
    if not indicators or deck.statements[k][1].fields[0] not in RESULTS - indicators:
        return False
    return not is_tested(deck, k, indicators)


def is_tested(deck, k, indicators):
    """Whether one of these indicators is looked at from a card on, before the next comparison sets them again."""
    for _ in range(FAR):
        card = deck.statements[k][1]
        if card.operation[:2] == "BI" and card.fields[:1] and card.fields[0] in indicators:
            return True
        k = deck.named.get(card.fields[0]) if card.operation in BRANCHES and card.fields else k + 1
        if compared(card) == indicators or k is None or k >= len(deck.statements):
            return False
    return False


def changed(card):
    """The index word that a card changes, and how; None where it changes none."""
    if card.operation in CHANGES and card.fields and is_index(card.fields[0]):
        return card.fields[0], CHANGES[card.operation]
    form = next((group for group in card.groups if group.startswith("(V")), None)
    index = re.search(r"\((\$X\d+)\)$", card.fields[0]) if form and card.fields else None
    return (index.group(1), COUNTS if "C" in form else VALUE) if index else None


def counting(deck):
    """The places of the cards that count each index word down."""
    found = {}
    for n, card in deck.statements:
        if changed(card) and changed(card)[1] == COUNTS:
            found.setdefault(changed(card)[0], []).append(n)
    return found


def changes_before(deck, k):
    """What is done to index words before a card comes, the last first: back to the card where a loop of it begins."""
    first = deck.named.get(deck.statements[k][1].fields[-1], -1)
    for j in range(k - 1, -1, -1):
        n, card = deck.statements[j]
        if card.operation in AWAY or card.operation != "SYN" and not deck.is_instruction(card):
            return
        if changed(card):
            yield (n, *changed(card))
        if j == first:
            return


def hidden_count(deck, k):
    """Why a test of XCZ looks at no count: the card that changed an index word last, in words. None where it is in order."""
    last, *before = [*changes_before(deck, k)] or [None]
    if last is None or last[2] != VALUE or any(index == last[1] for _, index, how in before if how != VALUE):
        return None
    counts = counting(deck)
    other = next((one for one in before if one[2] == COUNTS), None)
    if other:
        return "card %s changed %s after card %s counted %s" % (deck.numbers[last[0]], last[1], deck.numbers[other[0]], other[1])
    return None if last[1] in counts else "card %s changed %s, which no card counts" % (deck.numbers[last[0]], last[1])

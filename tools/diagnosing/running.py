"""What is odd in a deck that runs: on its cards, between them, and in how the run ended."""
import re

from .cards import Card, end_of, is_number, is_statement
from .odd_cards import odd
from .odd_end import of_end
from .odd_order import of_order
from .odd_places import of_places
from .odd_tables import of_tables

SHOWN = 8                         # so many cards are named


class Deck:
    """The cards of a deck that runs; `numbers` are those that they are named by, `places` the bit addresses of its names."""

    def __init__(self, cards, numbers, known, places):
        self.cards, self.numbers, self.known = cards, numbers, known
        self.places = {**known.addresses, **places}
        self.end = end_of(cards) if end_of(cards) is not None else len(cards)
        self.statements = [(n, Card(text)) for n, text in enumerate(cards[:self.end]) if is_statement(text)]
        self.code = {card.name for _, card in self.statements if self.is_instruction(card)}
        self.named = {card.name: k for k, (_, card) in enumerate(self.statements) if card.name}

    def is_instruction(self, card):
        return card.operation in self.known.operations and self.known.operations[card.operation].kind != "pseudo"

    def uses(self, *operations):
        return any(card.operation in operations for _, card in self.statements)

    def value(self, expression):
        """The bit address of a sum of names and numbers, None of anything else."""
        total = 0
        if not re.fullmatch(r"[+-]?[$A-Z0-9.]+([+-][$A-Z0-9.]+)*", expression):
            return None
        for sign, term in re.findall(r"([+-]?)([$A-Z0-9.]+)", expression):
            number = re.fullmatch(r"(\d+)(?:\.(\d+))?", term)
            place = 64 * int(number.group(1)) + int(number.group(2) or 0) if number else self.places.get(term)
            if place is None:
                return None
            total += -place if sign == "-" else place
        return total

    def signals(self):
        """The signals from outside: after how many instructions, and which indicator."""
        words = [card[:72].split() for card in self.cards[self.end:] if card[:8] == "/SIGNAL "]
        return [(int(one[1]), int(one[2])) for one in words if len(one) == 3 and is_number(one[1]) and is_number(one[2])]


class Note:
    """Something odd: the numbers of its cards, none where it is of the whole run; what is seen; facts of this run; a card's text."""

    def __init__(self, known, seen, cards=(), facts="", text=None):
        self.cards, self.text = list(cards), text
        self.said = "%s%s: %s." % (seen, " (%s)" % facts if facts else "", known.seen[seen])

    def told(self):
        where = "card%s %s: " % ("s" * (len(self.cards) > 1), ", ".join(map(str, self.cards[:SHOWN]))) if self.cards else ""
        return where + self.said + ("\n    %s" % self.text if self.text is not None else "")


def notes(cards, report, known, numbers, dumped):
    """What is odd. `dumped` gives the report of the same run with words of storage at its end, or None."""
    deck = Deck(cards, numbers, known, report.places)
    found = [(n, seen, "") for n, card in enumerate(cards) for seen in dict.fromkeys(odd(Card(card), card, n > deck.end, deck))]
    found += [*of_order(deck), *of_places(deck, report, dumped), *of_tables(deck)]
    for n, seen, facts in sorted(found, key=lambda one: one[0]):
        text = cards[n] if seen == "text after column 72" else cards[n][:72]
        yield Note(known, seen, [numbers[n]], facts, text.rstrip())
    behind = [numbers[n] for n, card in enumerate(cards) if n > deck.end and card[:1] != "/"]
    if behind and not deck.uses("RD"):
        yield Note(known, "comment cards after the end, and no RD", behind)
    for seen, facts in of_end(deck, report, dumped):
        yield Note(known, seen, facts=facts)

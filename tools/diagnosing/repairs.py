"""Which causes are looked for, by fault, and which of them were tried with success."""
import re
import time

from . import of_controls, of_fields, of_groups, of_text, of_values, of_words
from .cards import Card

TRIES, SECONDS = 24, 5    # how many repairs are tried at most, and for how long

STATEMENT = [of_text.of_case, of_text.of_past]
CAUSES = {                # by fault; the likeliest cause stands first
    "NOT ASCII": [of_text.of_bytes],
    "CARD TOO LONG": [of_text.of_length],
    "BAD NAME": [*STATEMENT, of_text.of_column],
    "UNKNOWN OPERATION": [*STATEMENT, of_text.of_column, of_words.of_long_name, of_words.of_word, of_words.of_comma],
    "BAD DATA DESCRIPTION": [*STATEMENT, of_groups.of_description],
    "BAD PROGRESSIVE": [*STATEMENT, of_groups.of_progressive],
    "BAD FIELD COUNT": [*STATEMENT, of_fields.of_count, of_fields.of_index],
    "BAD EXPRESSION": [*STATEMENT, of_fields.of_expression],
    "BAD INDEX": [*STATEMENT, of_fields.of_index],
    "NUMBER TOO LARGE": [*STATEMENT, of_fields.of_number],
    "BAD CONTROL CARD": [of_text.of_case, of_controls.of_control],
    "NO END": [of_controls.of_end],
    "CARD AFTER END": [of_controls.of_end],
    **{fault: [of_text.of_past, of_values.of_symbol] for fault in ("NAME TWICE", "UNDEFINED SYMBOL", "SYMBOL NOT EARLIER")},
    **{fault: [of_values.of_value] for fault in (
        "ADDRESS OUT OF RANGE", "VALUE DOES NOT FIT", "NOT ON A BOUNDARY", "LOCATION OUT OF STORAGE")},
}


def repairs(cards, k, fault, known):
    """All causes of a fault at a card, the likeliest first, each with a deck without it or None."""
    if k < len(cards) or fault == "NO END":
        for function in CAUSES.get(fault, []):
            yield from function(cards, k, fault, known)


class Trial:
    """Asks the program about repaired decks, so many times at most."""

    def __init__(self, known, slow=False):
        self.known = known
        self.tries = 0 if slow else TRIES
        self.until = time.monotonic() + SECONDS

    def left(self):
        return self.tries > 0 and time.monotonic() < self.until

    def answer(self, cards):
        """The number of the faulty card and its fault, or None where the deck is accepted."""
        self.tries -= 1
        status, output = Card.plain.ask(["assemble"], "".join(card + "\n" for card in cards).encode("latin-1"))
        found = re.match(r"CARD (\d+) (.*)", output.decode("latin-1")) if status == 1 else None
        return (int(found.group(1)), found.group(2)) if found else None

    def mended(self, before, after, more):
        """Whether a repair that adds so many cards leads past the fault, and the card has no other one."""
        if after is None:
            return True
        if before[0] <= after[0] <= before[0] + max(0, more):
            return False
        place = lambda at, fault: (self.known.rank.get(fault, 0), at)
        return place(*after) > place(before[0] + max(0, more), before[1])

    def causes(self, cards, number, fault):
        """The causes found: each a list of rows of the tables, and the repaired deck, or None where none was tried with success."""
        good, other = [], []
        for cause, made in repairs(cards, number - 1, fault, self.known):
            row = self.known.row(fault, cause)
            if row is None:
                continue
            if made is None or not self.left():
                other.append(([row], None))
                continue
            after = self.answer(made)
            if self.mended((number, fault), after, len(made) - len(cards)):
                good.append(([row], made))
            elif after[0] == number and self.left():
                more = [([row] + rows, last) for rows, last in self.further(made, number, after[1], row)]
                good += more
                other += [([row], None)] if not more and after[1] != fault else []
        good.sort(key=lambda one: len(one[0]))
        good = [one for n, one in enumerate(good) if one[1] not in [made for _, made in good[:n]]]
        told = [rows for rows, _ in good]
        return good + [one for n, one in enumerate(other) if one[0] not in told + [rows for rows, _ in other[:n]]]

    def further(self, cards, number, fault, first):
        """The same behind a first repair: a card may have two faults."""
        for cause, made in repairs(cards, number - 1, fault, self.known):
            row = self.known.row(fault, cause)
            if row and row is not first and made not in (None, cards) and self.left() and self.mended(
                    (number, fault), self.answer(made), len(made) - len(cards)):
                yield [row], made
                return

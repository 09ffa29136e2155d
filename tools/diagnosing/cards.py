"""A card, cut as the assembler cuts it, and decks as lists of cards."""
import re

NINE = " " * 9


class Card:
    """A card with its parts. `plain` is the module of tools/deck, which knows how a statement ends."""

    plain = None

    def __init__(self, text):
        self.text = text
        self.front = (text[:9] + NINE)[:9]
        self.name = text[1:9].strip()
        self.body, self.comment = self.plain.parts_of(text[9:72])
        self.tail = self.comment + text[72:]
        plain = self.body.replace(" ", "")
        self.operation = re.split(r"[(,]", plain)[0]
        self.groups, rest = [], plain[len(self.operation):]
        while rest.startswith("("):
            group = re.match(r"\([^)]*\)?", rest).group()
            self.groups.append(group)
            rest = rest[len(group):]
        self.fields = rest[1:].split(",") if rest.startswith(",") else []
        self.rest = rest

    def written(self, operation=None, groups=None, fields=None):
        """The card with other parts."""
        operation = self.operation if operation is None else operation
        groups = self.groups if groups is None else groups
        fields = self.fields if fields is None else fields
        body = operation + "".join(groups) + "".join("," + field for field in fields)
        tail = " " * max(1, len(self.body) - len(body)) + self.tail if self.tail else ""
        return (self.front + body + tail).rstrip()


def is_statement(text):
    return Card.plain.is_statement(text)


def is_number(text):
    return Card.plain.is_number(text)


def put(cards, k, *made):
    """The deck with other cards in place of one."""
    return cards[:k] + list(made) + cards[k + 1:]


def end_of(cards):
    """The place of the card END, or None."""
    return next((n for n, text in enumerate(cards) if is_statement(text) and Card.plain.operation_of(text) == "END"), None)


def defined(cards):
    """The places of the cards with names."""
    return {Card(text).name: n for n, text in enumerate(cards) if is_statement(text) and Card(text).name}


def free_name(cards, name):
    """This name, or it and a digit, that no card has."""
    names = defined(cards)
    return next(one for one in [name, *(name + str(n) for n in range(2, 10)), "A1234567"] if one not in names)


def start_of(cards):
    """The likeliest start: START, the name of the first card that lays something, or the first word."""
    names = defined(cards)
    first = next((Card(text) for text in cards if is_statement(text) and Card.plain.operation_of(text) != "SYN"), None)
    return "START" if "START" in names else first.name if first and first.name else "32.0"


def with_card(cards, name, statement):
    """The deck with one card more, before its end; None where it has no end."""
    end = end_of(cards)
    return None if end is None else put(cards, end, " %-8s%s" % (name, statement), cards[end])


def shown(text):
    """A text in which every character can be seen."""
    try:
        text = text.encode("latin-1").decode("utf-8")
    except UnicodeError:
        pass
    names = {"\t": "<TAB>", "\r": "<CR>", "\ufeff": "<BYTE ORDER MARK>", "\u00a0": "<NO-BREAK SPACE>"}
    return "".join(char if " " <= char <= "~" else names.get(char, "<%s%04X>" % ("U+" if ord(char) > 127 else "", ord(char))) for char in text)


def in_ascii(text):
    """The text with plain characters for those that word processors make, and question marks for others."""
    try:
        text = text.encode("latin-1").decode("utf-8")
    except UnicodeError:
        pass
    plain = {"\u2010": "-", "\u2011": "-", "\u2012": "-", "\u2013": "-", "\u2014": "-", "\u2212": "-", "\u00d7": "*", "\u2018": "'",
             "\u2019": "'", "\u201c": '"', "\u201d": '"', "\u00a0": " ", "\u2026": "...", "\ufeff": ""}
    return "".join(plain.get(char, char if char <= "~" else "?") for char in text)

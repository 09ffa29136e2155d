"""Causes in the characters and columns of a card.

Each function of these modules is told the deck, the place of the faulty card, its fault and what is known; it gives pairs of a
cause and the deck without it, or None where no deck is tried. A cause is the begin of a text in the tables of the manual.
"""
import re

from .cards import Card, NINE, in_ascii, put


def of_bytes(cards, k, fault, known):
    text = cards[k]
    if text.startswith("\xef\xbb\xbf"):
        yield "a byte order mark", put(cards, k, text[3:])
    if "\0" in text:
        yield "UTF-16", put(cards, k, text.replace("\0", "").replace("\xff\xfe", ""))
    if "\t" in text:
        try:
            yield "a tabulator", put(cards, k, Card.plain.columns(text, 0))
        except Card.plain.Refused:
            yield "a tabulator", None
    if "\r" in text:
        yield "a carriage return", put(cards, k, *[part for part in text.split("\r") if part])
    if any(char < " " and char not in "\t\r\0" for char in text):
        yield "bytes are 32 to 126", put(cards, k, "".join(char for char in text if char >= " " or char in "\t\r"))
    if any(char > "~" for char in text):
        yield "a character outside ASCII", put(cards, k, in_ascii(text))


def of_length(cards, k, fault, known):
    if is_past(cards[k]):
        yield "a statement past column 72", shortened(cards, k)
    yield "a card of more than 80 characters", put(cards, k, cards[k][:72].rstrip())


def is_past(text):
    """Whether a statement goes on behind column 72, where nothing is read: no comment begins before it."""
    return Card.plain.is_statement(text) and text[72:].strip(" 0123456789") != "" and not Card(text).comment


def shortened(cards, k):
    """The deck with the whole statement of the card, where that has room without its blanks; else None."""
    plain = cards[k][9:].replace(" ", "")
    return put(cards, k, cards[k][:9] + plain) if len(plain) <= 63 else None


def of_past(cards, k, fault, known):
    if is_past(cards[k]):
        yield "a statement past column 72", shortened(cards, k)


def of_case(cards, k, fault, known):
    card, upper = Card(cards[k]), Card.plain.upper
    if cards[k][:1] == "/":
        if cards[k] != upper(cards[k]):
            yield "lower case", put(cards, k, upper(cards[k]))
    elif (card.front + card.body) != upper(card.front + card.body):
        yield "lower case", put(cards, k, upper(card.front) + Card.plain.outside_texts(card.body, upper) + card.tail)


def of_column(cards, k, fault, known):
    text = cards[k].rstrip()
    plain = text.strip()
    if plain[:1] == "/":
        yield "a control card that does not begin", put(cards, k, plain)
    if plain[:1] in "#;" or plain[:2] == "//":
        yield "a comment without its *", put(cards, k, "* " + plain.lstrip("#;/ "))
    first = re.split(r"[(, ;]", plain)[0]
    named = re.match(r"([A-Z][A-Z0-9]{0,7})\s+(\S.*)$", plain)
    stands_alone = not (named and named.group(2).split(",")[0] in known.operations)
    if first in known.operations and not (text[:1] == " " and text[1:9].strip() == "") and stands_alone:
        yield "a statement left of column 10", put(cards, k, NINE + plain)
    if named and text[:1] != " ":
        yield "a name in column 1", put(cards, k, " %-8s%s" % named.groups())
    elif named and text[:9].strip():
        yield "a statement left of column 10", put(cards, k, " %-8s%s" % named.groups())
    yield from of_name(cards, k, fault, known)


def of_name(cards, k, fault, known):
    """Causes in the name of a card, or in its want."""
    text = cards[k].rstrip()
    digits = re.match(r"([0-9]+)([A-Z]*)\s+(\S.*)$", text.strip())
    if digits and text[:9].strip():
        name = (digits.group(2) or "L") + digits.group(1)
        yield "a name that begins with no letter", put(cards, k, " %-8s%s" % (name[:8], digits.group(3)))
    signs = re.match(r" ?([A-Z][A-Z0-9]*[^A-Za-z0-9 ,($][^ ,($]*)\s+(\S.*)$", text)
    if fault == "BAD NAME" and signs and signs.group(1) not in known.operations:
        yield "a sign in a name", put(cards, k, " %-8s%s" % (re.sub("[^A-Z0-9]", "", signs.group(1))[:8], signs.group(2)))
    card = Card(text)
    if card.operation in ("END", "SLC") and card.name:
        yield "END and SLC have no name", put(cards, k, NINE + text[9:])
    if card.operation == "SYN" and not card.name:
        yield "SYN gives its name a value", None
    if fault == "BAD NAME" and text[0] not in " */":
        yield "column 1 is blank", put(cards, k, " " + text[1:])

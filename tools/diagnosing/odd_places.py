"""What is odd in where a card leads: an address within a word, and a line of the printer."""
import re

from .cards import Card

WORD, LINE = 64, 8                # bits of a word, words of a printed line
PRINTABLE = range(32, 127)
WHOLE = {**dict.fromkeys("LX LV LC LR SX SV SC SR V+ V+C KV KC".split(), (1,)),       # which fields name whole words
         **dict.fromkeys("RD WR".split(), (0,)), **dict.fromkeys("T SWAP".split(), (0, 1))}


def of_places(deck, report, dumped):
    """Places of cards, what is seen there, and the facts."""
    for n, card in deck.statements:
        fields = [card.fields[k] for k in WHOLE.get(card.operation, ()) if k < len(card.fields)]
        within = [(field, deck.value(field)) for field in fields if (deck.value(field) or 0) % WORD]
        if within:
            yield n, "an address within a word", ", ".join("%s is %d.%d" % (field, *divmod(place, WORD)) for field, place in within)
    lines = {n: deck.value(card.fields[0]) for n, card in deck.statements if card.operation == "WR" and card.fields}
    lines = {n: place // WORD for n, place in lines.items() if place is not None and place % WORD == 0}
    yield from of_start(deck, report)
    yield from of_digits(deck, lines)
    if lines and any(report.printed):
        yield from of_bytes(lines, report, dumped)


def of_start(deck, report):
    """An end that names a place where a card laid data, in a run that came to no instruction; data may spell instructions too."""
    n = deck.end
    start = deck.value(Card(deck.cards[n]).fields[0]) if n < len(deck.cards) and report.is_lost() else None
    laid = next((one for one in report.emitted if start is not None and one.place <= start < one.place + 4 * len(one.digits)), None)
    card = Card(deck.cards[laid.number - 1]) if laid else None
    if card and card.operation in ("DD", "XW"):
        yield n, "the start is a card of data", "card %s: %s" % (deck.numbers[laid.number - 1], card.body.strip())


def of_digits(deck, lines):
    """Stores of digits of four bits where a line is printed from."""
    for n, card in deck.statements:
        digits = card.operation in ("ST", "STN") and card.groups and re.fullmatch(r"\(DU?(,\d+(,4)?)?\)", card.groups[0])
        place = deck.value(card.fields[0]) if digits and len(card.groups) == 1 and card.fields else None
        if place is not None and any(word <= place // WORD < word + LINE for word in lines.values()):
            yield n, "digits of four bits in a printed line", ""


def of_bytes(lines, report, dumped):
    """Lines that still stand in storage as they were printed, with bytes that are no characters; zeros are blanks on purpose."""
    last = dumped([word for first in lines.values() for word in (first, first + LINE - 1)])
    for n, first in lines.items() if last else ():
        line = b"".join(last.word(word).to_bytes(8, "big") for word in range(first, first + LINE))
        text = "".join(chr(byte) if byte in PRINTABLE else " " for byte in line).rstrip()
        odd = [k for k, byte in enumerate(line) if byte and byte not in PRINTABLE]
        if odd and text and text in report.printed:
            yield n, "a printed line with bytes that are no characters", "%s: %s" % (text, ", ".join(
                "byte %d of column %d" % (line[k], k + 1) for k in odd[:3]))

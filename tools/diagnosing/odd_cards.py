"""What is odd on a card by itself."""
import re

from .cards import is_number, is_statement

REGISTERS = 32                    # so many words are registers
FROM_WORDS = ("LX", "LV", "LC", "LR", "V+", "V+C", "KV", "KC")       # an index word and a word of storage
ADDRESS = 24                      # an address has so many bits
NUMBERED = re.compile(r"[ 0-9]{8}$")


def odd(card, text, behind, deck):
    is_remark = text[:1] == "*" and not behind or is_statement(text) and card.comment
    if len(text) > 72 and not NUMBERED.match(text[72:80]) and not is_remark:
        yield "text after column 72"
    if text[:1] == "*" and re.match(r"\*\s*/[A-Z]+\b", text) and text.lstrip("* ").split()[0] in deck.known.controls:
        yield "a control card as a comment"
    if not is_statement(text) or behind:
        return
    yield from odd_addresses(card, deck)
    yield from odd_operations(card, deck)


def odd_addresses(card, deck):
    if re.match(r"(LVI|V[+-]I|V[+-]IC|V[+]ICR|KVI|LCI|KCI|LRI|XW)$", card.operation) and any(
            re.match(r"\$X[0-9]+$|\$[LR]$|\$TR$|\$FT$|\$RM$", field) for field in card.fields[card.operation != "XW":]):
        yield "an operand is a symbol"
    if any(re.search(r"[^,(][+-]\$X[0-9]+(?![^(]*\))", field) for field in card.fields):
        yield "an index register is added"
    kind = deck.known.operations[card.operation].kind if card.operation in deck.known.operations else None
    number = re.match(r"(\d+)(?:\.\d+)?$", card.fields[0]) if card.fields else None
    if "(IM)" in card.groups and number and "." not in card.fields[0] and card.fields[0].strip("0"):
        yield "a plain number in an address with (IM)"
    if kind in ("field", "connective") and not any(re.match(r"\((IM|V)", group) for group in card.groups) and is_small(number):
        yield "a small number as an address"
    if card.operation in FROM_WORDS and is_small(re.match(r"(\d+)(?:\.\d+)?$", card.fields[1])):
        yield "a small number as an address"
    data = deck.named.get(card.fields[1]) if card.operation in FROM_WORDS else None
    if data is not None and is_no_index_word(deck.statements[data][1], card.operation):
        yield "an index word from a card DD"
    if card.operation == "BR" and card.fields[0] in deck.code:
        yield "BR with a name"


def is_small(number):
    return number is not None and int(number.group(1)) < REGISTERS


def is_no_index_word(data, operation):
    """Whether a card DD lays a number, and zeros where an index word has what the operation takes."""
    if data.operation != "DD" or not is_number(data.fields[0]) or int(data.fields[0]) == 0:
        return False
    form = described(data)
    word = int(data.fields[0]) << (64 - form.length if form else 0)
    if operation in ("LC", "KC"):
        return word >> 18 & (1 << 18) - 1 == 0 and (form is None or form.length == 64)
    return operation != "LR" and word >> 40 == 0


def odd_operations(card, deck):
    if card.operation in ("LFT", "LFTN") and any(re.match(r"\([BD][,)]", group) for group in card.groups):
        yield "a signed factor"
    if card.operation == "M+1" and "(BU,24)" in card.groups and card.fields[:1] and card.fields[0] in deck.code:
        yield "one is added to 24 bits of an instruction"
    if card.operation == "M+1N":
        yield "M+1N"
    if card.operation in ("*", "*N", "*+", "*+N", "/", "/N") and any(re.match(r"\(DU?[,)]", group) for group in card.groups):
        yield "a decimal product or quotient"
    form = described(card)
    if form and form.sign == form.length and card.operation not in ("LWF", "LWFN"):
        yield "a field that is only a sign"
    if form and "(IM)" in card.groups and card.fields and is_lost(form, deck.value(card.fields[0])):
        yield "an operand in the address that is zero"


class Form:
    """The bits of a field that is described: all, and those of its sign byte."""

    def __init__(self, mode, length, byte):
        self.length = int(length or 64)
        self.sign = 0 if mode.endswith("U") else int(byte or (8 if mode == "B" else 4))


def described(card):
    found = re.fullmatch(r"\((BU?|DU?)(?:,(\d+))?(?:,(\d+))?\)", card.groups[0]) if card.groups else None
    return Form(*found.groups()) if found else None


def is_lost(form, address):
    """Whether the bits of an address that are the magnitude of such an operand are zeros, and others are not."""
    bits = (address or 0) % (1 << ADDRESS)
    return bits != 0 and bits >> (ADDRESS - max(0, form.length - form.sign)) == 0

"""Causes in the groups of a card: its data description, and its progressive form."""
import difflib
import re

from .cards import Card, free_name, is_number, put, with_card

FORMS = ("(IM)", "(V+I)", "(V+IC)", "(V+ICR)", "(V-I)", "(V-IC)", "(V-ICR)")


def of_description(cards, k, fault, known):
    card = Card(cards[k])
    if not card.groups:
        return
    group, others = card.groups[0], card.groups[1:]
    if not group.endswith(")"):
        parts = group.split(",")
        for cut in range(len(parts) - 1, 0, -1):
            yield "the group has no )", put(cards, k, card.written(groups=[",".join(parts[:cut]) + ")"], fields=parts[cut:]))
        return
    parts = group[1:-1].split(",")
    for cause, some in descriptions(parts):
        yield cause, put(cards, k, card.written(groups=["(%s)" % ",".join(some)] + others))
    if card.operation in known.operations and not known.operations[card.operation].described:
        yield "the operation has no description", put(cards, k, card.written(groups=others))


def descriptions(parts):
    """Of the parts of a description: what is likely wrong, and the parts that may be meant."""
    if parts[0] not in ("B", "BU", "D", "DU", "N", "U"):
        yield "an unknown mode", [next((mode for mode in ("BU", "DU", "B", "D") if parts[0].startswith(mode)), "BU"), *parts[1:]]
    if len(parts) > 1 and is_number(parts[1]):
        length = int(parts[1])
        if length > 64:
            yield "a length above 64 bits", [parts[0], "64", *parts[2:]]
        if parts[0] in ("D", "DU"):
            size = int(parts[2]) if len(parts) > 2 and is_number(parts[2]) and int(parts[2]) else 4
            yield "10 bits are no whole bytes", [parts[0], str(-(-length // size) * size), *parts[2:]]
        if parts[0] == "B":
            yield "a sign byte of 8 bits has no room", ["B", parts[1], "1"]
    if len(parts) > 2 and is_number(parts[2]) and int(parts[2]) > 8:
        yield "a byte of more than 8 bits", [parts[0], parts[1], "8"]


def of_progressive(cards, k, fault, known):
    card = Card(cards[k])
    if card.groups and card.rest[:1] not in ("", ",", "(", ")"):
        yield "a missing comma after a group", put(cards, k, card.written(fields=card.rest.split(",")))
        return
    if ")" in card.rest.split(",")[0]:
        yield "a parenthesis in excess", put(cards, k, card.written(fields=card.rest[card.rest.find(",") + 1:].split(",")))
    if len(card.groups) == 2 and re.match(r"\((IM|V[+-])", card.groups[0]):
        yield "the description comes first", put(cards, k, card.written(groups=card.groups[::-1]))
    if card.groups and not card.groups[-1].endswith(")"):
        parts = card.groups[-1].split(",")
        yield "the group spells a progressive form", put(
            cards, k, card.written(groups=card.groups[:-1] + [parts[0] + ")"], fields=parts[1:]))
    operation = known.operations[card.operation]
    if card.groups and not operation.progressive:
        yield "a form at an operation that has none", put(
            cards, k, card.written(groups=[group for group in card.groups if not re.match(r"\((IM|V)", group)]))
    elif "(IM)" in card.groups and operation.immediate:
        yield from of_immediate(cards, k, card)
    elif "(IM)" in card.groups:
        yield "a store writes its field", put(cards, k, card.written(groups=card.groups[:-1]))
    elif card.groups and card.groups[-1].endswith(")") and card.groups[-1] not in FORMS:
        for form in difflib.get_close_matches(card.groups[-1], FORMS, 1, 0.5):
            yield "an unknown form", put(cards, k, card.written(groups=card.groups[:-1] + [form]))


def of_immediate(cards, k, card):
    """An operand in the address that has no room there: fewer bits, or a card that holds it."""
    mode = re.match(r"\((B|BU|D|DU)[,)]", card.groups[0])
    cause = "an operand in the address" if mode else "without a description the field has 64 bits"
    number = re.fullmatch(r"(\d+)|0\.(\d+)", card.fields[0]) if card.fields else None
    # Where only a number stands it is the number itself that is meant, and an address counts bits.
    bits = "%d.%d" % divmod(int(number.group(1)), 64) if number and number.group(1) else None
    fields = [bits, *card.fields[1:]] if bits else card.fields
    yield cause, put(cards, k, card.written(groups=["(%s,24)" % (mode.group(1) if mode else "BU"), "(IM)"], fields=fields))
    if number:
        name, groups = free_name(cards, "NUMBER"), card.groups[:1] if mode else []
        made = put(cards, k, card.written(groups=groups, fields=[name, *card.fields[1:]]))
        yield "a number of more than 24 bits", with_card(made, name, "DD%s,%s" % ("".join(groups), number.group(1) or number.group(2)))

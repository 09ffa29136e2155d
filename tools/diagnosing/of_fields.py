"""Causes in the fields of a card: how many there are, expressions, index words, numbers."""
import re

from .cards import Card, NINE, free_name, put, start_of, with_card
from .knowledge import is_index


def of_count(cards, k, fault, known):
    card = Card(cards[k])
    wanted = known.wanted(card.operation)
    for gap in re.finditer(r"(?<=[A-Z0-9)])\s+(?=[$A-Z0-9+-])", card.body):
        body = card.body[:gap.start()] + "," + card.body[gap.end():]
        yield "a missing comma between fields", put(cards, k, card.front + body + card.tail)
    if card.operation == "DD" and len(card.fields) > 1:
        first = card.written(fields=card.fields[:1])
        rest = [NINE + "DD" + "".join(card.groups) + "," + field for field in card.fields[1:]]
        yield "several numbers", put(cards, k, first, *rest)
    if card.operation == "XW" and len(card.fields) < 3:
        yield "a missing field of three", put(cards, k, card.written(fields=card.fields + ["0"] * (3 - len(card.fields))))
    if card.operation == "LVS":
        yield "no index word is listed", put(cards, k, card.written(fields=card.fields + ["$X2"]))
    elif wanted[:1] == ["$Xj"] and not re.match(r"\$X\d", card.fields[0] if card.fields else ""):
        yield "a missing index word", put(cards, k, card.written(fields=["$X1"] + card.fields))
    if card.operation in known.operations:
        operation = known.operations[card.operation]
        most = len(operation.fields) + len(operation.optional)
        if len(card.fields) > most and card.operation != "DD":
            cause = "more fields than the operation has" if any(card.fields[most:]) else "an empty field is a field"
            yield cause, put(cards, k, card.written(fields=card.fields[:most]))
    if wanted[-1:] == ["n"]:
        yield "a missing number", put(cards, k, card.written(fields=card.fields + ["1"]))
    if wanted in (["a(x)"], ["a"]) and not card.fields:
        yield "the address lacks", put(cards, k, card.written(fields=[start_of(cards) if card.operation == "END" else "0"]))
    elif len(wanted) == 2 and len(card.fields) == 1 and wanted[1] in ("a(x)", "a") and (wanted[0] != "$Xj" or is_index(card.fields[0])):
        yield "the address lacks", None


def of_expression(cards, k, fault, known):
    card = Card(cards[k])
    for k2, field in enumerate(card.fields):
        for cause, made in expressions(field, card.operation):
            fields = card.fields[:k2] + [made] + card.fields[k2 + 1:] if made is not None else None
            groups = room_for_text(card.groups, field) if cause == "a text" and card.operation == "DD" else card.groups
            yield cause, put(cards, k, card.written(groups=groups, fields=fields)) if fields else None
    for k2, field in enumerate(card.fields):
        if re.match(r"[=#][+-]?[0-9]", field):
            new = put(cards, k, card.written(fields=card.fields[:k2] + ["LITERAL"] + card.fields[k2 + 1:]))
            yield "a literal", with_card(new, "LITERAL", "DD," + field[1:].replace("#", ""))


def room_for_text(groups, field):
    """The description of a field for the characters of a text: (BU,8) for one, (BU,16) for two."""
    if not groups or not re.match(r"\(BU,[0-9]+\)$", groups[0]):
        return groups
    return ["(BU,%d)" % (8 * len(re.sub("['\"]", "", field)))] + groups[1:]


def expressions(field, operation):
    """Of a field that is no expression: what is likely wrong, and the field that may be meant."""
    if field == "":
        yield "the address is empty", "0"
    number = re.match(r"([+-]?)(?:0[xX]|[xX]'|\$|#)([0-9A-Fa-f]+)'?$|([+-]?)([0-9][0-9A-Fa-f]*)[hH]$", field)
    if number and operation != "R" and not re.match(r"\$[XLRZ]", field) and not re.match(r"#[0-9]+$", field):
        sign, digits = (number.group(1) or number.group(3) or ""), number.group(2) or number.group(4)
        yield "a hexadecimal number", sign + str(int(digits, 16))
    text = re.match(r"[A-Z]?(['\"])(.{1,8}?)\1?$", field)
    if text and not number:
        yield "a text", str(int.from_bytes(text.group(2).encode("latin-1"), "big"))
    if "*" in field or "/" in field:
        yield "a product", None
    if operation == "DD" and re.match(r"[+-]?[0-9]+\.[0-9]*$", field):
        yield "a fraction", field.replace(".", "")
    if re.match(r"[$A-Z][A-Z0-9$]*$", field) and operation in ("DD", "XW", "RD", "WR", "T", "SWAP", "L", "ST", "+", "*", "/", "K"):
        yield "an address as a number", None
    for name in re.findall(r"[A-Z][A-Z0-9]{8,}", "" if "'" in field or '"' in field else field):
        yield "a name of nine letters in an address", field.replace(name, name[:8])
    if field.endswith(")") and "(" not in field:
        yield "there is no (", field[:-1]
    if re.search(r"\[\$?X[0-9]+\]", field):
        yield "an index field is $X and a number", re.sub(r"\[\$?X([0-9]+)\]", r"($X\1)", field)


def of_index(cards, k, fault, known):
    card = Card(cards[k])
    fields = card.fields
    bare = [re.sub(r"(?<![$A-Z0-9])X([0-9]+)", r"$X\1", field) for field in fields]
    if bare != fields:
        yield "an index word without its $", put(cards, k, card.written(fields=bare))
    wants_index = known.wanted(card.operation)[:1] == ["$Xj"]
    if wants_index and len(fields) > 1 and re.match(r"\$X[0-9]+$", fields[1]):
        yield "fields in the wrong order", put(cards, k, card.written(fields=[fields[1], fields[0]] + fields[2:]))
    if fields and re.match(r"[0-9]+$", fields[0]) and wants_index and int(fields[0]) < 16:
        yield "a number for an index word", put(cards, k, card.written(fields=["$X" + fields[0]] + fields[1:]))
    past = [re.sub(r"\$X(1[6-9]|[2-9][0-9])", "$X15", field) for field in fields]
    if past != fields:
        yield "an index word past $X15", put(cards, k, card.written(fields=past))
    cut = [field.replace("($X0)", "") for field in fields]
    if cut != fields:
        yield "index word 0 changes no address", put(cards, k, card.written(fields=cut))
    moved = [re.sub(r"\((\$X\d+)([+-][$A-Z0-9.+-]+)\)$", r"\2(\1)", field) for field in fields]
    if moved != fields:
        yield "a sum in an index part", put(cards, k, card.written(fields=moved))
        return
    second = [*of_second(cards, k, card)]
    yield from second
    cut = [re.sub(r"\(.*", "", field) for field in fields]
    if cut != fields and not second and not any("V" in group for group in card.groups):
        yield "the field has no index part", put(cards, k, card.written(fields=cut))
    if fields and any(group.startswith("(V") for group in card.groups) and "(" not in fields[0]:
        yield "the form changes an index word", put(cards, k, card.written(fields=[fields[0] + "($X1)"] + fields[1:]))


def of_second(cards, k, card):
    """An index part of a second address: of a branch a card B has it; two fields change places; a word goes by the accumulator."""
    second = card.fields[1] if len(card.fields) > 1 else ""
    if not re.search(r"\(\$X(1[0-5]|[1-9])\)$", second):
        return
    if card.operation == "SIC" or re.match("B[BI][01]", card.operation):
        name = free_name(cards, "JUMP")
        made = put(cards, k, card.written(fields=[card.fields[0], name]))
        yield "a second address with an index part", with_card(made, name, "B," + second)
    elif card.operation == "SWAP":
        yield "a second address with an index part", put(cards, k, card.written(fields=[second, card.fields[0], *card.fields[2:]]))
    elif card.operation == "T":
        made = put(cards, k, card.written("L", fields=card.fields[:1]), NINE + "ST," + second)
        yield "a second address with an index part", made if card.fields[2:] == ["1"] else None


def of_number(cards, k, fault, known):
    card = Card(cards[k])
    carried = [re.sub(r"(\d+)\.(\d+)", lambda m: "%d.%d" % (int(m.group(1)) + int(m.group(2)) // 64, int(m.group(2)) % 64), field)
               for field in card.fields]
    if carried != card.fields:
        yield "the last bit of a word is 63", put(cards, k, card.written(fields=carried))
    if card.operation == "DD":
        yield "a number is below 2^64", None
    elif any(int(n) > 262143 for field in card.fields for n in re.findall(r"\d+", field)):
        yield "the last word address is 262,143", None

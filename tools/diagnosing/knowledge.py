"""What is known of faults, operations and symbols: the data of tools/knowledge, which are made from the manual."""
import json
import os

HERE = os.path.join(os.path.dirname(os.path.realpath(__file__)), "..", "knowledge")
PASSES = ("form", "name", "value")


def data(name):
    with open(os.path.join(HERE, name), encoding="ascii") as file:
        return json.load(file)


class Row:
    """A cause of a fault: what to look for, a card that has it, and one without it."""

    def __init__(self, fault, made):
        self.fault, self.text = fault, made["cause"]
        self.example, self.repair = told(made["example"]), told(made["repair"])


def told(made):
    """Cards or words on one line; `_` stands for nine blanks, as on the pages."""
    if "words" in made:
        return made["words"]
    return " | ".join("_" + card[9:] if card[:9] == " " * 9 else card.strip() for card in made["cards"])


class Operation:
    """An operation: the fields that it wants, and those that it may have."""

    def __init__(self, made):
        self.name, self.kind, self.does = made["name"], made["kind"], made["does"]
        self.fields, self.optional = made["fields"], made["optional"]
        self.described, self.immediate = made["description"] is not None, made["immediate"]
        self.progressive = made["progressive"]

    def said(self):
        """Its fields in words."""
        if not self.fields:
            return "no fields"
        fields = ", ".join({"number": "a number with a sign or none"}.get(field, field) for field in self.fields)
        if self.optional[:1] == ["$Xk"]:
            return "the fields %s, and more index words or none" % fields
        return "the fields %s%s" % (fields, ", and an offset %s or none" % self.optional[0] if self.kind in ("field", "connective") else
                                    ", and %s or none" % self.optional[0] if self.optional else "")

    def fits(self, fields):
        """Whether so many fields can be its own, and whether an index word stands where it wants one, and nowhere else."""
        if not len(self.fields) <= len(fields) <= len(self.fields) + len(self.optional):
            return False
        wants = [field in ("$Xj", "$Xk") for field in self.fields + self.optional]
        return not fields or wants[0] == is_index(fields[0])


def is_index(field):
    return field in {"$X%d" % n for n in range(16)}


class Knowledge:
    """All of it."""

    def __init__(self):
        faults, mnemonics, symbols = data("faults.json"), data("mnemonics.json"), data("symbols.json")
        self.says = {one["name"]: one["says"] for one in faults["faults"]}
        self.rank = {one["name"]: PASSES.index(one["pass"]) for one in faults["faults"] if one["pass"]}
        self.rows = [Row(one["name"], cause) for one in faults["faults"] for cause in one["causes"]]
        self.seen = {one["seen"]: one["says"] for one in faults["odd"]}
        self.operations = {one["name"]: Operation(one) for one in mnemonics["operations"]}
        self.controls = {one["name"]: one for one in mnemonics["controls"]}
        self.elsewhere = {word: one["here"] for word, one in mnemonics["elsewhere"].items()}
        self.here = {word: one["says"] for word, one in mnemonics["elsewhere"].items()}
        self.symbols = {one["name"] for one in symbols["symbols"]}
        self.addresses = {one["name"]: 64 * one["word"] + one["bit"] for one in symbols["symbols"]}
        self.registers = {one["name"] for one in symbols["symbols"] if one["bits"] > 1}
        self.indicators = [one["name"] or str(one["number"]) for one in symbols["indicators"]]

    def wanted(self, name):
        """The fields of an operation, none where there is no such one."""
        return self.operations[name].fields if name in self.operations else []

    def row(self, fault, key):
        """The row of a cause: of this fault, or of another one where this has none."""
        fits = [row for row in self.rows if row.text.startswith(key.replace("`", ""))]
        return next((row for row in fits if row.fault == fault), fits[0] if fits else None)

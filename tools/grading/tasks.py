"""Tasks as they stand in files: what a deck has to be, and the cases in which it is run."""
import configparser
import os
import re

ENDING = ".task"
LIMITS = ("ticks", "instructions")
AT = re.compile(r"at (\S+)(?: (\([^)]*\)))?$")
MOST = {"budget": 10_000_000, "ticks": 10 ** 12, "instructions": 10_000_000}


class Bad(Exception):
    """A task that says something that means nothing; the text says what."""


class Wanted:
    """What has to stand at a place of storage at the end: a field of a form, and its number."""

    def __init__(self, place, form, number):
        self.place, self.form, self.number = place, form or "(BU,64)", number


class Case:
    """A run: cards of data that are laid over the deck's own, control cards, reader cards, and what is wanted of it."""

    def __init__(self, name, section, whole):
        self.name = name
        self.hidden = section.pop("hidden", "no") == "yes"
        self.data = [card if card[:1] == " " else "         " + card for card in lines_of(section.pop("data", ""))]
        self.controls = lines_of(section.pop("controls", ""))
        reader = section.pop("reader", None)
        self.reader = None if reader is None else ["*" + line for line in lines_of(reader)]
        printed = section.pop("printed", None)
        self.printed = None if printed is None else lines_of(printed)
        self.ends = section.pop("ends", whole["ends"])
        self.limits = {name: number_of(section.pop(name, whole.get(name)), name) for name in LIMITS}
        self.budget = number_of(whole.get("budget", "1000"), "budget")
        self.wanted = [wanted_of(key, section[key], name) for key in section]
        self.fields = []                # the same as the assembler lays them
        if self.ends not in ("WAIT", "BUDGET"):
            raise Bad("[case %s]: ends = %s is neither WAIT nor BUDGET" % (name, self.ends))


class Task:
    """A task: its name, its title, and its cases."""

    def __init__(self, path):
        self.name = os.path.basename(path)[:-len(ENDING)]
        parser = configparser.ConfigParser(delimiters=("=",), comment_prefixes=(";",), interpolation=None)
        parser.optionxform = str
        try:
            with open(path, encoding="utf-8") as file:
                parser.read_file(file)
            whole = {"ends": "WAIT", **(dict(parser["task"]) if "task" in parser else {})}
            self.title = whole.pop("title", self.name)
            self.uses, self.avoids = whole.pop("uses", "").split(), whole.pop("avoids", "").split()
            names = [name for name in parser.sections() if name != "task"]
            for name in names:
                if not name.startswith("case "):
                    raise Bad("[%s] is neither [task] nor [case NAME]" % name)
            self.cases = [Case(name[5:], dict(parser[name]), whole) for name in names]
            unknown = set(whole) - {"ends", "budget", *LIMITS}
        except configparser.Error as error:
            raise Bad(str(error).replace("\n", " ")) from error
        if unknown or not self.cases:
            raise Bad("[task] has no key '%s'" % sorted(unknown)[0] if unknown else "there is no [case NAME]")


def lines_of(text):
    """The lines of a value; a line `.` is an empty one, and a `|` keeps the blanks behind it."""
    return ["" if line == "." else line[1:] if line[:1] == "|" else line for line in text.split("\n") if line]


def number_of(text, name):
    if text is None:
        return None
    if not re.fullmatch("[0-9]{1,13}", text) or not 1 <= int(text) <= MOST[name]:
        raise Bad("%s = %s is no number from 1 to %d" % (name, text, MOST[name]))
    return int(text)


def wanted_of(key, text, case):
    found = AT.match(key)
    number = re.fullmatch(r"0x([0-9A-Fa-f]+)|([+-]?[0-9]+)", text)
    if not found or not number:
        raise Bad("[case %s]: '%s = %s' means nothing (at PLACE (FORM) = NUMBER)" % (case, key, text))
    return Wanted(found.group(1), found.group(2), str(int(number.group(1), 16)) if number.group(1) else number.group(2))


def tasks_of(path):
    """The tasks of a file, or of all files *.task of a folder."""
    paths = sorted(os.path.join(path, name) for name in os.listdir(path) if name.endswith(ENDING)) if os.path.isdir(path) else [path]
    tasks = []
    for one in paths:
        try:
            if not one.endswith(ENDING):
                raise Bad("its name does not end with %s" % ENDING)
            tasks.append(Task(one))
        except Bad as bad:
            raise Bad("%s: %s" % (one, bad)) from bad
    if not tasks:
        raise Bad("%s: there is no file *%s" % (path, ENDING))
    return tasks

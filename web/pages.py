"""Lessons and pages of the manual as HTML, by cmark-gfm, with a button for each deck in them, for the page that has
them beside the editor."""
import difflib
import html
import os
import pathlib
import re
import shutil
import subprocess
import tempfile

TOP = pathlib.Path(__file__).resolve().parent.parent
DOCS = TOP / "docs"
MANUAL = ("web", "page", "quick", "operations", "first-faults", "glossary", "worked-cards", "conveniences", "machine",
    "instructions", "index-words", "variable-fields", "connectives",
          "interrupts", "strap", "report", "timetable", "explain", "object-text", "chart")
# A command that only makes a deck, and what a command does with one.
MAKES = re.compile(r"\(?(cat|sed|printf|echo|tools/deck) ")
USES = re.compile(r" *\| *(?:\\\n)? *(?:\./(?:stretch|explain|ledger)|tools/\w+)")
WRITES = re.compile(r"printf '(?:(?! \*\\n)[^'%])*'$")
READS = re.compile(r"(?:\./(?:stretch \w+|explain[^<|]*|ledger[^<|]*) < "
    r"|tools/(?:delays|page|picture|why|indicators) )(\S+)")


# The file of a deck in a command.
FILE = re.compile(r"(?<![\w/.])((?:examples/(\w+)/)?[\w-]+\.txt)")
MOST_CHANGED = 6
# A paragraph that speaks of a shell may have other words, or none, in the page; they stand in a comment before it.
INSTEAD = re.compile(r"<!-- in the page:(.*?)-->\n(?:[^\n]+\n)+", re.S)
ANSWERS = re.compile(r"<p>The answers are <a [^>]*>on a separate page</a>\.</p>")


class Failed(Exception):
    """A page could not be made."""


class Decks:
    """The decks of one page: those of its fences, of examples, and what commands make of them."""

    def __init__(self, room):
        self.room, self.all, self.fences = room, [], {}

    def add(self, deck):
        if deck not in self.all:
            self.all.append(deck)
        return self.all.index(deck)

    def fence(self, name, text):
        self.fences[name] = text
        (self.room / name).write_text(text, encoding="latin-1")
        return self.add(text)

    def of(self, command):
        """The number of the deck that a command reads or makes, or none."""
        found = READS.match(command)
        if found:
            path = self.room / found[1]
            return self.add(path.read_text(encoding="latin-1")) if path.is_file() else None
        head = USES.split(command)[0]
        if head == command or not MAKES.match(head) or re.search(r"[>`&]", head):
            return None
        done = subprocess.run(["sh", "-c", head], cwd=self.room, stdout=subprocess.PIPE, stderr=subprocess.DEVNULL,
            check=False)
        text = done.stdout.decode("latin-1")
        isDeck = re.search(r"(?m)^.{9} *END *(,|$)", text) or WRITES.match(head)
        return self.add(text) if done.returncode == 0 and isDeck else None

    def told(self, command, number):
        """What the deck that a command makes is, beside the one that it is made of."""
        found = FILE.search(command)
        path = self.room / found[1] if found else None
        if path is None or not path.is_file():
            return ["The deck", "", "```", *self.all[number].splitlines(), "```", "", "gives:"]
        name = f"`{found[2]}`" if found[2] else f"`{found[1]}`"
        levels = levels_of(command)
        if levels:
            name += f" on {levels} level{'s' if levels != '1' else ''}"
        changes = changed(path.read_text(encoding="latin-1").splitlines(), self.all[number].splitlines())
        return [f"The deck {name}{changes} gives:" if changes is not None else "This deck gives:"]


def changed(before, after):
    """The cards in which a deck differs from another, as words; none where there are many."""
    said = []
    for kind, a, b, c, d in difflib.SequenceMatcher(None, before, after, autojunk=False).get_opcodes():
        old, new = (" and ".join(f"`{card.strip()}`" for card in cards if card.strip())
            for cards in (before[a:b], after[c:d]))
        if kind != "equal" and (old or new):
            said.append(f"with {new} in place of {old}" if old and new else f"with {new}" if new else f"without {old}")
    if len(said) > MOST_CHANGED or any(len(one) > 300 for one in said):
        return None
    return "".join(f", {one}" for one in said) + ("," if said else "")


def room_of(folder):
    """A folder in which commands of the pages find what they name."""
    for name in ("examples", "tools", "docs"):
        (folder / name).symlink_to(TOP / name)
    return folder


def answers_of(lines):
    """The commands of a console, each with the lines that it writes."""
    found = []
    for line in lines:
        if line.startswith("$ "):
            found.append([line[2:], [], False])
        elif found and found[-1][2] is False and found[-1][0].endswith("\\"):
            found[-1][0] = found[-1][0][:-1] + line.strip()
        elif found:
            found[-1][1].append(line)
            found[-1][2] = True
    return [(command, written) for command, written, _ in found]


def levels_of(command):
    """The number of levels that a command names, or ''."""
    found = re.search(r"--levels (\d)", command)
    return found[1] if found else ""


def view_of(command):
    return levels_of(command) + ("experiment" if re.search(r"stretch sweep|tools/delays", command) else "where"
        if "./explain" in command else "")


def folded(indent, lines):
    """Commands are for a shell: the page has them folded away."""
    return ["", f"{indent}@@SHELL@@", "", f"{indent}```", *(indent + line for line in lines), f"{indent}```", "",
        f"{indent}@@UNFOLD@@", ""]


def shell(fence, body, decks, mark):
    """The lines for a fence of commands: where each has a deck, what it makes of the deck; the commands are folded
    away."""
    indent = fence["indent"]
    given = answers_of(body) if fence["kind"] == "console" else [(one.split(" #")[0].strip(), []) for one in body]
    numbers = [decks.of(command) for command, _ in given]
    if not numbers or None in numbers:
        return [*folded(indent, body), *(one for (command, _), number in zip(given, numbers)
            for one in mark(indent, number, view_of(command)))]
    made = []
    for (command, written), number in zip(given, numbers):
        if written:
            made += ["", *(indent + line for line in decks.told(command, number)), "", f"{indent}```",
                *(indent + line for line in written), f"{indent}```"]
        made += mark(indent, number, view_of(command))
    return made + (folded(indent, [line for line in body if not any(line in written for _, written in given)])
        if fence["kind"] == "console" else [])


def marked(text, decks):
    """The page with a mark behind each deck: `@@DECK number view@@` in a paragraph of its own."""
    out, fence, last = [], None, []

    def mark(indent, number, view=""):
        if number is None or last == [number]:
            return []
        last[:] = [number]
        return ["", f"{indent}@@DECK {number} {view}@@", ""]

    for line in text.split("\n"):
        begins = re.match(r"( *)```(\S*)(?: (\S+))?$", line)
        if fence and line.rstrip() == f"{fence['indent']}```":
            out.append(line)
            body = [one[len(fence["indent"]):] for one in fence["body"]]
            if fence["kind"] == "deck" and fence["name"]:
                out.extend(mark(fence["indent"], decks.fence(fence["name"], "".join(one + "\n" for one in body))))
            elif fence["kind"] in ("console", "sh"):
                out[fence["at"]:] = shell(fence, body, decks, mark)
            fence = None
        elif fence:
            fence["body"].append(line)
            out.append(line)
        elif begins:
            fence = {"indent": begins[1], "kind": begins[2], "name": begins[3], "body": [], "at": len(out)}
            out.append(f"{begins[1]}```{begins[2]}")
        elif line.startswith("<!--"):
            found = re.match(r"<!-- all lines of: cat (\S+) -->", line)
            if found:
                out.extend(mark("", decks.add((TOP / found[1]).read_text(encoding="latin-1"))))
        else:
            out.append(line)
    return "\n".join(out)


def joined(text):
    """Rows of tables whose first cell is empty go on with the row before."""
    out = []
    for line in text.split("\n"):
        cells = re.split(r"(?<!\\)\|", line)[1:-1]
        before = re.split(r"(?<!\\)\|", out[-1])[1:-1] if out else []
        goes_on = cells and not cells[0].strip() and len(cells) == len(before) and before[0].strip() and not re.match(
            r"\|[-| ]+$", out[-1])
        if goes_on:
            out[-1] = "|" + "|".join(f" {a.strip()} {b.strip()} " for a, b in zip(before, cells)) + "|"
        else:
            out.append(line)
    return "\n".join(out)


def ident(name):
    found = re.match(r"lessons/(\d+)-", name)
    return f"lesson-{found[1]}" if found else name


def anchor(text):
    return re.sub(r"[^a-z0-9 -]", "", html.unescape(re.sub("<.*?>", "", text)).lower()).replace(" ", "-")


def button(number, levels, view):
    more = "".join(f' data-{name}="{value}"' for name, value in (("levels", levels), ("view", view)) if value)
    return f'<button class="open" data-deck="{number}"{more}>Open in the editor</button>'


def title_of(name):
    return (DOCS / f"{name}.md").read_text(encoding="utf-8").split("\n", 1)[0].removeprefix("# ")


def linked(made, name, known, pictures):
    """Pictures stand in the page itself; links lead to its own pages, and elsewhere they are text."""
    folder = (DOCS / name).parent

    def picture(found):
        path = pathlib.Path(os.path.normpath(folder / found[1]))
        if path.suffix != ".svg":
            return ""
        pictures[path.name] = path.read_text(encoding="utf-8")
        return f'<img data-picture="{path.name}" alt="{found[2]}" />'

    def link(found):
        target, _, part = found[1].partition("#")
        key = os.path.normpath(os.path.join(os.path.dirname(name), target))[:-3] if target else name
        # A link that is named by its file is named by the title of the page here.
        named = re.fullmatch(r"[\w/-]+\.md", found[2])
        if key not in known:
            return f"<span>{f'the page {found[2]} of the repository' if named else found[2]}</span>"
        shown = html.escape(title_of(key)) if named else found[2]
        return (f'<a href="#lesson={ident(key).removeprefix("lesson-")}" data-page="{ident(key)}" '
            f'data-part="{html.escape(part)}">{shown}</a>')

    made = re.sub(r'<img src="([^"]+)" alt="([^"]*)" />', picture, made)
    return re.sub(r'<a href="([^"]+)">(.*?)</a>', link, made, flags=re.S)


def with_decks(name):
    """The text of a page with a mark behind each deck, and its decks."""
    with tempfile.TemporaryDirectory() as folder:
        decks = Decks(room_of(pathlib.Path(folder)))
        text = INSTEAD.sub(lambda found: found[1].strip() + "\n", (DOCS / f"{name}.md").read_text(encoding="utf-8"))
        return marked(text, decks), decks


def answers(lesson):
    """The decks of the page of answers of a lesson, which is not in the page itself."""
    path = next((DOCS / "lessons" / "answers").glob(f"{lesson.removeprefix('lesson-')}-*.md"))
    return with_decks(f"lessons/answers/{path.stem}")[1].all


def page(name, known, pictures):
    text, decks = with_decks(name)
    done = subprocess.run(["cmark-gfm", "-e", "table", "--to", "html"], input=joined(text).encode(),
        stdout=subprocess.PIPE, check=True)
    made = re.sub(r"(<p>)?@@DECK (\d+) (\d?)(\w*)@@(</p>)?", lambda found: (found[1] or "")
        + button(*found.groups()[1:4]) + (found[5] or ""), done.stdout.decode())
    made = made.replace("<p>@@SHELL@@</p>", '<details class="shell"><summary>in a shell</summary>').replace(
        "<p>@@UNFOLD@@</p>", "</details>")
    made, found = ANSWERS.subn("<p>At each exercise you find its answer, once you have tried it.</p>", made)
    if found != name.startswith("lessons/"):
        raise Failed(f"{name}: the sentence about its answers is not found as it is known here")
    # A comment card may be long, and a line of a report.
    made = re.sub(r"<td><code>(?=\*|[^ <][^<]{27})", '<td><code class="wraps">', made)
    made = linked(made, name, known, pictures)
    made = re.sub(r"<(h[23])>(.*?)</\1>", lambda found: f'<{found[1]} id="{anchor(found[2])}">{found[2]}</{found[1]}>',
        made)
    title = html.unescape(re.sub("<.*?>", "", re.search(r"<h1>(.*?)</h1>", made)[1]))
    return {"id": ident(name), "title": title, "lesson": name.startswith("lessons/"), "html": made, "decks": decks.all}


def pages():
    """All pages, and the pictures in them by their names."""
    if not shutil.which("cmark-gfm"):
        raise Failed("cmark-gfm is not there (Debian's package cmark-gfm)")
    lessons = sorted((f"lessons/{path.stem}" for path in (DOCS / "lessons").glob("*.md")),
        key=lambda name: int(re.search(r"\d+", name)[0]))
    names = [*lessons, *(name for name in MANUAL if (DOCS / f"{name}.md").is_file())]
    pictures = {}
    return [page(name, set(names), pictures) for name in names], pictures

"""Lessons and manual as files of HTML beside each other, with relative links: by the converter of the page (web/pages.py), cmark-gfm."""
import base64
import html
import os
import pathlib
import re
import shutil
import subprocess
import sys
import zlib

TOP = pathlib.Path(__file__).resolve().parent.parent
sys.dont_write_bytecode = True
sys.path.insert(0, str(TOP / "web"))
import pages  # noqa: E402

PAGE = "stretch.html"
OWN = ["README.md", "CHANGELOG.md", "CONTRIBUTING.md", "programs/README.md", "vectors/README.md", "bench/README.md", "model/README.md"]
# Files that go along where a page links to them; a link to another one is text.
ALONG = {".svg", ".png"}
FILES = ["docs/promises.txt"]
# A deck as a whole, which runs.
WHOLE = re.compile(r"(?m)^.{9} *END *(,|$)")
# A table that shows the cards of a deck.
SHOWN = re.compile(r"^<!-- all lines of: cat (\S+/deck\.txt) -->\n", re.MULTILINE)
STYLE = """
body{max-width:56em;margin:0 auto;padding:1em;font:17px/1.5 sans-serif;color:#111;background:#fff}
nav{font-size:.9em;border-bottom:1px solid #bbb;padding-bottom:.5em}nav a{margin-right:1.5em}
pre{background:#f3f3ee;padding:.8em;overflow-x:auto;line-height:1.3}code{font-family:monospace}
table{border-collapse:collapse;display:block;overflow-x:auto}td,th{border-bottom:1px solid #bbb;padding:.3em .7em .3em 0;text-align:left;vertical-align:top}
img{max-width:100%;height:auto}h1,h2,h3{line-height:1.25}p.opens{font-size:.9em}
@media print{nav,p.opens{display:none}}
"""
FRAME = """<!doctype html>
<html lang="en">
<head>
<meta charset="utf-8">
<meta name="viewport" content="width=device-width, initial-scale=1">
<meta http-equiv="Content-Security-Policy" content="default-src 'none'; style-src 'unsafe-inline'; img-src 'self' file: data:">
<title>{title}</title>
<style>{style}</style>
</head>
<body>
<nav><a href="{up}index.html">Contents</a><a href="{up}{page}">The machine in a browser</a></nav>
{body}</body>
</html>
"""


def texts():
    """The pages, by their paths: those for users, lessons, answers, programs, and what is there for those who work on it."""
    found = [*OWN, *(str(path.relative_to(TOP)) for folder in ("docs", "programs") for path in (TOP / folder).rglob("*.md"))]
    return sorted(set(found))


def to_html(text):
    made = subprocess.run(["cmark-gfm", "-e", "table", "--to", "html"], input=text.encode(), stdout=subprocess.PIPE, check=True)
    return made.stdout.decode().replace("<!-- raw HTML omitted -->\n", "")


def address_of(deck):
    """The address behind which the page opens a deck."""
    press = zlib.compressobj(9, zlib.DEFLATED, -15)
    return f"{PAGE}#d=" + base64.urlsafe_b64encode(press.compress(deck.encode()) + press.flush()).decode().rstrip("=")


def opens(deck, up):
    return f'<p class="opens"><a href="{up}{address_of(deck)}">Open this deck in the page</a></p>\n'


class Manual:
    """The pages of the manual, and the files that go along with them."""

    def __init__(self):
        self.names = set(texts())
        self.along, self.titles = set(), {}

    def place(self, target):
        """Where a path of the repository stands beside the pages; none where it does not go along."""
        if target == f"site/{PAGE}":
            return PAGE
        if target == "docs/lessons":
            return "index.html#lessons"
        if target == "examples":
            return "index.html#examples"
        if f"{target}/README.md" in self.names:
            target += "/README.md"
        if target in self.names:
            return target[:-3] + ".html"
        if target in FILES or pathlib.Path(target).suffix in ALONG and (TOP / target).is_file():
            self.along.add(target)
            return target
        return None

    def linked(self, made, name):
        """The HTML of a page with its links as they are beside it."""
        folder = os.path.dirname(name)

        def led(target):
            """A target of the page as it is linked here; none where it does not go along."""
            if re.match(r"[a-z]+:", target):
                return target
            path, _, part = html.unescape(target).partition("#")
            place = self.place(os.path.normpath(os.path.join(folder, path))) if path else os.path.basename(name)[:-3] + ".html"
            if place is None:
                return None
            place = os.path.relpath(place, folder or ".") if path else place
            return html.escape(place + (f"#{part}" if part else ""))

        def link(found):
            target = led(found[1])
            return f'<a href="{target}">{found[2]}</a>' if target else found[2]

        def picture(found):
            target = led(found[1])
            return f'<img src="{target}" alt="{found[2]}">' if target else f"[{found[2]}]"

        made = re.sub(r'<img src="([^"]+)" alt="([^"]*)" />', picture, made)
        return re.sub(r'<a href="([^"]+)">(.*?)</a>', link, made, flags=re.S)

    def page(self, name):
        """A page as HTML."""
        up = "../" * name.count("/")
        text = SHOWN.sub(r"\n@@OPEN \1@@\n\n", (TOP / name).read_text(encoding="utf-8"))
        made = self.linked(to_html(pages.joined(text)), name)
        made = re.sub(r"<p>@@OPEN (\S+)@@</p>\n", lambda found: opens((TOP / found[1]).read_text(encoding="latin-1"), up), made)
        made = re.sub(r"<(h[1-6])>(.*?)</\1>", lambda found: f'<{found[1]} id="{pages.anchor(found[2])}">{found[2]}</{found[1]}>', made)

        def deck(found):
            text = html.unescape(found[1])
            return found[0] + (opens(text, up) if WHOLE.search(text) else "")

        made = re.sub(r'<pre><code class="language-deck[^>]*>(.*?)</code></pre>\n', deck, made, flags=re.S)
        found = re.search(r"<h1[^>]*>(.*?)</h1>", made)
        self.titles[name] = found[1] if found else name
        return framed(html.unescape(re.sub("<.*?>", "", self.titles[name])), made, up)

    def contents(self, version):
        """The first page: what there is."""
        def item(name):
            return f'<li><a href="{name[:-3]}.html">{re.sub("</?a[^>]*>", "", self.titles[name])}</a></li>\n'

        def listed(names):
            return "<ul>\n" + "".join(item(name) for name in names) + "</ul>\n"

        def number(name):
            return int(re.search(r"/(\d+)-", name)[1])

        lessons = sorted((name for name in self.names if re.match(r"docs/lessons/\d", name)), key=number)
        answers = sorted((name for name in self.names if name.startswith("docs/lessons/answers/")), key=number)
        manual = sorted(name for name in self.names if re.match(r"docs/[^/]*$", name))
        known = sorted(name for name in self.names if re.match(r"programs/.*/", name))
        rest = [name for name in OWN if name in self.names and name != "README.md"]
        decks = [(path.parent.name, path.read_text(encoding="latin-1")) for path in sorted(TOP.glob("examples/*/deck.txt"))]
        body = f"<h1>Stretch {version}</h1>\n"
        body += f'<p>A simulator of a computer modelled on the IBM 7030 Stretch. <a href="{PAGE}">The machine in a browser</a> is one file, which needs '
        body += 'no network; <a href="README.html">README</a> says what there is and what is proved. The owner has chosen no licence: ask who gave you this.</p>\n'
        body += '<h2 id="lessons">Lessons</h2>\n' + listed(lessons) + '<h2 id="answers">Answers to their exercises</h2>\n' + listed(answers)
        body += '<h2 id="manual">Manual</h2>\n' + listed(manual)
        body += '<h2 id="examples">Examples</h2>\n<p>' + ",\n".join(f'<a href="{address_of(deck)}">{name}</a>' for name, deck in decks) + ": each opens in the page.</p>\n"
        body += '<h2 id="programs">Programs that people know</h2>\n' + listed(known) + '<h2 id="rest">More</h2>\n' + listed(rest)
        return framed(f"Stretch {version}", body, "")


def framed(title, body, up):
    return FRAME.format(title=html.escape(title), style=STYLE, up=up, page=PAGE, body=body)


def write(folder, version):
    """Writes all pages and what goes along with them below a folder."""
    if not shutil.which("cmark-gfm"):
        raise pages.Failed("cmark-gfm is not there (Debian's package cmark-gfm)")
    manual = Manual()
    made = {name[:-3] + ".html": manual.page(name) for name in sorted(manual.names)}
    made["index.html"] = manual.contents(version)
    for name, text in made.items():
        path = folder / name
        path.parent.mkdir(parents=True, exist_ok=True)
        path.write_text(text, encoding="utf-8", newline="")
    for name in sorted(manual.along):
        (folder / name).parent.mkdir(parents=True, exist_ok=True)
        shutil.copyfile(TOP / name, folder / name)

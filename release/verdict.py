"""What the gate said of the files and programs of a release, as a text; refused where it said it of others."""
import base64
import gzip
import json
import pathlib
import re
import textwrap

import sums

TOP = sums.TOP
PROGRAMS = ("stretch", "chart", "ledger")
# The kit's own lines on a crate: how its check ends, and that it is proved and built.
WIDE = 118
# Where the page keeps what is in it beside the programs.
BOOK = '<script type="text/plain" id="book">'
SAID = re.compile(r"empty contracts: |logic=|rt: ")


class Refused(Exception):
    """There is no release; the text says why."""


def glibc(program):
    """The least version of glibc that a program asks for: the highest of those that its table of names has."""
    found = re.findall(rb"\0GLIBC_(\d+)\.(\d+)(?:\.\d+)?(?=\0)", pathlib.Path(program).read_bytes())
    return max((int(one), int(two)) for one, two in found)


def made_of(page):
    """What a page says it is made of."""
    found = re.search(f"{BOOK}([^<]*)<", page.read_text(encoding="utf-8"))
    return json.loads(gzip.decompress(base64.b64decode(found[1])))["made"]


def sections(log):
    """The kit's lines on each crate, by the crates in the order of the log."""
    found, name = {}, None
    for line in log:
        begins = re.match(r"== (\S+)$", line)
        if begins:
            name = begins[1]
            found.setdefault(name, [])
        elif name and SAID.match(line):
            found[name].append(line)
    return found


def told_twice(log):
    """What the log says of itself before and behind the gate's work: the same, or the files changed meanwhile."""
    said = {}
    for line in log:
        found = re.match(r"gate: (sources|files|kit) (.*)", line)
        if found:
            said.setdefault(found[1], []).append(found[2])
    if sorted(said) != ["files", "kit", "sources"] or any(len(one) != 2 for one in said.values()):
        raise Refused("the gate's log does not say of what it is: it is not whole, or of another gate")
    if any(len(set(one)) > 1 for one in said.values()):
        raise Refused("files changed while the gate ran")
    return {name: one[0] for name, one in said.items()}


def checked(log, programs):
    """The log as lines, where it is of exactly this checkout and of these programs, and nothing failed."""
    now, then = sums.sums(), told_twice(log)
    for name, what in (("sources", "the sources"), ("files", "some files")):
        if now[name] != then[name]:
            raise Refused(f"{what} are no longer those that the gate looked at; it has to run again")
    for name, path in programs.items():
        if f"gate: program {name} {sums.sum_of(path)}" not in log:
            raise Refused(f"{path} is not the program that the gate proved and built")
    if not re.fullmatch(r"\d+ passed, 0 failed", log[-1]):
        raise Refused(f"the gate's last line is '{log[-1]}'")
    return then


def of_programs(programs, page):
    made = made_of(page)
    yield "The programs, with the checksum (SHA-256) of each, its bytes, and the least glibc that it needs:"
    yield ""
    for name, path in programs.items():
        yield f"    {name:8} {sums.sum_of(path)} {path.stat().st_size:9} {'.'.join(map(str, glibc(path)))}"
    yield ""
    yield f"The page stretch.html, whose modules are of {'the programs as they were proved' if made['proved'] else 'an unproved build of sources'}:"
    yield ""
    yield f"    page     {sums.sum_of(page)}"
    yield f"    sources  {made['sources']}"
    yield f"    kit      {made['kit']}"
    yield ""
    promises = TOP / "docs/promises.txt"
    count = sum(not line.startswith("#") for line in promises.read_text().splitlines())
    yield f"What is promised: {count} lines, in share/doc/stretch/promises.txt of the archive; docs/CLAIMS.md says it in words:"
    yield ""
    yield f"    promises {sums.sum_of(promises)}"


def of_log(log, then):
    found = sections(log)
    yield "What the gate looked at: the sources of the programs, and all files of the repository, as checksums; by which kit:"
    yield ""
    for name in ("sources", "files", "kit"):
        yield f"    {name:8} {then[name]}"
    yield ""
    yield "What the kit said of each program, behind its check:"
    yield ""
    for name in PROGRAMS:
        yield f"  == {name}"
        for line in found.get(name, []):
            yield from textwrap.wrap(line, WIDE, initial_indent="    ", subsequent_indent="      ", break_long_words=False, break_on_hyphens=False)
    yield ""
    below = [name for name in found if name not in PROGRAMS]
    yield f"and of the {len(below)} crates below them:"
    yield ""
    for name in below:
        functions = [one[1] for one in (re.search(r"^logic=proved functions=(\d+)", line) for line in found[name]) if one]
        ends = [line.removeprefix("rt: ") for line in found[name] if line.startswith("rt: ")]
        yield f"    {ends[-1] if ends else name + ': nothing'}, {functions[-1] if functions else 'no'} functions"
    yield ""
    yield "The gate's last line counts proofs, edits that have to be refused, tests, vectors, pages and scripts:"
    yield ""
    yield f"    {log[-1]}"


AGAIN = """
How to see it again. Without the kit, in the unpacked folder: the checksums above, and all vectors, which are jobs with
what two models of the machine give, by the programs as they are here:

    sha256sum lib/stretch/programs/* stretch.html share/doc/stretch/promises.txt
    sh vectors/run lib/stretch/programs/stretch
    sh vectors/run --ledger lib/stretch/programs/ledger

With the repository and the kit, `./check` proves, tests and builds everything, and `make dist` makes this archive of
it; docs/release.md says more. What a proof says, and what is trusted, is told in docs/TRUST.md.
"""


def text(version, commit, programs, page, log):
    """The verdict of a release; of a draft where there is no log."""
    out = [f"Stretch {version}" + (f", commit {commit}" if commit else ""), ""]
    if log is None:
        out += ["THIS IS A DRAFT. No gate was asked: nothing is said of whether these programs are proved.", ""]
    else:
        out += list(of_log(log, checked(log, programs))) + [""]
    return "\n".join([*out, *of_programs(programs, page)]) + "\n" + AGAIN

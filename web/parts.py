"""Puts the parts of a page into one file: modules of JavaScript into one script, style sheets, and a policy that names
their checksums.

A module becomes a function that gives what it exports, and takes what it imports from those before it. The page of the
whole machine (web/build) and that of one run (tools/page) are made of the same modules.
"""
import base64
import gzip
import hashlib
import json
import pathlib
import re
import sys

HERE = pathlib.Path(__file__).resolve().parent


class Failed(Exception):
    """A module has something that is not understood here."""


def read(name):
    return (HERE / name).read_text(encoding="utf-8")


def text_of(name, made):
    """The text of a module, of a file or of those that the build has made."""
    return made[name] if name in made else read(f"{name}.js")


def module(name, text):
    """A module as a function."""
    text = re.sub(r"^import \{([^}]*)\} from '\./(.*)\.js';\n", r"const {\1} = $.\2;\n", text, flags=re.M)
    names = re.findall(r"^export (?:async )?(?:function\*? |class |const |let )(\w+)", text, flags=re.M)
    text = re.sub(r"^export ", "", text, flags=re.M)
    if re.search(r"^(import|export)\b", text, flags=re.M):
        raise Failed(f"{name}.js has an import that is not understood")
    return f"$.{name} = (() => {{\n{text}return {{ {', '.join(names)} }};\n}})();\n"


def needs(name, made, found):
    """The modules that a module needs, those that others need first, and itself."""
    if name in found:
        if found[name] is None:
            raise Failed(f"{name}.js needs itself")
        return
    found[name] = None
    text = text_of(name, made)
    for other in re.findall(r"^import \{[^}]*\} from '\./(.*)\.js';$", text, flags=re.M):
        needs(other, made, found)
    del found[name]
    found[name] = text


def bundle(name, made):
    """The script that begins with a module; `made` are modules of the build's own, by their names."""
    found = {}
    needs(name, made, found)
    script = "\n'use strict';\nconst $ = {};\n" + "".join(module(one, text) for one, text in found.items())
    if re.search(r"</script|<!--", script, re.I):
        raise Failed(f"{name}.js can't stand in a page")
    return script


def constant(name, value):
    """A module that has one value."""
    return f"export const {name} = {json.dumps(value, separators=(',', ':'))};\n"


def formats():
    """The module with the tables of instructions, from where the model has them."""
    sys.path.insert(0, str(HERE.parent / "model"))
    try:
        import formats as model
    finally:
        sys.path.pop(0)
    tables = {"index": model.INDEX, "branch": model.BRANCH, "field": model.FIELD, "others": model.OTHERS,
        "connective": model.CONNECTIVE, "progressive": model.FORMS}
    return constant("FORMATS", {**tables, "writing": sorted(model.WRITING)})


def digest(text):
    return "sha256-" + base64.b64encode(hashlib.sha256(text.encode()).digest()).decode()


def packed(content):
    """Bytes, compressed, as letters."""
    return base64.b64encode(gzip.compress(content, 9, mtime=0)).decode()


def style(names):
    """Style sheets as one, with a rule by which each cause that is chosen fades the others, but not their names."""
    text = "\n" + "".join(map(read, names))
    causes = re.findall(r"^  \['(\w+)', ", read("words.js"), re.M)
    return text.replace("@FADED@", ",\n".join(f'body[data-cause="{cause}"] [data-cause]:not([data-cause="{cause}"], .name)'
        for cause in causes))


def page(template, script, styles, more, made=()):
    """A template with a script, which begins with a module, style sheets, and more parts. They are put in at once, so
    that no mark in a part is replaced. A template may have the script compressed, with one that puts it in."""
    code, css, start = bundle(script, dict(made)), style(styles), "\n" + read("start.js")
    parts = {"HASH": digest(code), "STYLEHASH": digest(css), "STARTHASH": digest(start), "STYLE": css, "SCRIPT": code,
        "PACKED": packed(code.encode()), "START": start, "PATTERNS": read("patterns.svg"), **more}
    pieces = re.split("@(" + "|".join(parts) + ")@", read(template))
    return "".join(parts[piece] if k % 2 else piece for k, piece in enumerate(pieces))

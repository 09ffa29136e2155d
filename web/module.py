"""Makes the modules of WebAssembly that the page runs: of each program of crates/ one, by the kit's clang and linker
and binaryen's wasm-opt.

A module is made of what the kit compiles, with web/shim.c. Modules are kept in the user's cache, named by a checksum
of the kit, the sources and what stands here. Where web/out/proved has what the kit compiled when it proved all three
of these sources, which web/proved has kept there, it is taken; else it is of an unproved build.
"""
import hashlib
import importlib.machinery
import importlib.util
import json
import os
import pathlib
import re
import shutil
import subprocess
import sys
import tempfile

HERE = pathlib.Path(__file__).resolve().parent
TOP = HERE.parent
PROGRAMS = ("stretch", "ledger", "chart")
KEPT_PROVED = HERE / "out" / "proved"
KEPT = 2
FLAGS = ["--target=wasm64-unknown-unknown", "-ffreestanding", "-fno-builtin", "-mbulk-memory", "-msign-ext",
    "-mnontrapping-fptoint", "-Wno-override-module"]
# The machine runs millions of instructions. -O3 makes the ledger's module half as large again, and no quicker.
LEVELS = {"stretch": "-O3", "ledger": "-O2", "chart": "-O2"}
# The crates of which the code is made small in place of quick: those that read the words of a command.
SMALL = ("clap", "indexmap", "memchr", "strsim")
LINK = ["-flavor", "wasm", "-mwasm64", "--no-entry", "--export=run", "--export-memory", "--gc-sections", "--strip-all",
    "-z", "stack-size=1048576"]
FEATURES = ["--enable-memory64", "--enable-bulk-memory", "--enable-sign-ext", "--enable-nontrapping-float-to-int"]
# A table without an element, of 64-bit places and of 32: nothing is called by it, and wasm-opt knows the second alone.
TABLE, PLAIN_TABLE = b"\x04\x05\x01\x70\x05\x01\x01", b"\x04\x05\x01\x70\x01\x01\x01"


class Failed(Exception):
    """A module could not be made; the text says why."""


def unproved():
    """The script .ci/unproved, as a module."""
    sys.dont_write_bytecode = True
    loader = importlib.machinery.SourceFileLoader("unproved", str(TOP / ".ci" / "unproved"))
    module = importlib.util.module_from_spec(importlib.util.spec_from_loader("unproved", loader))
    loader.exec_module(module)
    return module


def tool(*words):
    """Runs a tool, whose words are given."""
    try:
        done = subprocess.run(words, stdout=subprocess.PIPE, stderr=subprocess.STDOUT, check=False)
    except FileNotFoundError as error:
        raise Failed(
            f"{words[0]} is not there (wasm-opt stands in Debian's package binaryen; the rest comes with the kit)") from error
    if done.returncode:
        raise Failed(f"{words[0]} fails:\n{done.stdout.decode(errors='replace')[-2000:]}")
    return done.stdout.decode().strip()


def kit_name(kit):
    return (kit / "KIT-ID").read_text().strip()


def sources_sum():
    """The checksum of the sources from which programs are built, as .ci/start takes it, but of them alone."""
    files = [TOP / "crates.txt", *(path for path in (TOP / "crates").rglob("*") if "out" not in path.parts
        and (path.suffix == ".rt" or path.name == "crates.txt"))]
    lines = sorted((str(path.relative_to(TOP)), hashlib.sha256(path.read_bytes()).hexdigest()) for path in files)
    return hashlib.sha256("".join(f"{digest}  {name}\n" for name, digest in lines).encode()).hexdigest()


def small(code, room):
    """The words by which clang makes the functions of some crates small: a file that names each. A name with a comma
    can't stand in it."""
    functions, marks = room / "functions.txt", room / "small.csv"
    unproved().write_functions(code, functions)
    names = [name for name in functions.read_text().splitlines() if name.split("::")[0] in SMALL and "," not in name]
    marks.write_text("".join(f"{name},{mark}\n" for name in names for mark in ("optsize", "minsize")))
    return ["-mllvm", f"-forceattrs-csv-path={marks}"]


def compiled(name, code, kit, room, out):
    """The module of a program, of what the kit compiles, which is the file `code`."""
    clang, linker = kit / "toolchain/bin/clang", kit / "toolchain/bin/ld.lld"
    shutil.copyfile(code, room / "module.bc")
    flags = [LEVELS[name], *FLAGS]
    tool(clang, *flags, *small(room / "module.bc", room), "-c", room / "module.bc", "-o", room / "module.o")
    tool(clang, *flags, "-c", HERE / "shim.c", "-o", room / "shim.o")
    tool(linker, *LINK, room / "module.o", room / "shim.o", "-o", room / "linked.wasm")
    linked = (room / "linked.wasm").read_bytes()
    if linked.count(TABLE) != 1:
        raise Failed("the linked module has no table as it is known here")
    (room / "plain.wasm").write_bytes(linked.replace(TABLE, PLAIN_TABLE))
    tool("wasm-opt", *FEATURES, "--memory64-lowering", room / "plain.wasm", "-o", room / "lowered.wasm")
    shutil.move(room / "lowered.wasm", out)


def cache():
    base = os.environ.get("XDG_CACHE_HOME") or os.path.expanduser("~/.cache")
    folder = pathlib.Path(base) / "stretch" / "modules"
    folder.mkdir(parents=True, exist_ok=True)
    return folder


def one(name, kit, proved, sums, folder):
    """The file of one module, made where it does not stand yet."""
    code = proved / f"{name}.bc" if proved else None
    what = hashlib.sha256(code.read_bytes() if code else sums.encode()).hexdigest()
    more = "".join([kit_name(kit), what, (HERE / "shim.c").read_text(), (HERE / "module.py").read_text(),
        tool("wasm-opt", "--version")])
    kept = folder / f"{name}-{hashlib.sha256(more.encode()).hexdigest()[:32]}.wasm"
    if kept.exists():
        os.utime(kept)
        return kept
    print(f"web: the module of {name} is made", file=sys.stderr)
    with tempfile.TemporaryDirectory(dir=folder, prefix="module-") as place:
        room = pathlib.Path(place)
        if code is None:
            script = unproved()
            _, said = script.make_module(TOP / "crates" / name, room, {})
            code = room / "module.bc"
            if not code.exists():
                raise Failed(f"the kit made no module of {name}: {said}")
            code = code.rename(room / "unproved.bc")
        compiled(name, code, kit, room, kept)
    for old in sorted(folder.glob(f"{name}-*.wasm"), key=lambda path: path.stat().st_mtime, reverse=True)[KEPT:]:
        old.unlink(missing_ok=True)
    return kept


def proved_of(sums, kit):
    """The folder of the modules of the proved programs, where they stand and are of these sources and of this kit."""
    wanted = {"sources": sums, "kit": kit_name(kit)}
    for name in PROGRAMS:
        said, code = KEPT_PROVED / f"{name}.json", KEPT_PROVED / f"{name}.bc"
        if not said.is_file() or not code.is_file() or json.loads(said.read_text()) != wanted:
            return None
    return KEPT_PROVED


def modules():
    """Each program's module as bytes, and what is known of them: whether they are proved, of which sources, by which
    tools."""
    kit = unproved().kit()
    if not (kit / "KIT-ID").exists():
        raise Failed("the kit is not on the path (README.md, \"What it needs\")")
    sums = sources_sum()
    proved = proved_of(sums, kit)
    if proved is None:
        print("web: no modules of programs as they were proved, of these sources, stand in web/out/proved: the page "
            "is of an unproved build", file=sys.stderr)
    found = {name: one(name, kit, proved, sums, cache()).read_bytes() for name in PROGRAMS}
    return found, {"proved": bool(proved), "sources": sums, "kit": kit_name(kit),
        "lowering": re.sub(r" *\(.*", "", tool("wasm-opt", "--version")),
        "version": (TOP / "VERSION").read_text().strip()}

#!/usr/bin/env python3
"""What the gate looks at, as checksums: the gate says them before and behind its work, and a release compares them with what it takes.

usage: release/sums.py [NAME=PROGRAM ..]      writes them as lines `gate: ..`, those of the programs behind them
"""
import hashlib
import pathlib
import shutil
import sys

HERE = pathlib.Path(__file__).resolve().parent
TOP = HERE.parent
sys.dont_write_bytecode = True
sys.path.insert(0, str(TOP / "web"))
import module  # noqa: E402

# What is made, and what belongs to git.
LEFT_OUT = {"out", "dist", ".git", "__pycache__"}
ENDINGS = {".log", ".pyc"}


def sum_of(path):
    return hashlib.sha256(pathlib.Path(path).read_bytes()).hexdigest()


def files(folder=TOP):
    """All files of the checkout but what is made in it, by their paths."""
    for path in sorted(folder.iterdir()):
        if path.name in LEFT_OUT or path.suffix in ENDINGS:
            continue
        if path.is_dir() and not path.is_symlink():
            yield from files(path)
        else:
            yield path


def files_sum():
    """The checksum of all files of the checkout, by their names and contents."""
    named = sorted((str(path.relative_to(TOP)), path) for path in files())
    return hashlib.sha256("".join(f"{sum_of(path)}  {name}\n" for name, path in named).encode()).hexdigest()


def kit_name():
    """The line by which the kit calls itself; none where there is no kit."""
    found = shutil.which("rt")
    path = pathlib.Path(found).resolve().parent.parent / "KIT-ID" if found else None
    return path.read_text().strip() if path and path.is_file() else "none"


def sums():
    """What is said of the checkout as it stands."""
    return {"sources": module.sources_sum(), "files": files_sum(), "kit": kit_name()}


def main(words):
    for name, said in sums().items():
        print(f"gate: {name} {said}")
    for word in words:
        name, _, path = word.partition("=")
        print(f"gate: program {name} {sum_of(path) if pathlib.Path(path).is_file() else 'none'}")


if __name__ == "__main__":
    main(sys.argv[1:])

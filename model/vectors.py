"""Reads the files of vectors/ and of examples/. Follows vectors/README.md, "The form of the files"."""
import re
from dataclasses import dataclass
from pathlib import Path

HOME = Path(__file__).resolve().parent.parent
VECTORS = HOME / 'vectors'


@dataclass
class Vector:
    name: str
    words: list
    program: str = 'stretch'
    job: bytes = b''
    status: int = 0
    written: bytes = b''


def spelled(text):
    """A text in which \\012 is a byte and \\*80*A is eighty times A."""
    def one(found):
        times, repeated, octal = found.groups()
        return repeated * int(times) if times else bytes([int(octal, 8)])
    return re.sub(rb'\\(?:\*(\d+)\*(.)|([0-7]{3}))', one, text)


def job_line(line):
    if line.startswith(b'%'):
        return spelled(line[1:])
    if line.startswith(b'@'):
        times, _, card = line[1:].partition(b' ')
        return b''.join(card.replace(b'#', b'%d' % k, 1) + b'\n' for k in range(1, int(times) + 1))
    return line + b'\n'


def read_family(path):
    """The vectors of a file, one after another."""
    vectors, given = [], True
    family = path.relative_to(VECTORS).with_suffix('')
    program = 'stretch' if family.parent == Path() else str(family.parent)
    for line in path.read_bytes().split(b'\n')[:-1]:
        if line.startswith(b'= '):
            vectors.append(Vector(f'{family}/{line[2:].decode()}', ['run'], program))
            given = True
        elif line[:2] in (b'$', b'$ '):
            vectors[-1].words = line[1:].decode().split()
        elif line.startswith(b'> '):
            vectors[-1].status, given = int(line[2:]), False
        elif given:
            vectors[-1].job += job_line(line)
        else:
            vectors[-1].written += job_line(line) if line.startswith(b'@') else line + b'\n'
    return vectors


def families():
    """The files of vectors: those of ./stretch, and those of the ledger, which stand in a folder."""
    return sorted(VECTORS.glob('*.txt')) + sorted(VECTORS.glob('ledger/*.txt'))


def examples():
    decks = sorted((HOME / 'examples').glob('*/deck.txt'))
    return [Vector(f'examples/{deck.parent.name}', ['run'], 'stretch', deck.read_bytes(), 0,
                   deck.with_name('report.txt').read_bytes()) for deck in decks]

"""The commands, with their exit statuses. Follows docs/running.md, "Exit statuses", and the usage in docs/stretch.1."""
import re

import assembler
import deckmaker
import disassemble
import ledger
import objects
from program import Refused
from report import report
from sweep import sweep

JOB = 2_000_000                 # bytes that a job may have
MOST_ROWS = 10_000_000           # the last row that a ledger is asked for
NO_COMMAND, TOO_LONG = 2, 3


def text(lines):
    return ''.join(line + '\n' for line in lines).encode('latin-1')


COMMANDS = {
    'run': lambda job: text(report(assembler.assemble(job))),
    'assemble': lambda job: objects.write_object(assembler.assemble(job)),
    'load': lambda job: text(report(objects.read_object(job))),
    'disassemble': lambda job: disassemble.disassemble(objects.read_object(job)),
    'sweep': lambda job: text(sweep(assembler.assemble(job)))}


def soak(words):
    """The made deck of two numbers, run; None where they are none."""
    if len(words) != 2 or not all(word.isascii() and word.isdigit() and len(word) <= 20 for word in words):
        return None
    number, cards = map(int, words)
    if number >= 1 << 64 or not 1 <= cards <= 4000:
        return None
    return text(report(assembler.assemble(deckmaker.made_deck(number, cards)), [f'SOAK {number} {cards}']))


def answer(words, read):
    """What is written and the exit status. `read` gives the job's bytes; it is called where a command wants them."""
    if words[:1] == ['soak']:
        written = soak(words[1:])
        return (b'', NO_COMMAND) if written is None else (written, 0)
    if len(words) != 1 or words[0] not in COMMANDS:
        return b'', NO_COMMAND
    return answer_of(COMMANDS[words[0]], read)


def answer_of(command, read):
    job = read()
    if len(job) > JOB:
        return b'', TOO_LONG
    try:
        return command(job), 0
    except Refused as refused:
        return refused.line(), 1


def rows_asked(words):
    """Of the words `rows FROM TO` the two numbers; None where they are none."""
    if len(words) != 3 or not all(re.fullmatch('[1-9][0-9]{0,7}', word) for word in words[1:]):
        return None
    first, last = map(int, words[1:])
    return (first, last) if first <= last <= MOST_ROWS else None


def form_of(words):
    """What the words behind the number of levels ask for: it gives the lines of a program on so many levels; None where they are none."""
    if not words:
        return ledger.ledger
    if words == ['sums']:
        return ledger.totals
    rows = rows_asked(words) if words[0] == 'rows' else None
    return rows and (lambda program, levels: ledger.part(program, levels, *rows))


def ledger_lines(words, read):
    """The same of the program `ledger` (docs/ledger.md), but that what is written comes line by line."""
    levels, rest = (int(words[0]), words[1:]) if words and re.fullmatch('[1-8]', words[0]) else (4, words)
    lines = form_of(rest)
    if lines is None:
        return [], NO_COMMAND
    written, status = answer_of(lambda job: lines(assembler.assemble(job), levels), read)
    return ([written] if status else (text([line]) for line in written)), status


def ledger_answer(words, read):
    lines, status = ledger_lines(words, read)
    return b''.join(lines), status


PROGRAMS = {'stretch': answer, 'ledger': ledger_answer}

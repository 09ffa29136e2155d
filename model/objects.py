"""Object texts written and read. Follows docs/object-text.md."""
import re

from cards import CONTROLS, Controls
from program import Fault, Program, Refused


def often(kind):
    """How often a line of a request stands."""
    return ('+' if kind.default else '*') if kind.most > 1 else '1' if kind.default else '?'


# The lines of requests by their keywords: a delay has a line of its own, and a listing none.
REQUESTS = {'DELAY' if kind.keyword == 'DELAYS' else kind.keyword: kind for kind in CONTROLS if kind.keyword != 'LIST'}
# The kinds of lines in their order: keyword, how many numbers, and how often it stands (`1` once, `?` once or not,
# `+` once or more, `*` any number of times).
KINDS = [
    ('OBJECT', 0, '1'), ('START', 1, '1'), ('W', 2, '*'),
    *((keyword, kind.numbers, often(kind)) for keyword, kind in REQUESTS.items()), ('FIN', 0, '1')]
PLACE = {keyword: place for place, (keyword, _, _) in enumerate(KINDS)}
NUMBER = re.compile('0|[1-9][0-9]{0,11}')


def write_object(program):
    return ''.join(line + '\n' for line in lines_of(program)).encode()


def lines_of(program):
    controls = program.controls
    yield 'OBJECT'
    yield f'START {program.start // 64}.{program.start % 64}'
    yield from (f'W {word} {program.words[word]:016X}' for word in sorted(program.words) if program.words[word])
    for keyword, kind in REQUESTS.items():
        yield from requests_of(controls, kind, keyword)
    yield 'FIN'


def requests_of(controls, kind, word):
    """The requests of a kind, a line or card each, which begins with a word."""
    return (' '.join([word, *map(str, numbers)]) for numbers in controls.requests(kind))


def read_object(text):
    """The program of an object text; raises Refused with the number of its bad line."""
    program, before = Program({}, 0, Controls()), ''
    *lines, rest = text.decode('latin-1').split('\n')
    for number, line in enumerate(lines + [rest] * (rest != ''), 1):
        try:
            add_line(program, before, line)
        except Fault:
            raise Refused(number, 'BAD OBJECT CARD') from None
        before = line.split(' ')[0]
    if before != 'FIN' or rest:
        raise Refused(len(lines) + (rest != '') + 1, 'BAD OBJECT CARD')
    return program


def want(condition):
    if not condition:
        raise Fault('BAD OBJECT CARD')


def add_line(program, before, line):
    """Adds what a line says; `before` is the keyword of the line before it."""
    keyword, *numbers = line.split(' ')
    want(keyword in PLACE and len(numbers) == KINDS[PLACE[keyword]][1] and may_follow(before, keyword))
    if keyword == 'START':
        add_start(program, numbers[0])
    elif keyword == 'W':
        add_word(program, *numbers)
    elif keyword not in ('OBJECT', 'FIN'):
        want(all(map(NUMBER.fullmatch, numbers)))
        program.controls.add(REQUESTS[keyword], [int(number) for number in numbers])


def may_follow(before, keyword):
    """Whether a line of one kind may stand behind one of another: none that has to stand is passed over."""
    first, last = PLACE.get(before, -1), PLACE[keyword]
    if first == last:
        return KINDS[last][2] in '+*'
    return first < last and all(often in '?*' for _, _, often in KINDS[first + 1:last])


def add_start(program, place):
    word, _, bit = place.partition('.')
    want(NUMBER.fullmatch(word) and int(word) < 1 << 18 and bit in ('0', '32'))
    program.start = 64 * int(word) + int(bit)


def add_word(program, word, digits):
    want(NUMBER.fullmatch(word) and re.fullmatch('[0-9A-F]{16}', digits))
    w, value = int(word), int(digits, 16)
    want(value and next(reversed(program.words), 31) < w <= 98303)
    program.words[w] = value

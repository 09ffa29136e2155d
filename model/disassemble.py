"""The deck of a program. Follows docs/disassembly.md."""
import assembler
import cards
import formats
import objects
import statements
from program import Fault, Refused


def disassemble(program):
    """The deck, as bytes; raises Refused where it would have too many cards."""
    deck = [*statements_of(program), *control_cards(program)]
    if len(deck) > cards.MOST_CARDS:
        raise Refused(cards.MOST_CARDS + 1, 'TOO MANY CARDS')
    return ''.join(card + '\n' for card in deck).encode()


def statements_of(program):
    words = program.words
    for word in sorted(words):
        if words[word]:
            if not words.get(word - 1):
                yield f'         SLC,{word}.0'
            yield from ('         ' + text for text in texts_of(words[word]))
    yield f'         END,{assembler.place_text(program.start)}'


def control_cards(program):
    for kind in objects.REQUESTS.values():
        yield from objects.requests_of(program.controls, kind, '/' + kind.keyword)


def texts_of(word):
    """The statements that emit a word: an instruction, two of them, or a number."""
    halves = word >> 32, word & 0xFFFFFFFF
    if formats.is_full(halves[0]):
        texts = [spelling(halves, word)]
    else:
        texts = [None if formats.is_full(half) else spelling((half, 0), half) for half in halves]
    return [f'DD(BU,64),{word}'] if None in texts else texts


def spelling(halves, bits):
    """The text of an instruction, or None where it has no spelling."""
    made = formats.decode(*halves)
    if not made.valid or made.group == 'floating':
        return None
    text = ','.join([operation_text(made), *fields_of(made)])
    return text if len(text) <= 63 and gives(text, bits) else None


def gives(text, bits):
    """Whether the assembler emits these bits for a text."""
    try:
        return assembler.emitted(statements.read('', text), {})[0] == bits
    except Fault:
        return False


def operation_text(made):
    if made.group == 'connective':
        return f'{made.name}{made.table:04b}(BU,{made.length},{made.byte})' + form_text(made)
    if made.group == 'field':
        mode = 'BD'[made.decimal] + 'U' * made.unsigned
        return f'{made.name}{"N" * made.negated}({mode},{made.length},{made.byte})' + form_text(made)
    if made.name == 'BB':
        return f'BB{made.sense}' + ' ZSV'[made.after].strip()
    if made.name == 'BI':
        return f'BI{made.sense}' + 'Z' * made.after
    return made.name


def form_text(made):
    forms = {1: 'IM'} | formats.FORMS
    return f'({forms[made.form]})' if made.form else ''


def fields_of(made):
    """The fields of an instruction as texts."""
    if made.name in ('BEW', 'NOP'):
        return []
    if made.name == 'LVS':
        return [f'$X{j}' for j in [made.j, *made.list]]
    if made.name == 'R':
        return [f'$X{made.j}']
    address = assembler.place_text(made.address) + (f'($X{made.i})' if made.i else '')
    if made.group in ('field', 'connective'):
        return [address] + [str(made.offset)] * (made.offset > 0)
    if made.group == 'two':
        fields = [address, assembler.place_text(32 * made.second)]
        return fields + [str(made.count)] * (made.name in ('T', 'SWAP'))
    if made.group == 'order':
        return [address, str(made.count)]
    return [address] if made.group == 'branch' or made.name == 'EX' else [f'$X{made.j}', address]

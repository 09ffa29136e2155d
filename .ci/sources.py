"""What stands in the sources: definitions, laws with their lemmas, calls with their clauses, types, claims.

It reads names and no types: what a name means is found by the `use` lines of its file. Of a text it makes a list of words in which an
imported name is told whole, and in definitions a bound variable by a number, so that layout, comments, aliases and the names of bound
variables make no difference.
"""
import collections
import pathlib
import re

TOP = pathlib.Path(__file__).resolve().parent.parent
CRATES = TOP / 'crates'
# Crates that hold tests alone.
TESTS = {'st_calls'}

WORD = r"[\w'«»-]+"
TAKEN = re.compile(r'^ *(?:ghost )?use Rattle\.([\w.]+)\.\{([^}]*)\};?$', re.MULTILINE)
NAMED = re.compile(r'^ *(?:ghost )?use Rattle\.([\w.]+) as (\w+);?$', re.MULTILINE)
WITHIN = re.compile(r"^ +(?:(?:abbrev|unfoldable) pub|pub record|pub data) ([\w'-]+)", re.MULTILINE)
AT_MARGIN = re.compile(r"^(?:abbrev |unfoldable )?(?:pub )?(?:record |data )?(?:pub )?(?!(?:module|pub)\b)([\w'-]+)(?= .*:)", re.MULTILINE)
FIELD = re.compile(r"^ +(?:pub )?([\w'«»]+) :", re.MULTILINE)
# Words of the language, and two that only say how far a proof opens a definition.
KEYWORDS = {'if', 'then', 'else', 'let', 'in', 'record', 'where', 'data', 'pub', 'module', 'open', 'as'}
OPENING = {'abbrev', 'unfoldable'}
# What code brings of other code.
USED = re.compile(r'^use ((?:\w+::)*)(\{[^}]*\}|\w+(?: as \w+)?);$', re.MULTILINE)
OVER = re.compile(r'^module _ (.*?) where$', re.MULTILINE | re.DOTALL)

Call = collections.namedtuple('Call', 'crate file kind name public signature clauses scope head')
Law = collections.namedtuple('Law', 'crate module name lemma sentence held')
Claim = collections.namedtuple('Claim', 'line title text names')


class Scope:
    """What the `use` lines of a text bring: names, each with the place where it is defined, and modules under another name. A block of a
    file sees what the file brings too, but for names of its own."""

    def __init__(self, text, outer=None):
        self.names, self.modules, self.code = {}, {}, {}
        for place, names in TAKEN.findall(text):
            for name in names.split(','):
                first, _, other = name.strip().partition(' as ')
                if first:
                    self.bring(self.names, other.strip() or first.strip(), f'{place}.{first.strip()}')
        for place, name in NAMED.findall(text):
            self.bring(self.modules, name, place)
        for path, names in USED.findall(text):
            for name in names.strip('{}').split(','):
                first, _, other = name.strip().partition(' as ')
                self.code[(other or first).split('::')[-1].strip()] = f'{path}{first.strip()}'
        if outer:
            self.names, self.modules, self.code = outer.names | self.names, outer.modules | self.modules, outer.code | self.code

    def bring(self, names, name, place):
        if names.get(name, place) != place:
            raise SystemExit(f'sources: {name} is brought from {names[name]} and from {place}')
        names[name] = place

    def find(self, head, fields):
        """The place of a word `head.field.field`, and the fields that are left of it; None where the file doesn't bring it."""
        if head in self.names:
            return self.names[head], fields
        if head in self.modules and fields:
            return f'{self.modules[head]}.{fields[0]}', fields[1:]
        return None, fields


def split_words(text, comment='--'):
    """The words of a text, comments left out: brackets and commas by themselves."""
    text = re.sub(rf'(^|\s){comment}.*', r'\1', text, flags=re.MULTILINE)
    return re.findall(r'"(?:[^"\\\n]|\\.)*"|[(){}\[\],;]|(?:(?!")[^\s(){}\[\],;])+|"', text)


def is_given(words, at):
    """Whether a word is a field of a record that gets a value, as in `record { field = value; .. }`."""
    return 0 < at < len(words) - 1 and words[at - 1] in ('{', ';') and words[at + 1] == '='


def parts_of(word):
    """A word `head.field.field.` as head, fields and whether a dot ends it, as behind a bound variable; None where it is a symbol."""
    found = re.fullmatch(rf'({WORD})((?:\.{WORD})*)(\.?)', word)
    return found and (found[1], found[2].split('.')[1:], found[3])


class Definitions:
    """The definitions of all crates: for each place `crate.specs.Module.name` its lines and words."""

    def __init__(self):
        self.lines, self.words, self.below, self.code = {}, {}, {}, {}
        self.scopes, self.files = {}, {}
        texts = {path: path.read_text() for path in sorted(CRATES.glob('*/specs/*.antt'))}
        self.fields = {name for text in texts.values() for name in FIELD.findall(text)}
        for path, text in texts.items():
            self.read(f'{path.parts[-3]}.specs.{path.stem}', text)
        for place in self.lines:
            self.tell(place)

    def read(self, file, text):
        """Takes the blocks of a file, which blank lines part."""
        self.scopes[file] = Scope(text)
        over = ' '.join(re.sub(r'\s+', ' ', found) for found in OVER.findall(text))
        self.files[file] = over, set(re.findall(WORD, over))
        for block in re.split(r'\n\s*\n', text):
            lines = [line for line in block.split('\n') if not re.match(r'(pub )?use ', line) and line.strip()]
            code = '\n'.join(line for line in lines if not line.lstrip().startswith('--'))
            for name in WITHIN.findall(code) + AT_MARGIN.findall(code):
                self.lines[f'{file}.{name}'] = len(lines)
                self.code[f'{file}.{name}'] = code

    def place(self, file, head, fields):
        """Where a word of a file is defined, and the fields left of it: here, in another file, or nowhere that is known."""
        if f'{file}.{head}' in self.lines:
            return f'{file}.{head}', fields
        return self.scopes[file].find(head, fields)

    def own(self, place):
        """A place as that of the definition in which it stands, if there is one: a constructor stands in its type."""
        parts = place.split('.')
        for last in range(len(parts), 3, -1):
            if '.'.join(parts[:last]) in self.lines:
                return '.'.join(parts[:last])
        return None

    def tell(self, place):
        """Finds the words of a definition, and the definitions that it names."""
        file, code = place.rsplit('.', 1)[0], self.code[place]
        over, bound_by_module = self.files[file]
        margin = min(len(line) - len(line.lstrip()) for line in code.split('\n') if line.strip())
        told, below = [over] if margin else [], set()
        for statement in re.split(rf'\n(?= {{{margin}}}\S)', code):
            bound = {}
            words = split_words(statement)
            for at, word in enumerate(words):
                parts = parts_of(word)
                if word in OPENING:
                    continue
                if not parts or word in KEYWORDS:
                    told.append(word)
                    continue
                head, fields, dot = parts
                found, left = self.place(file, head, fields)
                if found:
                    below.add(self.own(found))
                    told.append('.'.join([found, *left]) + dot)
                elif (re.match(r"[a-z_]", head) and head not in self.fields and head not in bound_by_module
                      and not is_given(words, at)):
                    told.append('.'.join([str(bound.setdefault(head, f'%{len(bound)}')), *fields]) + dot)
                else:
                    told.append(word)
        told += symbols_of(self.scopes[file], told)
        self.words[place] = ' '.join(told)
        self.below[place] = below - {None, place}

    def reach(self, places):
        """All definitions that these unfold to, themselves among them: each with the number of steps to it."""
        steps, waiting = {}, collections.deque((place, 0) for place in places)
        while waiting:
            place, step = waiting.popleft()
            if place in steps or place not in self.lines:
                continue
            steps[place] = step
            waiting.extend((one, step + 1) for one in sorted(self.below[place]))
        return steps

    def count_lines(self, places):
        """How many lines these definitions have: what stands in one block counts once."""
        return sum(dict(((place.rsplit('.', 1)[0], self.code[place]), self.lines[place]) for place in places).values())


def symbols_of(scope, words):
    """The operators among the words that a file brings, each with the place where it is defined."""
    brought = {name: place for name, place in scope.names.items() if not re.fullmatch(WORD, name)}
    pieces = set(words)
    return sorted(f'{name}={place}' for name, place in brought.items() if all(part in pieces for part in name.split('◌') if part))


def code_words(scope, text):
    """The words of a piece of code, and the places of the names in it that the file brings."""
    told, named = [], set()
    for word in split_words(text, '//'):
        parts = parts_of(word)
        found, left = scope.find(parts[0], parts[1]) if parts else (None, [])
        if found:
            named.add(found)
            told.append('.'.join([found, *left]) + parts[2])
        elif word.startswith('"'):
            told.append(word)
        else:
            told.append(re.sub(r'[A-Za-z_]\w*', lambda name: scope.code.get(name[0], name[0]), word))
    return ' '.join(told + symbols_of(scope, told)), named


def head_end(text, at):
    """The pieces of a function's head that begins at a place of a text: signature, and clauses as (word, text)."""
    depth, start, clauses, mode = 0, at, [], 'signature'
    signature = None
    while at < len(text):
        if text.startswith('//', at):
            at = text.find('\n', at)
            continue
        letter = text[at]
        word = re.match(r'(requires|ensures)\b', text[at:at + 9]) if depth == 0 and not re.match(r'\w', text[at - 1]) else None
        if word:
            if mode == 'signature':
                signature = text[start:at]
            mode, start = word[1], at
            at += len(word[1])
            continue
        if letter == '{' and depth == 0 and mode == 'signature' or letter == ';' and depth == 0:
            return signature if signature is not None else text[start:at], clauses
        if letter in '([{':
            depth += 1
        elif letter in ')]}':
            depth -= 1
            if letter == '}' and depth == 0 and mode != 'signature':
                clauses.append((mode, text[start:at + 1]))
                mode, start = 'between', at + 1
        elif mode == 'between' and not letter.isspace():
            return signature, clauses
        if mode == 'between' and letter == '{':
            return signature, clauses
        at += 1
    return signature or '', clauses


def ends_block(lines, start, at):
    """Whether a block that begins in one line of a file ends in another."""
    return lines[at].startswith('}') or at == start and lines[at].endswith('{}')


def blocks_of(text):
    """The blocks of a file that begin with `impl` or `trait`: for each line in one where it begins, its head and what it sees."""
    lines, found, at = text.split('\n'), {}, 0
    outer = Scope('\n'.join(line for line in lines if not line.startswith(' ')))
    while at < len(lines):
        if re.match(r'(pub )?(impl|trait)\b', lines[at]):
            end = next((k for k in range(at, len(lines)) if ends_block(lines, at, k)), len(lines) - 1)
            body = '\n'.join(lines[at:end + 1])
            found.update(dict.fromkeys(range(at, end + 1), (at, body[:body.find('{')], Scope(body, outer))))
            at = end
        at += 1
    return outer, found


def kind_of(lines, at):
    """The type of an `impl` or the trait that a line begins, and the trait that is written for it."""
    head = lines[at]
    while '{' not in head and at + 1 < len(lines):
        at += 1
        head += ' ' + lines[at]
    head = head[:head.find('{')]
    while re.search(r'<[^<>]*>', head):
        head = re.sub(r'<[^<>]*>', '', head)
    named = re.search(r"(?:impl|trait)\s+(?:((?:\w+::)*\w+)\s+for\s+)?&?(?:'\w+ )?(?:mut )?(?:\w+::)*(\w+)", head)
    return (named[2], named[1]) if named else (None, None)


def code_files():
    """Each source file but tests, with its crate and text."""
    for path in sorted(CRATES.glob('*/src/**/*.rt')):
        if 'tests' not in path.name:
            yield path.relative_to(CRATES).parts[0], path, path.read_text()


def calls():
    """Each function, with its clauses. What is `pub`, what a trait has and what is written for a trait is public. The head of its block is
    part of its signature."""
    for crate, path, text in code_files():
        lines, offset = text.split('\n'), 0
        outer, blocks = blocks_of(text)
        for at, line in enumerate(lines):
            named = re.match(r'( *)(pub )?(?:pub\(crate\) )?(?:const )?fn (\w+)', line)
            if named:
                start, head, scope = blocks.get(at, (None, '', outer))
                kind, trait = kind_of(lines, start) if start is not None else (None, None)
                signature, clauses = head_end(text, offset)
                of_trait = start is not None and (trait is not None or re.match(r'(pub )?trait', lines[start]) is not None)
                whole = f'{kind} as {trait}' if trait else kind
                yield Call(crate, path.stem, whole, named[3], bool(named[2]) or of_trait, signature, clauses, scope, head)
            offset += len(line) + 1


def types():
    """Each type and trait, and what a block of methods says of a type beside functions: (crate, file, name, public, text, scope)."""
    item = r'^(pub(?:\(crate\))? )?(?:struct|enum|trait|type) (\w+)(?:[^{;]*;|[^\n]*\{\}$|.*?^\})'
    for crate, path, text in code_files():
        outer, blocks = blocks_of(text)
        for found in re.finditer(item, text, re.MULTILINE | re.DOTALL):
            body = found[0]
            if re.match(r'(pub )?trait', body):
                body = re.sub(r'^    (?:const )?fn .*?;$', '', body, flags=re.MULTILINE | re.DOTALL)
            scope = blocks.get(text.count('\n', 0, found.start()), (None, '', outer))[2]
            yield crate, path.stem, found[2], found[1] == 'pub ', body, scope
        lines = text.split('\n')
        for start, head, scope in {block[0]: block for block in blocks.values()}.values():
            end = next(k for k in range(start, len(lines)) if ends_block(lines, start, k))
            ghosts = re.findall(r'^    ghost (?!use)\w+ = \{.*?\};$', '\n'.join(lines[start:end + 1]), re.MULTILINE | re.DOTALL)
            kind, trait = kind_of(lines, start)
            if ghosts:
                yield crate, path.stem, f'{kind} as {trait}' if trait else kind, True, '\n'.join([head, *ghosts]), scope


def constants():
    """Each constant of the code: (crate, file, name, text)."""
    for crate, path, text in code_files():
        for found in re.finditer(r'^(?:pub(?:\(crate\))? )?const (\w+): [^;]*?=[^;]*;', text, re.MULTILINE):
            yield crate, path.stem, found[1], found[0]


def sentence(lines, at):
    """The comment that stands above a line."""
    text = []
    while at and lines[at - 1].startswith('--'):
        at -= 1
        text.insert(0, lines[at][2:].strip())
    return ' '.join(text)


def is_held(crate, module, name, lemma):
    """A law has a lemma of its name in the file of proofs of its own name, whose type is the statement that stands in specs and no other
    thing of that name; and both files are among those that the kit proves."""
    folder = CRATES / crate
    proofs = folder / 'proofs' / f'{module}.antt'
    listed = all(re.search(rf'^(pub )?mod {module}$', (folder / side / 'Lib.antt').read_text(), re.MULTILINE)
                 for side in ('specs', 'proofs') if (folder / side / 'Lib.antt').exists())
    if not proofs.exists() or not listed:
        return False
    text = proofs.read_text()
    brought = Scope(text).names.get(name) == f'{crate}.specs.{module}.{name}'
    again = re.search(rf'^ *(?:abbrev |unfoldable )?(?:pub )?(?:record |data )?(?:pub )?{name}\b(?! *$)[^\n]*[:=]', text, re.MULTILINE)
    return brought and not again and re.search(rf'^pub {lemma} : {name}$', text, re.MULTILINE) is not None


def laws():
    """Each law: a statement in a file crates/*/specs/*Laws.antt (names that begin with Is or Are are predicates of theirs)."""
    for path in sorted(CRATES.glob('*/specs/*Laws.antt')):
        crate, lines = path.parts[-3], path.read_text().split('\n')
        for at, line in enumerate(lines):
            named = re.match(r'(?:abbrev |unfoldable )?pub (?:record )?([A-Z]\w*) .*: Type 0', line)
            if named and not re.match(r'(Is|Are)[A-Z]', named[1]):
                lemma = re.sub(r'(?<!^)([A-Z]|(?<![0-9])[0-9])', r'_\1', named[1]).lower()
                yield Law(crate, path.stem, named[1], lemma, sentence(lines, at), is_held(crate, path.stem, named[1], lemma))


def claims(path=TOP / 'docs' / 'CLAIMS.md'):
    """The claims of a page: a point of a list in a section each, with the names that are said to carry it."""
    section, text = None, path.read_text()
    for found in re.finditer(r'^## (.*)$|^- .*(?:\n(?!- |## |\n).*|\n\n  .*)*', text, re.MULTILINE):
        if found[1]:
            section = found[1]
        elif section and '*Carried by*' in found[0]:
            words = re.sub(r'\s+', ' ', found[0][2:]).strip()
            carried = ' '.join(re.findall(r'\*Carried by\*(.*?)(?=\*Also offered\*|$)', words))
            title = ' '.join(re.split(r'(?<=[.;:,]) |\*Carried', words)[0].split()[:9]).rstrip('.,;:')
            yield Claim(text.count('\n', 0, found.start()) + 1, f'{section}: {title}', words, re.findall('`([^`]+)`', carried))


def headline():
    """The clauses of the one call that `main` makes, as (word, text), and the places that these name."""
    for call in calls():
        if (call.crate, call.file, call.kind, call.name) == ('st_top', 'program', None, 'stretch'):
            named = set()
            for _, text in call.clauses:
                named |= code_words(call.scope, text)[1]
            return call.clauses, sorted(named)
    return [], []

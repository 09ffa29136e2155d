// A deck that is refused: what its fault says, the likeliest causes, and repairs that the program itself has tried
// before they are offered.
// What is known of faults and operations is the data in tools/knowledge, which tools/why reads too.
import { h } from './dom.js';
import { READ, STATEMENT, controlOf, endOf, linesOf, operationOf } from './decks.js';
import { listed, plural } from './words.js';

const SPELT = { ä: 'AE', ö: 'OE', ü: 'UE', ß: 'SS' };
const BLANKS = ' '.repeat(STATEMENT);
// The card END that a deck lacks: a run begins at START where a card has that name.
const endCard = (lines) => `${BLANKS}END,${lines.some((one) => /^ START\b/.test(one)) ? 'START' : '32.0'}`;
const MOST_OFFERED = 3;
const MOST_TRIED = 28;
const MOST_CAUSES = 10;

// The card and the fault that an answer of the program names, or none.
export function faultOf(report) {
  const found = /^CARD (\d+) ([A-Z ]+)\n?$/.exec(report);
  return found ? { card: Number(found[1]), fault: found[2] } : null;
}

// How many letters have to change, be put in, left out or swapped, up to two.
function distance(a, b) {
  const rows = Array.from({ length: a.length + 1 }, (_, i) => [i, ...Array(b.length).fill(0)]);
  for (let j = 0; j <= b.length; j += 1) rows[0][j] = j;
  for (let i = 1; i <= a.length; i += 1) {
    for (let j = 1; j <= b.length; j += 1) {
      const change = a[i - 1] === b[j - 1] ? 0 : 1;
      rows[i][j] = Math.min(rows[i - 1][j] + 1, rows[i][j - 1] + 1, rows[i - 1][j - 1] + change);
      if (i > 1 && j > 1 && a[i - 1] === b[j - 2] && a[i - 2] === b[j - 1]) rows[i][j] = Math.min(rows[i][j],
        rows[i - 2][j - 2] + 1);
    }
  }
  return rows[a.length][b.length];
}

// ---- cards that may be meant: [what was done, the card]

function ofCharacters(line) {
  const plain = line.replace(/[ÄÖÜäöüß]/g, (letter) => SPELT[letter.toLowerCase()]).normalize('NFD')
    .replace(/[\u0300-\u036f]/g, '').replace(/\t/g, '        ').replace(/[\u2010-\u2015\u2212]/g, '-')
      .replace(/[\u2018\u2019]/g, "'").replace(/\u00a0/g, ' ').replace(/[^\x20-\x7e]/g, '');
  return [['capitals', line[0] === '*' ? line : line.toUpperCase()], ['only characters of a card', plain],
    ['80 characters', line.slice(0, 80).trimEnd()]];
}

function ofColumns(line) {
  const words = line.trim().toUpperCase();
  if (/^[*/]/.test(words)) return [['in column 1', words]];
  const named = /^([A-Z][A-Z0-9]{0,7})\s+(\S.*)$/.exec(words);
  const made = [['the statement in column 10', BLANKS + words]];
  if (named) made.push(['the name in column 2, the statement in column 10',
    ` ${named[1].padEnd(STATEMENT - 1)}${named[2]}`]);
  return [...made, ...made.flatMap(([what, text]) => ofCommas(text)
    .map(([more, card]) => [`${what}, and ${more}`, card]))];
}

// A name and an operation that stand on a card as words of their own, outside their columns: [name, operation], or
// none.
function misplaced(line, isOperation) {
  if (/^[*/]/.test(line) || line.slice(1, STATEMENT).trim()) {
    const inNames = /^ ?([A-Za-z][A-Za-z0-9]*) +([^ ].*)$/.exec(line);
    return inNames && line.indexOf(inNames[2]) < STATEMENT && isOperation(firstOf(inNames[2]))
      ? [inNames[1], firstOf(inNames[2])] : null;
  }
  const found = /^([A-Za-z][A-Za-z0-9]{0,7}) +([^ ].*)$/.exec(line.trim());
  return found && isOperation(firstOf(found[2])) ? [found[1], firstOf(found[2])] : null;
}

// The operation with which a statement begins.
function firstOf(statement) {
  return operationOf(BLANKS + statement.split(/\s+/)[0]);
}

// The card with its name in column 2 and its statement in column 10, where its words can be told apart; else the card.
function aligned(line, isOperation) {
  if (/^[*/]/.test(line) || !line.trim()) return line;
  const [first, second = ''] = line.trim().split(/\s+/, 2);
  const isName = /^[A-Za-z][A-Za-z0-9]{0,7}$/.test(first);
  const named = () => ` ${first.padEnd(STATEMENT - 1)}${line.trim().slice(first.length).trim()}`;
  if (isName && isOperation(firstOf(second))) return named();
  const isInColumns = /^ (?:[A-Za-z][A-Za-z0-9]*)? *$/.test(line.slice(0, STATEMENT)) && isOperation(operationOf(line));
  if (isInColumns) return line.slice(0, STATEMENT).padEnd(STATEMENT) + line.slice(STATEMENT).trimStart();
  return isOperation(firstOf(first)) ? BLANKS + line.trim() : line;
}

// All cards up to the end in their columns; those behind it are the reader's.
function alignedDeck(lines, isOperation) {
  const made = lines.map((line) => aligned(line, isOperation));
  const end = endOf(made);
  return made.map((line, k) => (k > end ? lines[k] : line));
}

function ofCommas(line) {
  const comma = (text) => text.replace(/^(.{9}[^ ,(]+(?:\([^)]*\))*) +(?=[^ ;])/, '$1,');
  const dollar = (text) => text.replace(/([,(+-])X(\d)/g, '$1$$X$2');
  return [['a comma', comma(line)], ['a $ before X', dollar(line)], ['a comma and a $', dollar(comma(line))],
    ['a comma', line.replace(/(\$X\d+) +(?=[\w$])/, '$1,')]];
}

// Another word for the operation: what the word of another machine stands for, or what is written nearly so.
function ofOperation(line, { operations, elsewhere }) {
  const word = operationOf(line);
  const at = line.indexOf(word, STATEMENT);
  if (!word || at < 0) return [];
  const put = (operation) => line.slice(0, at) + operation + line.slice(at + word.length);
  const said = (names) => names.map((name) => [`${name} for ${word}`, put(name)]);
  if (elsewhere[word]) {
    const { here } = elsewhere[word];
    // A number is put into an index word by another operation than a word of storage.
    return said(here.includes('LX') && /,\$X\d+,[\d.]+ *$/.test(line.slice(0, READ).split(';')[0]) ? ['LVI', ...here]
      : here);
  }
  if (operations.some(({ name }) => name === word)) return [];
  const isNear = ({ name }) => name !== 'END' && distance(word, name) <= (word.length > 3 ? 2 : 1);
  return said(operations.filter(isNear).map(({ name }) => name).sort((a, b) => distance(word, a) - distance(word, b))
    .slice(0, 5));
}

// What may be done to a card: by what is said of it a pattern, and what stands for it.
const DESCRIPTIONS = [
  ['a field of 24 bits for (IM)', /^(.{9}[^,(]+)(\([^)]*\))?\(IM\)/, '$1(BU,24)(IM)'],
  ['the description first', /(\([VIM+CR-]+\))(\([BD][^)]*\))/, '$2$1'],
  ['one parenthesis', /\)\)/, ')'],
  ['a parenthesis', /(\([BD]U?(,\d+)*)(,[^)]*)?$/, '$1)$3'],
  ['(BU)', /\((BIN|BINARY|X|UB)([,)])/i, '(BU$2'],
  ['a byte of 8', /(\([BD]U?,\d+),\d+\)/, '$1)'],
  ['V+I', /\(V\+[1L]\)/, '(V+I)'],
  ['without the form', /^(.{9}(?:LVI|LCI|LRI|KVI|KCI|V[+-]I|V\+ICR?))\(IM\)/, '$1'],
];
const FORMS = [
  ['a field of 64 bits', /\((BU?|DU?),\d+(,\d+)?\)/, '($1,64)'],
  ['without a sign', /\(([BD])([,)])/, '($1U$2'],
  ['without a description', /\((BU?|DU?)(,\d+)?(,\d+)?\)/, ''],
];
const FIELDS = [
  ['an address before the index', /,\((\$X\d+)\)/, ',0.0($1)'],
  ['an index register', /^(.{9}[A-Z+]+,)(\d{1,2}),/, '$1$$X$2,'],
  ['the index register first', /^(.{9}[A-Z+]+,)([^,]+),(\$X\d+)/, '$1$3,$2'],
  ['index register 1', /^(.{9}(?:L|S|V|K|CB)[A-Z+-]*,)(?=[^$])/, '$1$$X1,'],
  ['without the last comma', /, *$/, ''],
  ['the number behind the address', /\((\$X\d+)([+-][$\w.+-]+)\)/, '$2($1)'],
  ['one card', /^(.{9}(?:RD|WR),[^,]+)$/, '$1,1'],
  ['a refill of 0', /^(.{9}XW,[^,]+,[^,]+)$/, '$1,0'],
  ['a count and a refill of 0', /^(.{9}XW,[^,]+)$/, '$1,0,0'],
  ['one parenthesis', /\) *$/, ''],
  ['a half-word', /(\d)\.\d+(?=\D*$)/, '$1.32'],
  ['a whole word', /(\d)\.\d+(?=\D*$)/, '$1.0'],
];

// Operations whose address is a number itself, and those that take it from a word of storage.
const IN_WORDS = { 'V+I': 'V+', 'V-I': 'V+', 'V+IC': 'V+C', LVI: 'LV', KVI: 'KV' };
const IS_NUMBER = /^(LVI|LCI|LRI|V[+-]I|V[+]ICR?|KVI|KCI)$/;
const IN_BITS = [['words and not bits', /,0\.(\d+)(?=\D*$)/, ',$1.0']];

function changed(line, changes) {
  return changes.map(([what, pattern, made]) => [what, line.replace(pattern, made)]);
}

// Another control card, or one that is written otherwise.
function ofControl(line, { controls }) {
  const text = line.trim().toUpperCase().replace(/,/g, ' ');
  const [word, ...numbers] = text.split(/\s+/);
  const far = (name) => distance(word.replace(/^\/?/, '/'), name);
  const near = controls.filter((name) => name !== word && far(name) <= 2).sort((a, b) => far(a) - far(b));
  return [
    ['blanks between the numbers', text],
    ...(word === '/DUMP' ? [['the lower number first', [word, ...[...numbers].reverse()].join(' ')]] : []),
    ['without bits', text.replace(/\.\d+/g, '')],
    ['a / before it', text.replace(/^\/?/, '/')],
    ...near.map((name) => [`${name} for ${word}`, [name, ...numbers].join(' ')]),
  ];
}

function namesOf(lines) {
  return [...new Set(lines.filter((one) => !/^[*/]/.test(one)).map((one) =>
    one.slice(1, STATEMENT).trim().toUpperCase()).filter(Boolean))];
}

// The names in the fields of a card that no card before it, or none at all, has: [name, its place].
function unknownIn(line, names) {
  const fields = line.slice(0, READ).split(';')[0].replace(/'[^']*'|\([BDVIMCR+-][^)$]*\)/g,
    (text) => ' '.repeat(text.length));
  const from = Math.max(fields.indexOf(',', STATEMENT), STATEMENT);
  return [...fields.slice(from).matchAll(/(?<![$A-Z0-9.])[A-Z][A-Z0-9]*/gi)].map(({ 0: name, index }) =>
    [name, from + index]).filter(([name]) => !names.includes(name.toUpperCase()));
}

// Names of the deck that are written nearly so as one that is not defined.
function ofNames(line, lines) {
  const names = namesOf(lines);
  const near = (word) => names.filter((name) => distance(word, name) <= (word.length > 3 ? 2 : 1))
    .sort((a, b) => distance(word, a) - distance(word, b));
  return unknownIn(line, names).flatMap(([word, at]) => [`$${word}`,
    ...near(word)].map((name) => [`${name} for ${word}`, line.slice(0, at) + name + line.slice(at + word.length)]));
}

// A card for a name that no card has, before END: a word for data, where the operation is no branch.
function withField(lines, line, { operations }) {
  const operation = operations.find(({ name }) => name === operationOf(line));
  const [unknown] = unknownIn(line.toUpperCase(), namesOf(lines));
  const end = endOf(lines);
  if (!unknown || unknown[0].length > 8 || end >= lines.length || !/^(field|connective|index word)$/.test(
    operation?.kind) || /^(CB|BI)/.test(operation.name)) return [];
  const card = ` ${unknown[0].padEnd(STATEMENT - 1)}DD(BU,64),0`;
  return [[`a card for ${unknown[0]}`, [...lines.slice(0, end), card, ...lines.slice(end)], card]];
}

// The deck with a card in place of one, and one more before its end: [what was done, the deck, the first of these].
function withCard(lines, card, what, made, more) {
  const end = endOf(lines);
  return end >= lines.length ? []
    : [[what, [...lines.slice(0, card - 1), made, ...lines.slice(card, end), more, ...lines.slice(end)], made]];
}

function unusedName(lines, name) {
  const names = namesOf(lines);
  return [name, ...[2, 3, 4, 5, 6, 7, 8].map((n) => name + n)].find((one) => !names.includes(one)) ?? name;
}

// A number of less than half a word in a card of its own, and a second address with an index part behind a card B.
function ofTwoCards(lines, card, fault) {
  const line = lines[card - 1].toUpperCase();
  const operation = operationOf(line);
  const [, front, first, second] = /^(.{9}[^,]+),([^,;]+),([^,;]+?) *(?:;.*)?$/.exec(line) ?? [];
  if (!second) return [];
  if (fault === 'NOT ON A BOUNDARY' && IN_WORDS[operation] && /^[\d.]+$/.test(second)) {
    const name = unusedName(lines, 'VALUE');
    return withCard(lines, card, 'a card that holds it',
      `${front.slice(0, STATEMENT)}${IN_WORDS[operation]},${first},${name}`,
      ` ${name.padEnd(STATEMENT - 1)}XW,${operation === 'V-I' ? '-' : ''}${second},0,0`);
  }
  if (fault !== 'BAD INDEX' || !/^(SIC|B[BI][01][ZSV]?)$/.test(operation) || !/\(\$X\d+\)$/.test(second)) return [];
  const name = unusedName(lines, 'JUMP');
  return withCard(lines, card, 'a card B with the index part', `${front},${first},${name}`,
    ` ${name.padEnd(STATEMENT - 1)}B,${second}`);
}

// A remark behind a statement without the ; that begins it.
function ofRemarkBehind(line, isWhole) {
  const found = /^(.{9}\S+) +([^;\s].*)$/.exec(line);
  return found && isWhole(found[1]) ? [['a ; before the remark', `${found[1]} ; ${found[2]}`]] : [];
}

// Whether a statement has all fields of its operation.
function hasAllFields({ operations }) {
  return (statement) => {
    const operation = operations.find(({ name }) => name === operationOf(statement));
    return operation !== undefined && statement.split(',').length > operation.fields.length;
  };
}

// How many parentheses of a statement are not closed.
function unclosed(line) {
  const body = line.slice(STATEMENT, READ).split(';')[0].replace(/'[^']*'/g, '');
  return body.split('(').length - body.split(')').length;
}

// The card with a parenthesis put in before a comma, or at the end of the statement.
function ofParentheses(line) {
  if (unclosed(line) < 1) return [];
  const end = line.slice(0, READ).split(';')[0].trimEnd().length;
  const places = [...line.slice(0, end)].flatMap((letter, k) => (k > line.indexOf('(') && /[,(]/.test(letter) ? [k]
    : []));
  return [end, ...places].map((k) => ['a )', `${line.slice(0, k)})${line.slice(k)}`]);
}

function ofRemark(line) {
  return [['a comment', line.replace(/^ *(#|\/\/|--|;)/, '*')], ['a comment', `*${line}`]];
}

// Of each fault what is tried first.
const ofDescription = (line) => changed(line, [...DESCRIPTIONS, ...FORMS]);
const ofFields = (line) => changed(line, FIELDS);
const BY_FAULT = {
  'BAD NAME': (line) => ofRemark(line).slice(0, 1),
  'BAD DATA DESCRIPTION': ofDescription,
  'BAD PROGRESSIVE': ofDescription,
  'BAD FIELD COUNT': ofFields,
  'BAD EXPRESSION': ofFields,
  'BAD INDEX': ofFields,
  'NOT ON A BOUNDARY': (line) => changed(line, IS_NUMBER.test(operationOf(line)) ? IN_BITS : FIELDS),
  'BAD CONTROL CARD': ofControl,
  'CARD AFTER END': (line) => [['a / before it', `/${line.trim().toUpperCase()}`], ...ofRemark(line).slice(1)],
  'UNDEFINED SYMBOL': (line, knowledge, lines) => ofNames(line, lines),
  'SYMBOL NOT EARLIER': (line, knowledge, lines) => ofNames(line, lines),
  'VALUE DOES NOT FIT': (line) => changed(line, FORMS),
};

// Whether a card behind the end is neither one of the reader's nor a control card, and begins where these begin.
function isBehindEnd(lines, card) {
  return card - 1 > endOf(lines) && /^[^ */]/.test(lines[card - 1]);
}

function candidates(lines, card, fault, knowledge) {
  const line = lines[card - 1];
  const known = /^\*/.test(line) ? line : line.toUpperCase();
  const isOperation = (word) => knowledge.operations.some(({ name }) => name === word);
  const isBeside = !isOperation(operationOf(known)) && isOperation(firstOf(known.trim()));
  const first = [...(isBehindEnd(lines, card) ? [['a card for the reader', `*${line}`]] : []),
    ...(isBeside ? ofColumns(line) : []), ...ofParentheses(known), ...ofRemarkBehind(known, hasAllFields(knowledge))];
  const made = [...first, ...(BY_FAULT[fault]?.(known, knowledge, lines) ?? []), ...ofCharacters(line),
    ...ofOperation(known, knowledge), ...ofCommas(known), ...ofColumns(line)];
  return made.filter(([, text], k) => text !== line && text !== known && text.trim()
    && made.findIndex(([, other]) => other === text) === k).slice(0, MOST_TRIED);
}

// Whole decks that may be meant, where a card alone is not what is wrong.
function ofDeck(lines, card, fault, knowledge) {
  const { operations } = knowledge;
  const line = lines[card - 1];
  const inColumns = alignedDeck(lines, (word) => operations.some(({ name }) => name === word));
  if (inColumns[card - 1] !== line && inColumns.filter((one, k) => one !== lines[k])
    .length > 1) return [['all cards in their columns', inColumns, inColumns[card - 1]]];
  const others = lines.filter((_, k) => k !== card - 1);
  const end = others.findIndex((one) => !/^[*/]/.test(one) && operationOf(one) === 'END');
  if (fault === 'UNDEFINED SYMBOL') return withField(lines, line, knowledge);
  if (fault === 'NOT ON A BOUNDARY' || fault === 'BAD INDEX') return ofTwoCards(lines, card, fault);
  if (fault === 'CARD AFTER END' && end >= 0) return [['before the END card',
    [...others.slice(0, end), line, ...others.slice(end)], line]];
  if (fault === 'BAD CONTROL CARD' && endOf(lines) >= card - 1) {
    const last = endCard(lines);
    const before = lines.slice(0, card - 1);
    return [['an END card before it', end < 0 ? [...before, last, ...lines.slice(card - 1)]
      : [...before, ...lines.slice(card - 1, endOf(lines) + 1).filter((one) => !one.startsWith('/')),
      ...lines.slice(card - 1, endOf(lines)).filter((one) => one.startsWith('/')), ...lines.slice(endOf(lines) + 1)],
      end < 0 ? last : line]];
  }
  if (fault === 'BAD CONTROL CARD' && lines.slice(0, card - 1).some((one) =>
    controlOf(one) === controlOf(line))) return [['without this card', others, '']];
  return [];
}

// Decks in which the card is refused no more, [what was done, the deck, the card]; `refusalOf` gives the fault of a
// deck as the program says it.
export async function repairs(text, { card, fault }, knowledge, refusalOf) {
  const lines = linesOf(text);
  if (fault === 'NO END') return [['an END card', [...lines, endCard(lines), ''].join('\n'), endCard(lines)]];
  if (lines[card - 1] === undefined) return [];
  const cards = candidates(lines, card, fault, knowledge).map(([what, made]) =>
    [what, [...lines.slice(0, card - 1), made, ...lines.slice(card)], made]);
  const good = [];
  const decks = ofDeck(lines, card, fault, knowledge);
  for (const [what, made, shown] of fault === 'UNDEFINED SYMBOL' ? [...cards, ...decks] : [...decks, ...cards]) {
    const deck = [...made, ''].join('\n');
    const still = await refusalOf(deck);
    if (!still || still.card > card || (shown === '' && still.card >= card)) good.push([what, deck, shown]);
    if (good.length === MOST_OFFERED) break;
  }
  return good;
}

// ---- what is shown

// The causes that may hold of a card first: those whose example has its operation.
function causesFor(known, line) {
  const word = operationOf(line ?? '');
  const likely = ({ example }) => (example.cards ?? []).some((card) => word && operationOf(card) === word);
  return [...known.causes.filter(likely), ...known.causes.filter((cause) => !likely(cause))].slice(0, MOST_CAUSES);
}

function shown({ cards, words }) {
  return cards ? cards.map((card) => h('code', {}, card.trim())) : [h('span', {}, words ?? '')];
}

const FIELD_NAMES = { $Xj: 'an index register', $Xk: 'an index register', 'a(x)': 'an address', a: 'an address',
  n: 'a number', number: 'a number or a text' };

// How many fields an operation wants, and how many the card has.
function wants({ name, fields, optional, card }, line) {
  const most = fields.length + optional.length;
  const number = optional.length ? `${fields.length} to ${most} fields` : plural(fields.length, 'field');
  const body = line.slice(STATEMENT, READ).split(';')[0].replace(/'[^']*'|\([^)]*\)/g, '');
  const what = fields.length
    ? `: ${listed(fields.map((field) => FIELD_NAMES[field]))}${optional.length ? ', and more where you like' : ''}`
    : '';
  return h('p', {}, h('code', {}, name),
    ` wants ${most ? number : 'no field'}${what}. This card has ${body.split(',').length - 1}. As in `,
    h('code', {}, card.trim()));
}

// The characters that no card has, with their columns.
function strangeIn(line) {
  const found = [...line].flatMap((letter, k) => (/[^\x20-\x7e]/.test(letter)
    ? [`${letter === '\t' ? 'a tabulator' : letter} in column ${k + 1}`] : []));
  return h('p', {},
    `A card has letters without accents, digits and signs alone; here ${found.length === 1 ? 'is' : 'are'} `
      + `${listed(found.slice(0, 5))}.`);
}

// What can be said of this card beside its fault.
function hintOf({ fault, card }, lines, { operations, elsewhere }) {
  const line = lines[card - 1] ?? '';
  const word = operationOf(line);
  const isOperation = (one) => operations.some((operation) => operation.name === one);
  const [name] = misplaced(line, (one) => isOperation(one) || Object.hasOwn(elsewhere, one)) ?? [];
  if (isBehindEnd(lines, card)) return h('p', {},
    'This card stands behind the END card. A card for the reader begins with *, and a control card with /.');
  if (fault === 'BAD CONTROL CARD' && endOf(lines) >= card - 1) return h('p', {},
    'No END card stands before it. Control cards stand behind the END card.');
  if (fault === 'NOT ASCII') return strangeIn(line);
  if (unclosed(line) > 0 && !/^[*/]/.test(line)) return h('p', {}, 'A ( of this card has no ).');
  if (ofRemarkBehind(line.toUpperCase(), hasAllFields({ operations })).length
    && /^(UNKNOWN OPERATION|BAD EXPRESSION)$/.test(fault)) return h('p', {},
    'A remark behind a statement begins with a semicolon.');
  if (name && /^(UNKNOWN OPERATION|BAD NAME)$/.test(fault)) return h('p', {}, h('code', {}, name),
    ' looks like a name. A name begins in column 2, and what it names in column 10. On a new card Backspace goes '
      + 'from column 10 to column 2.');
  if (fault === 'UNKNOWN OPERATION' && elsewhere[word]) return h('p', {}, h('code', {}, word),
    ` is a word of other machines; here it is ${elsewhere[word].says}.`);
  const operation = operations.find((one) => one.name === word);
  if (fault === 'BAD FIELD COUNT' && operation) return wants(operation, line);
  const isEarlier = fault === 'SYMBOL NOT EARLIER';
  if (!isEarlier && fault !== 'UNDEFINED SYMBOL') return null;
  const unknown = unknownIn(line, namesOf(isEarlier ? lines.slice(0, card - 1) : lines))
    .map(([one]) => one.toUpperCase());
  return unknown.length ? h('p', {}, [...new Set(unknown)].map((one, k) => [k ? ', ' : null, h('code', {}, one)]),
    ` ${isEarlier ? 'is the name of no card before this one' : 'is the name of no card'}.`) : null;
}

// The box below the editor. `offers` are {what, card, act}.
export function faultBox(fault, lines, knowledge, offers, goTo) {
  const line = lines[fault.card - 1];
  const known = knowledge.faults.find(({ name }) => name === fault.fault);
  const causes = known ? causesFor(known, line) : [];
  const says = known ? [h('b', {}, ` ${fault.fault}`), `: ${known.says}.`] : ` ${fault.fault}.`;
  const offer = ({ what, card, act }) => h('button', { onclick: act,
    title: 'this was tried: the card is no longer refused' },
    `Repair: ${what} `, h('code', {}, card.trim().slice(0, READ - STATEMENT)));
  const cause = (one) => h('li', {}, `${one.cause}: `, shown(one.example), ' → ', shown(one.repair));
  return [
    h('p', { class: 'fault-line' }, h('button', { class: 'link', onclick: goTo }, `Line ${fault.card}`), says),
    hintOf(fault, lines, knowledge),
    offers.length ? h('div', { class: 'repairs' }, offers.map(offer)) : null,
    causes.length ? h('details', {}, h('summary', {}, 'What it may be'), h('ul', {}, causes.map(cause))) : null,
  ].filter(Boolean);
}

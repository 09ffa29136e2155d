// A card cut into pieces, each with its kind: how the editor and lists of cards colour it.
import { READ, STATEMENT } from './decks.js';
import { partsOf } from './plain.js';

const PSEUDO = new Set(['DD', 'XW', 'DR', 'SYN', 'SLC', 'END']);
const FIELDS = new RegExp([/('(?:[^']|'')*')/, /(\([A-Za-z+-][A-Za-z+-]*(?:,\d+)*\))/, /(\$[A-Za-z0-9]+)/,
  /(0[xX][0-9A-Fa-f]+|\d+(?:\.\d+)?)/, /([A-Za-z][A-Za-z0-9]*)/, /([^A-Za-z0-9$('][^A-Za-z0-9$(']*|.)/]
  .map(({ source }) => source).join('|'), 'gs');
const KINDS = ['text', 'form', 'register', 'number', 'label', 'plain'];

function fieldsOf(text) {
  return [...text.matchAll(FIELDS)].map((found) => [KINDS[found.slice(1).findIndex((part) => part !== undefined)],
    found[0]]);
}

function statementOf(text) {
  const [body, comment] = partsOf(text);
  const operation = /^[^,(]*/.exec(body)[0];
  const kind = PSEUDO.has(operation.replace(/ /g, '').toUpperCase()) ? 'pseudo' : 'operation';
  return [[kind, operation], ...fieldsOf(body.slice(operation.length)), ...(comment ? [['comment', comment]] : [])];
}

// The pieces of a line. A tabulator stands for the blanks up to column 10, so what is behind it is the statement.
export function piecesOf(line) {
  if (line[0] === '*') return [['comment', line]];
  const read = line.slice(0, READ);
  const rest = line.length > READ ? [['unread', line.slice(READ)]] : [];
  if (line[0] === '/') {
    const word = /^\/\S*/.exec(read)[0];
    return [['control', word], ...fieldsOf(read.slice(word.length)), ...rest];
  }
  const tabulator = read.indexOf('\t');
  const front = tabulator >= 0 && tabulator <= STATEMENT ? tabulator + 1 : STATEMENT;
  return [['name', read.slice(0, front)], ...statementOf(read.slice(front)), ...rest];
}

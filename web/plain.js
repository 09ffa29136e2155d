// A deck with conveniences (docs/conveniences.md) as a plain one, and for each card of it the line that it comes from.
// tools/deck does the
// same in Python, rule for rule, under the same names.
import { READ, STATEMENT, operationOf } from './decks.js';

const TEXT = /'(?:[^']|'')*'/y;
const HEXADECIMAL = /(?<![^\s,(+-])0[xX]([0-9A-Fa-f]+)/g;
const BITS = 8;
const LAST = 80;

// A line that no rule makes plain.
export class Refused extends Error {
  constructor(line, text) {
    super(text);
    this.line = line;
  }
}

function upper(text) {
  return text.replace(/[a-z]+/g, (found) => found.toUpperCase());
}

// The end of a text 'so' that begins at a place, or the place where none does.
function endOfText(line, at) {
  TEXT.lastIndex = at;
  return line[at] === "'" && TEXT.test(line) ? TEXT.lastIndex : at;
}

function stripped(text) {
  return text.replace(/^ +| +$/g, '');
}

// Not a comment, not a control card, not blank as far as it is read.
function isStatement(card) {
  return card[0] !== '*' && card[0] !== '/' && /[^ \t]/.test(card.slice(0, READ));
}

// Tabulators become blanks to the next of the columns 10, 18, 26 and so on; the text begins behind `column` columns.
function spread(text, column) {
  if (!text.includes('\t')) return text;
  let out = '';
  for (const char of text) {
    const at = column + out.length;
    if (char !== '\t') out += char;
    else out += ' '.repeat((at < STATEMENT ? STATEMENT : at + 8 - ((at - STATEMENT) % 8)) - at);
  }
  return out;
}

// A statement card without tabulators. What stands before a tabulator in the first columns is the name.
function columns(card, number) {
  const at = card.indexOf('\t');
  const front = card.slice(0, Math.max(at, 0));
  const rest = card.slice(at).replace(/^[\t ]+/, '');
  if (at >= 0 && at <= STATEMENT && rest && stripped(front) === front.trim()) {
    const name = stripped(front);
    if (name.length <= STATEMENT - 1) return ` ${name.padEnd(STATEMENT - 1)}${spread(rest, STATEMENT)}`;
    if (!name.includes(' ')) throw new Refused(number, `the name '${name}' has more than eight characters`);
  }
  return spread(card, 0);
}

// The statement and its comment, with the `;` before it. A `;` in a text begins none.
export function partsOf(statement) {
  let at = 0;
  while (at < statement.length && statement[at] !== ';') at = Math.max(endOfText(statement, at), at + 1);
  return [statement.slice(0, at), statement.slice(at)];
}

// Capitals and decimal numbers, outside texts.
function decimal(statement) {
  const plain = (text) => upper(text.replace(HEXADECIMAL, (_, digits) => String(BigInt(`0x${digits}`))));
  let out = '';
  let at = 0;
  for (const { 0: text, index } of statement.matchAll(/'(?:[^']|'')*'/g)) {
    out += plain(statement.slice(at, index)) + text;
    at = index + text.length;
  }
  return out + plain(statement.slice(at));
}

// The items of a DD behind its first comma, parted by commas that stand in no text.
function itemsOf(fields) {
  const items = [''];
  for (let at = 0; at < fields.length;) {
    const end = endOfText(fields, at);
    if (end > at) items[items.length - 1] += fields.slice(at, end);
    else if (fields[at] === ',') items.push('');
    else items[items.length - 1] += fields[at];
    at = Math.max(end, at + 1);
  }
  return items.map(stripped);
}

// A text as numbers of fields of so many bits, eight bits a character, the last filled up with blanks.
function numbersOfText(item, length, number) {
  const text = item.slice(1, -1).replace(/''/g, "'");
  const size = Math.floor(length / BITS);
  if (length % BITS || !size) throw new Refused(number,
    `a text has eight bits a character, so the field has 8, 16 .. or 64 bits, not ${length}`);
  if (!/^[ -~]+$/.test(text)) throw new Refused(number, 'a text has one character or more, all of them printable');
  const numbers = [];
  for (let k = 0; k < text.length; k += size) {
    const characters = text.slice(k, k + size).padEnd(size);
    numbers.push(String([...characters].reduce((sum, char) => sum * 256n + BigInt(char.charCodeAt(0)), 0n)));
  }
  return numbers;
}

// The statements for a DD: one a number. A DD with one plain number is itself.
function plainNumbers(statement, number) {
  const found = /^(\s*D\s*D\s*(\([^)]*\))?\s*),(.*)$/.exec(statement);
  if (!found) return [statement];
  const [, front, form, rest] = found;
  const items = itemsOf(rest);
  if (items.length === 1 && items[0][0] !== "'") return [statement];
  const plainForm = (form ?? '').replace(/ /g, '');
  return items.flatMap((item) => {
    if (item[0] === "'" && endOfText(item, 0) === item.length) {
      const length = /^\(BU(?:,(\d+))?(?:,8)?\)/.exec(plainForm || '(BU)');
      if (!length) throw new Refused(number, `a text stands in a form (BU,length), not in ${plainForm}`);
      return numbersOfText(item, Number(length[1] || 64), number).map((value) => `${front},${value}`);
    }
    if (!/^[+-]?[0-9]+$/.test(item.replace(/ /g, ''))) throw new Refused(number,
      `'${item}' is neither a number nor a text`);
    return [`${front},${item}`];
  });
}

// A statement that no rule changes, as nearly all are: neither small letters nor a tabulator, a text, a comment, a
// hexadecimal number or data.
const AS_IT_IS = /^ (?![^]{8}\s*D\s*D)[^a-z\t';]{8,71}$/;

// The plain cards of a statement card.
function statementCards(line, number) {
  if (AS_IT_IS.test(line) && !line.includes('0X')) return [line];
  const isCut = line.length > READ && !line.slice(0, READ).includes('\t');
  const [card, tail] = isCut ? [line.slice(0, READ), line.slice(READ)] : [line, ''];
  const whole = card.includes('\t') ? columns(card, number) : card;
  const name = upper(whole.slice(0, STATEMENT));
  if (name[0] >= 'A' && name[0] <= 'Z') throw new Refused(number,
    'column 1 holds a letter, and must be blank: a name begins in column 2, or stands before a tabulator');
  const [body, comment] = partsOf(whole.slice(STATEMENT));
  if (operationOf(whole) === 'DD' && body.replace(/'(?:[^']|'')*'/g, '').includes("'")) {
    throw new Refused(number, tail.trim() ? 'the text goes past column 72: part it into two'
      : "the text has no ' at its end");
  }
  const bodies = plainNumbers(decimal(body), number);
  if (comment) bodies[0] = bodies[0].padEnd(body.length);
  const cards = [name + bodies[0] + comment, ...bodies.slice(1).map((one) => ' '.repeat(STATEMENT) + one)];
  if (cards.length === 1 && cards[0] === card) return [card + tail];
  const isLong = (one) => (one.slice(0, STATEMENT) + partsOf(one.slice(STATEMENT))[0]).trimEnd().length > READ;
  if ((tail.trim() && !card.endsWith(' ') && !comment) || cards.some(isLong)) throw new Refused(number,
    'the statement goes past column 72');
  const made = cards.map((one) => one.slice(0, READ));
  if (tail.trim()) made[0] = made[0].padEnd(READ) + tail;
  return made;
}

// Lines with their ends. A carriage return without a line feed behind it is a part of the card.
function linesWithEnds(text) {
  const lines = text.split('\n').map((line) => (line.endsWith('\r') ? [line.slice(0, -1), '\r\n'] : [line, '\n']));
  const [last, end] = lines.pop();
  if (last || end === '\r\n') lines.push([last + end.slice(0, -1), '']);
  return lines;
}

// The plain deck of a text: `cards` without line ends, `lines` by their cards, from 1 on. `changed` says whether any
// card is another.
export class Plain {
  constructor(text) {
    const hasMark = text.startsWith('\ufeff');
    Object.assign(this, { source: text, cards: [], lines: [], ends: [], changed: hasMark, end: null, dumps: [] });
    linesWithEnds(hasMark ? text.slice(1) : text).forEach(([line, end], k) => {
      for (const card of this.made(line, k + 1)) {
        if (card !== line) this.changed = true;
        this.cards.push(card);
        this.lines.push(k + 1);
        this.ends.push(end || '\n');
      }
    });
    if (this.ends.length && !text.endsWith('\n')) this.ends[this.ends.length - 1] = '';
  }

  made(line, number) {
    if (line[0] === '/') return [this.control(line)];
    if (!isStatement(line)) {
      const whole = spread(line, 0);
      return [this.end === null && whole.length > LAST ? whole.slice(0, READ).replace(/[ \t]+$/, '') : whole];
    }
    const cards = statementCards(line, number);
    if (this.end === null && operationOf(cards[0]) === 'END') this.end = this.cards.length;
    return cards;
  }

  control(line) {
    const words = upper(line.slice(0, READ)).trim().split(/\s+/);
    const known = upper(line.slice(0, READ).replace(/\t/g, ' ')) + line.slice(READ);
    const [, ...places] = words;
    const isPlain = places.length === 2 && places.every((word) => /^[0-9]+$/.test(word));
    if (words[0] !== '/DUMP' || places.length < 1 || places.length > 2 || isPlain
      || places.some((word) => !/^[A-Z0-9$.+-]+$/.test(word))) return known;
    this.dumps.push([this.cards.length, [places[0], places.at(-1)]]);
    return known;
  }

  // Puts words for the addresses of dumps by name: the program tells what they are worth. `ask` gives the report of a
  // deck.
  async resolve(ask) {
    if (!this.dumps.length || this.end === null) return;
    this.changed = true;
    const probes = this.dumps.flatMap(([, places]) => places).map((address, k) =>
      ` Z${String(k).padStart(7, '0')}SYN,${address}`);
    const report = await ask([...this.cards.slice(0, this.end), ...probes, '         END,32.0', '/BUDGET 1', '/LIST',
      ''].join('\n'));
    const words = [...report.matchAll(/^SYM Z\d{7} (\d+)\./gm)].map((found) => found[1]);
    const refused = /^CARD (\d+) /.exec(report);
    this.dumps.forEach(([place], k) => {
      // Where an earlier card refuses the deck its dumps stay out of the way, so that a run says the same.
      if (!refused) this.cards[place] = `/DUMP ${words[2 * k]} ${words[2 * k + 1]}`;
      else if (Number(refused[1]) <= this.end) this.cards[place] = '/DUMP 0 0';
    });
  }

  // The deck; of one that was changed with the numbers of lines in columns 73 to 80, where that is wanted.
  text(isNumbered = false) {
    return this.cards.map((card, k) => {
      const has = isNumbered && this.changed && card.trimEnd().length <= READ;
      return (has ? card.trimEnd().padEnd(READ) + String(this.lines[k]).padStart(LAST - READ) : card) + this.ends[k];
    }).join('');
  }
}

// The object of a run shows a deck with conveniences as it was written: lines for cards, and their own text.
export function retold(object, plain, lines) {
  const texts = new Map();
  for (const entry of [...object.entries, ...object.segments.flatMap((segment) =>
      [...segment.dropped, segment.begun])]) {
    if (!entry?.card) continue;
    const [card, line] = [plain.cards[entry.card - 1], plain.lines[entry.card - 1]];
    // Where its half-words are still those of its card, its text is that card's.
    if (entry.text === card.slice(1, READ).split(';')[0].trim()) entry.text = partsOf(lines[line - 1])[0].trim();
    entry.card = line;
    texts.set(entry.address, entry.text);
  }
  for (const place of object.totals.by_address) place.text = texts.get(place.address) ?? place.text;
}

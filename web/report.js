// The report as people read it: what it says in the end, the printer's paper, storage by the names of the deck, and
// the lines themselves.
import { h, wideTable } from './dom.js';
import { ZERO, grouped, plural } from './words.js';
import { bitsOf, charactersOf, formsOf, onIn, registerName, registerText } from './contents.js';
import { fieldText, fieldsOf } from './fields.js';

const MOST_LINES = 2000;        // so many lines of a report are shown
const MOST_TOGETHER = 8;
const MOST_FIELDS = 400;
const EVENT = /^(INT|END|BACK|SNAP|CARD) /;

// The lines of a report, with what stands behind the last END as the end state.
export class Report {
  constructor(text) {
    this.lines = text.split('\n');
    if (this.lines.at(-1) === '') this.lines.pop();
    this.prints = this.lines.filter((line) => line.startsWith('PRT')).map((line) => line.slice(4));
    this.registers = new Map();
    this.storage = new Map();
    this.counter = '';
    this.enabled = false;
    const end = this.lines.findLastIndex((line) => line.startsWith('END '));
    this.kind = end < 0 ? '' : this.lines[end].slice(4);
    for (let k = end + 1; end >= 0 && k < this.lines.length && !EVENT.test(this.lines[k]);
      k += 1) this.take(this.lines[k].split(' '));
  }

  take([name, one, two]) {
    if (name === 'IC') this.counter = one;
    else if (name === 'EN') this.enabled = one === '1';
    else if (name === 'REG') this.registers.set(Number(one), two);
    else if (name === 'MEM') this.storage.set(Number(one), two);
    else if (name === 'DONE') this.done = Number(one);
  }
}

// ---- registers

function indicatorsOn(hex, indicators) {
  const on = onIn(hex);
  if (!on.length) return 'none is on';
  return h('ul', { class: 'indicators' }, on.map((k) => h('li', {}, h('b', {}, indicators[k]?.name ?? String(k)),
    ` ${k}`, indicators[k] ? h('span', { class: 'soft' }, ` ${indicators[k].says}`) : null)));
}

function accumulator(registers) {
  const number = (BigInt(`0x${registers.get(8) ?? '0'}`) << 64n) | BigInt(`0x${registers.get(9) ?? '0'}`);
  const isMinus = onIn(registers.get(10) ?? ZERO).includes(4);
  const sign = isMinus && number ? '-' : '';
  const hex = number.toString(16);
  return { number: `${sign}${number}`, digits: /^[0-9]+$/.test(hex) && hex !== String(number) ? sign + hex : null,
    isZero: number === 0n };
}

function registersView({ registers, counter, enabled }, indicators, nameOf) {
  const total = accumulator(registers);
  const rows = [...registers].map(([number, hex]) => h('tr', {}, h('th', { scope: 'row', class: 'code' },
    registerName(number)), h('td', { class: 'code' }, hex),
    h('td', {}, number === 11 ? indicatorsOn(hex, indicators) : registerText(number, hex, indicators))));
  return [
    h('p', {}, 'The counter stands at ', h('span', { class: 'code' }, counter), nameOf(counter),
      `, which would be next; interrupts are ${enabled ? 'enabled' : 'disabled'}.`,
      total.isZero ? null : [' The accumulator is ', h('b', {}, total.number), ' as a binary number', total.digits
        ? [', and ', h('b', {}, total.digits), ' in digits'] : null, '.']),
    wideTable('registers-named', 'Registers that are not zero', ['name', 'word', 'what it says'], rows),
  ];
}

// ---- storage

function fieldRow(field, words, before) {
  const word = (k) => words.get(k) ?? ZERO;
  const { length } = field.form;
  // Of a card DR with many fields the text is of all of them, up to a limit.
  const places = Array.from({ length: Math.min(field.count, MOST_TOGETHER) }, (_, k) => field.first + k * length);
  const hexOf = (words) => places.map((first) => bitsOf(words, first, length).toString(16).toUpperCase()
    .padStart(Math.ceil(length / 4), '0'));
  const bits = hexOf(word);
  const changed = bits.join() !== hexOf((k) => before.get(k) ?? ZERO).join();
  const hex = `${bits[0]}${bits.length > 1 ? ' …' : ''}`;
  const text = length % 8 ? '' : bits.map(charactersOf).join('');
  return h('tr', { class: changed ? 'changed' : null }, h('th', { scope: 'row', class: 'code' }, field.name || '–'),
    h('td', { class: 'code' }, field.place), h('td', { class: 'code' }, field.statement),
    h('td', {}, h('b', {}, fieldText(field, word)), field.count > 1 ? ` (first of ${field.count})` : null),
    h('td', { class: 'code' }, hex), h('td', { class: 'code' }, /[A-Za-z0-9 ]{2}/.test(text) ? text : ''));
}

// Storage by the names of the deck; `words` are those of the end, `before` those of the beginning.
function namedStorage(fields, words, before) {
  if (!fields.length) return [];
  const rows = fields.slice(0, MOST_FIELDS).map((field) => fieldRow(field, words, before));
  return [wideTable('fields', 'Fields of the deck at the end; changed ones are marked',
    ['name', 'address', 'card', 'is now', 'its bits', 'as text'], rows)];
}

// Of a long run the rows at the end are not here, so neither is what they have stored.
function fieldsUnknown(fields) {
  return fields.length ? [h('p', { class: 'note' },
    'This is a long run, so what the fields of the deck are at the end is not known here. A card ',
    h('code', {}, '/DUMP'), ' shows words of storage at the end.')] : [];
}

function dumped(storage, nameOf) {
  if (!storage.size) return [];
  const rows = [...storage].map(([word, hex]) => h('tr', {}, h('th', { scope: 'row', class: 'code' }, word),
    h('td', {}, nameOf(`${word}.0`).replace(/^ \((.*)\)$/, '$1')), h('td', { class: 'code' }, hex),
    h('td', {}, formsOf(hex).map(([form, text]) => h('span', { class: 'form-of' }, h('i', {}, form), ' ', text)))));
  return [wideTable('dumped', 'Words that /DUMP asks for and that are not zero',
    ['word', 'name', 'content', 'what it may say'], rows)];
}

// ---- the printer

function paper(prints) {
  if (!prints.length) return [];
  const shown = prints.slice(0, MOST_LINES);
  return [h('figure', { class: 'printer' }, h('figcaption', {}, `The printer: ${plural(prints.length, 'line')}`),
    h('div', { class: 'printed', tabindex: '0' }, shown.map((line) =>
      h('div', { class: 'print-line' }, line || ' '))))];
}

// ---- the lines

const SAYS = {
  IC: () => 'the counter: the next instruction', EN: (w) => (w[1] === '1' ? 'interrupts are enabled'
    : 'interrupts are disabled'),
    DONE: (w) => `${plural(Number(w[1]), 'instruction')} ${w[1] === '1' ? 'was' : 'were'} done`,
  END: (w) => (w[1] === 'WAIT' ? 'the machine waits, and nothing is left that could wake it'
    : 'the budget of instructions is used up: a loop may not end, or /BUDGET is too small'),
  TICKS: (w) => `the last completion was at tick ${w[1]}`,
  TIME: (w) => `at tick ${w[1]}`, PRT: () => 'the printer prints',
  BACK: (w) => `the state ${plural(Number(w[1]), 'instruction')} before the end`, DUMP: () =>
    'words that were asked for; those that are zero are not shown',
  SNAP: (w) => `the clock stands at ${w[1]}: ${w[3]} done, ${w[5]} entries ahead`,
  TRC: (w) => `instruction ${w[1]} is done, at ${w[2]}`, SYM: () => 'a name and its address',
  ROW: (w) => `${w[2]}: prepared at ${w[4]}, operands there by ${w[6]}, done at ${w[8]}`,
  DROP: (w) => `dropped: ${w[1]}, which had been prepared at ${w[3]}`,
  LEV: (w) => (w[3] === '-' ? `ahead: ${w[1]}; it changed no index word`
    : `ahead: ${w[1]}; it changed $X${w[3]}, which was ${registerText(16, w[5], [])}`),
  CARD: () => 'the deck is refused', MEM: (w) => formsOf(w[2]).map(([form, text]) => `${form} ${text}`).join(', '),
};

function says(line, indicators) {
  const words = line.split(' ');
  if (words[0] === 'REG') return `${registerName(Number(words[1]))}: `
    + `${registerText(Number(words[1]), words[2], indicators)}`;
  if (words[0] === 'INT') return `interrupt by ${indicators[words[1]]?.name ?? 'an indicator'} (${words[1]}), with `
    + `${words[3]} instructions done`;
  return Object.hasOwn(SAYS, words[0]) ? SAYS[words[0]](words) : '';
}

function linesView(report, left, indicators) {
  const { lines } = report;
  const half = MOST_LINES / 2;
  const isLong = lines.length > MOST_LINES;
  const shown = isLong ? [...lines.slice(0, half), '…', ...lines.slice(-half)] : lines;
  const notes = [];
  if (left) notes.push(h('p', { class: 'note' },
    `The report is longer: ${grouped(left)} bytes of its middle are not kept here.`));
  if (isLong) notes.push(h('p', { class: 'note' },
    `${grouped(lines.length)} lines; the first and the last ${grouped(half)} are shown. The file that is saved has `
      + `more.`));
  const rows = shown.map((line) => h('tr', { class: EVENT.test(line) ? 'event' : null },
    h('td', { class: 'code' }, line), h('td', {}, says(line, indicators))));
  return [...notes, wideTable('report', 'The report, line by line', ['line', 'what it says'], rows)];
}

// The whole view. `end` has the words at the beginning and the end of the run, where all of its rows are known;
// `listing` the cards with their places.
export function reportView(box, { report, left, indicators, listing, end }) {
  const names = new Map(listing.filter(({ place, name }) => place && name).map(({ place, name }) => [place, name]));
  const nameOf = (address) => (names.has(address) ? ` (${names.get(address)})` : '');
  const known = new Map(end ? end.words : report.storage);
  box.replaceChildren(...paper(report.prints), ...registersView(report, indicators, nameOf),
    ...(end ? namedStorage(fieldsOf(listing), known, end.before) : fieldsUnknown(fieldsOf(listing))),
    ...dumped(report.storage, nameOf), ...linesView(report, left, indicators));
}

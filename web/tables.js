// The machine at a tick, as tables.
import { h } from './dom.js';
import { formsOf, registerName, registerText } from './contents.js';
import { fieldText } from './fields.js';
import { ZERO, aloneText, causeName, grouped, indexText, levelDoes, nextWaits, pending } from './words.js';

const PURPOSE = new Map([
  ['instruction', 'instruction'],
  ['index', 'index word'],
  ['operand', 'operand'],
  ['following', 'next instructions'],
]);

function table(name, heads, rows) {
  return h('table', { class: name }, h('caption', {}, heads[0]),
    h('thead', {}, h('tr', {}, heads.slice(1).map((head) => h('th', { scope: 'col' }, head)))),
    h('tbody', {}, rows));
}

function row(first, cells, kind) {
  return h('tr', { class: kind }, h('th', { scope: 'row' }, first),
    cells.map((cell) => (cell instanceof Node ? cell : h('td', {}, cell))));
}

function cardText(entry) {
  return (entry.text || '').replace(/\s+/g, ' ').trim();
}

// The committed counter, what is done, and what this tick went to.
export function committed(run, t, state) {
  const charge = run.charge(t);
  const whole = run.totals.instructions;
  return [
    h('b', {}, 'Committed: '), 'counter ', h('span', { class: 'code' }, state.counter ?? '-'),
    `, ${grouped(run.numberDone(t))} of ${run.isCut ? 'the first ' : ''}${grouped(whole)} done`,
    charge ? h('span', { class: 'gap' }, h('i', { class: `mark b-${charge.cause}`, 'aria-hidden': 'true' }),
      `this tick is charged to row ${charge.row.row}: ${causeName.get(charge.cause)}`) : null,
  ];
}

export function levelTable(run, t, levels) {
  const rows = Array.from({ length: run.data.levels }, (_, k) => {
    const entry = levels[k];
    if (!entry) return row(k + 1, [h('td', { colspan: 4, class: 'soft' }, 'empty')]);
    const [kind, does] = levelDoes(entry, t);
    const { index } = entry;
    return row(k + 1, [
      h('td', { class: 'code' }, entry.address),
      h('td', { class: 'code card', title: cardText(entry) }, cardText(entry)),
      h('td', {}, h('i', { class: `mark m-${kind}`, 'aria-hidden': 'true' }), does),
      index ? h('td', { class: 'code', title: `${index.before} → ${index.after}` },
        `X${index.number}: ${indexText(index.before)} → ${indexText(index.after)}`) : h('td', { class: 'none' }, '–'),
    ]);
  });
  return table('levels', ['Levels, oldest first', '', 'address', 'card', 'does', 'index word, early'], rows);
}

export function nextLine(run, t) {
  const next = run.next(t);
  if (!next) {
    const segment = run.segment(t);
    const why = segment && t < segment.start ? `nothing: the machine starts anew at ${segment.start}` : 'nothing';
    return [h('b', {}, 'Prepared next: '), why];
  }
  return [h('b', {}, 'Prepared next: '), h('span', { class: 'code' }, `${next.address} ${cardText(next)}`),
    ` ${nextWaits(run, next, t)}`,
    next.serial && !nextWaits(run, next, t).includes('done alone') ? `; it is ${aloneText(next.serial)}` : ''];
}

export function indexTable(run, state, ahead) {
  const rows = run.changed.map((number) => {
    const before = state.words.get(16 + number) ?? ZERO;
    const after = ahead.get(16 + number) ?? ZERO;
    const differs = before !== after;
    return row(`X${number}`, [
      h('td', { class: 'code', title: before }, indexText(before)),
      h('td', { class: 'code', title: after }, differs ? '≠ ' : '', indexText(after)),
    ], differs ? 'differs' : null);
  });
  if (!rows.length) rows.push(h('tr', {}, h('td', { colspan: 3, class: 'soft' }, 'no index word changes in this run')));
  return table('index', ['Index words (value, count, refill)', '', 'committed', 'ahead'], rows);
}

export function interruptLine(state, names) {
  const numbers = pending(state.words);
  const on = numbers.map((number) => (names[number] && names[number] !== '-' ? `${number} (${names[number]})`
    : number));
  return [h('b', {}, 'Interrupts '), `${state.enabled ? 'enabled' : 'disabled'}; pending: ${on.join(', ') || 'none'}`];
}

// The registers that are not zero, besides index words, by name. `names` are those of indicators.
export function registerTable(state, names) {
  const indicators = names.map((name) => name && { name });
  const first = Array.from({ length: 16 }, (_, word) => [word, state.words.get(word) ?? ZERO]);
  const rows = first.filter(([, content]) => content !== ZERO)
    .map(([word, content]) => row(registerName(word), [h('td', { class: 'code' }, content),
      h('td', {}, registerText(word, content, indicators))]));
  if (!rows.length) rows.push(h('tr', {}, h('td', { colspan: 3, class: 'soft' }, 'all are zero')));
  return table('registers', ['Registers, committed', '', 'word', 'what it says'], rows);
}

// Words of storage that the run has changed by a tick, youngest change last; at most some of them. `nameOf` gives the
// deck's name of a word that
// no field of the deck lies in.
export function storageTable(run, t, state, nameOf) {
  const changed = new Map();
  for (let k = run.done(t) - 1; k >= 0 && k >= run.done(t) - 64 && changed.size < 8; k -= 1) {
    for (const [word] of run.rows[k].state.words) if (word >= 32 && !changed.has(word)) changed.set(word,
      run.rows[k].row);
  }
  if (!changed.size) return null;
  const rows = [...changed].sort(([a], [b]) => a - b).map(([word, by]) => {
    const content = state.words.get(word) ?? ZERO;
    const fields = run.fields?.in(word) ?? [];
    const says = fields.map((field) =>
      h('b', {}, `${field.name} is ${fieldText(field, (one) => state.words.get(one) ?? ZERO)}; `));
    return row(word, [h('td', { class: 'code' }, fields.map(({ name }) => name).join(' ') || (nameOf(word) ?? '')),
      h('td', { class: 'code' }, content),
      h('td', {}, says, formsOf(content).map(([form, text]) => `${form} ${text}`).join(', ')),
      h('td', {}, `row ${by}`)]);
  });
  return table('storage', ['Storage changed last', '', 'name', 'word', 'what it may say', 'by'], rows);
}

const MOST_PRINTED = 12;

// What the printer has printed by a tick, as paper; none where the run prints nothing.
export function printerPaper(run, t) {
  const { prints } = run.data;
  if (!prints.length) return null;
  const done = prints.slice(0, run.printed(t));
  const lines = done.slice(-MOST_PRINTED).map(({ text }) => h('div', { class: 'print-line' }, text || ' '));
  return h('figure', { class: 'printer' }, h('figcaption', {},
    `Printed: ${done.length} of ${prints.length} ${prints.length === 1 ? 'line' : 'lines'}`),
    h('div', { class: 'printed', tabindex: '0' }, lines.length ? lines : h('div', { class: 'print-line soft' }, ' ')));
}

function reader(read) {
  return `${PURPOSE.get(read.kind)}, ${read.entry.dropped ? 'dropped ' : ''}${read.entry.address}`;
}

export function bankTable(banks) {
  const rows = banks.map((read, bank) => (read
    ? row(bank, [h('td', {}, `word ${read.word}`), h('td', {}, reader(read)), h('td', {}, read.answer)])
    : row(bank, [h('td', { class: 'soft', colspan: 3 }, 'free')])));
  return table('banks', ['Banks', '', 'reads', 'what for', 'until'], rows);
}

export function waitingLine(waiting) {
  const texts = waiting.slice(0, 6).map((read) => `word ${read.word} (bank ${read.bank}, ${reader(read)})`);
  if (waiting.length > 6) texts.push(`and ${waiting.length - 6} more`);
  return [h('b', {}, 'Waiting for turn or bank: '), texts.join('; ') || 'none'];
}

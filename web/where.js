// Where the ticks went: what `./explain` says, as tables and bars.
import { h, wideTable } from './dom.js';
import { CAUSES, REASONS, grouped, plural } from './words.js';
import { bar, figures, legend } from './strip.js';

const MOST_PLACES = 60;

// What a tick of each cause is, and what helps (docs/explain.md).
const HELPS = {
  restart: ['the machine starts anew', 'fewer interrupts, drops and wrong guesses'],
  instruction_turn: ['another read was accepted before that of its instruction word', 'fewer reads at a time'],
  instruction_bank: ['the bank of its instruction word was busy', 'code and data in other banks'],
  instruction_storage: ['its instruction word was on its way',
    'faster storage; straight code, whose next words are asked for ahead'],
  address: ['its address was formed', 'what helps against its reason below, so that it runs ahead of the row before'],
  index_bank: ['the bank of its index-side word was busy', 'load index words early'],
  index_storage: ['its index-side word was on its way', 'load index words early'],
  preparing: ['it was prepared', 'what helps against its reason below, so that it runs ahead of the row before'],
  operand_turn: ['its operand waited for its turn', 'fewer words: fields that lie in one word'],
  operand_bank: ['the bank of its operand was busy', 'fewer words; data in other banks'],
  operand_storage: ['its operand was on its way', 'faster storage; an instruction between that takes long'],
  executing: ['it computed', 'another operation that takes less: a product or a quotient takes most'],
};

function causesTable(byCause) {
  const rows = CAUSES.filter(([cause]) => byCause[cause]).sort(([a], [b]) => byCause[b] - byCause[a])
    .map(([cause, name]) => h('tr', {},
    h('th', { scope: 'row' }, h('i', { class: `mark b-${cause}`, 'aria-hidden': 'true' }), name),
    h('td', { class: 'number' }, h('b', {}, grouped(byCause[cause]))), h('td', {}, HELPS[cause][0]),
    h('td', { class: 'soft' }, HELPS[cause][1])));
  return wideTable('helps', 'What the ticks were spent on, and what may help',
    ['cause', 'ticks', 'meanwhile', 'may help'], rows);
}

// The instructions whose field lies across two words, with the words that they read: each takes two reads for one.
function acrossTable(rows) {
  const found = new Map();
  for (const row of rows) {
    const words = row.uses.filter((use) => use.kind === 'operand' && use.how === 'read').map((use) => use.word);
    if (words.length !== 2 || words[1] !== words[0] + 1 || /^\s*(T|SWAP)\b/i.test(row.text)) continue;
    const waited = row.charges.filter(({ cause }) => cause.startsWith('operand'))
      .reduce((all, { from, to }) => all + to - from, 0);
    const one = found.get(row.address) ?? { row, words, times: 0, ticks: 0 };
    found.set(row.address, { ...one, times: one.times + 1, ticks: one.ticks + waited });
  }
  if (!found.size) return null;
  const lines = [...found.values()].sort((a, b) => b.ticks - a.ticks).slice(0, MOST_PLACES)
    .map(({ row, words, times, ticks }) => h('tr', {},
    h('th', { scope: 'row', class: 'code' }, row.address), h('td', { class: 'code' }, row.text.replace(/\s+/g, ' ')),
    h('td', {}, words.join(' and ')), h('td', { class: 'number' }, grouped(times)),
    h('td', { class: 'number' }, h('b', {}, grouped(ticks)))));
  return [wideTable('across', 'Fields that lie across two words: each takes two reads',
    ['address', 'text', 'words', 'times', 'ticks it waited for operands'], lines),
    h('p', { class: 'soft' },
      'A card DR,0 or SLC before the data puts a field at the beginning of a word; then one read is enough.')];
}

function sum(byCause) {
  return Object.values(byCause).reduce((all, ticks) => all + ticks, 0);
}

// A bar of causes, on a scale on which `most` ticks fill it.
function stack(byCause, most) {
  return h('div', { class: 'stack', style: `width:${(100 * sum(byCause)) / most}%` },
      CAUSES.filter(([cause]) => byCause[cause]).map(([cause, name]) => h('i', {
    class: `b-${cause}`, 'data-cause': cause, title: `${name}: ${plural(byCause[cause], 'tick')}`,
    style: `flex:${byCause[cause]} 0 0`,
  })));
}

// Where the ticks went: of each instruction, or of those of each card, which have no address then.
function placesTable(kind, caption, places, choose) {
  const most = Math.max(1, ...places.map((place) => sum(place.by_cause)));
  const rows = places.slice(0, MOST_PLACES).map(({ card, address, text, times, by_cause: causes }) => {
    const said = text.replace(/\s+/g, ' ');
    return h('tr', card ? { class: 'choose', tabindex: '0', title: `marks card ${card} and its rows`,
      onclick: () => choose(card), onkeydown: (event) => { if (event.key === 'Enter') choose(card); } } : {},
      h('td', { class: 'number' }, card ?? ''), h('th', { scope: 'row', class: 'code' }, address ?? said),
      address && h('td', { class: 'code' }, said), h('td', { class: 'number times' }, grouped(times)),
      h('td', { class: 'number ticks' }, h('b', {}, grouped(sum(causes)))),
      h('td', { class: 'wide' }, stack(causes, most)));
  });
  const names = ['card', 'address', 'text', 'times', 'ticks', 'spent on'];
  return wideTable(kind, caption, names.filter((name) => name !== 'address' || places.some((one) => one.address)), rows);
}

function reasonsTable(byReason) {
  const rows = Object.entries(byReason).filter(([, one]) => one.rows).sort(([, a], [, b]) => b.ticks - a.ticks)
    .map(([reason, one]) => h('tr', {},
    h('th', { scope: 'row' }, REASONS[reason][0]), h('td', { class: 'number' }, grouped(one.rows)),
    h('td', { class: 'number' }, h('b', {}, grouped(one.ticks))), h('td', { class: 'number' }, grouped(one.late)),
    h('td', { class: 'soft' }, REASONS[reason][1])));
  return [wideTable('reasons', 'What kept rows back, and what may help',
    ['because', 'rows', 'ticks', 'so late, at most', 'may help'], rows),
    h('p', { class: 'soft' }, 'So late, at most: the reason alone made these rows late by no more ticks than these. '
      + 'Where it is 0, something else kept the same rows back until the same ticks.')];
}

function meters(caption, names, numbers, whole) {
  return h('table', { class: 'meters' }, h('caption', {}, caption),
    h('tbody', {}, numbers.map((number, k) => h('tr', {}, h('th', { scope: 'row' }, names(k)),
      h('td', { class: 'number' }, grouped(number)),
    h('td', { class: 'wide' }, h('i', { class: 'meter', style: `width:${(100 * number) / Math.max(whole, 1)}%` }))))));
}

// A long run as a whole; the timetable has its first rows alone.
export function wholeTables(run, totals, { cause, card }) {
  const whole = { totals, interrupts: totals.by_reason.interrupt.rows, data: run.data };
  return [h('h3', {}, 'The whole run'), figures(whole), bar(whole, totals.ticks, cause), legend([whole], cause),
    placesTable('places by-card', 'Ticks of the instructions of each card, most first', totals.by_card, card),
    causesTable(totals.by_cause), ...reasonsTable(totals.by_reason)];
}

export function whereView(box, run, cardOf, on, whole) {
  const { totals } = run;
  const before = whole ? [...wholeTables(run, whole, on),
    h('h3', {}, `Its first ${plural(totals.instructions, 'instruction')}`)] : [];
  const places = totals.by_address.map((place) => ({ ...place, card: cardOf.get(place.address) }));
  box.replaceChildren(...before, figures(run), bar(run, totals.ticks, on.cause), legend([run], on.cause),
    placesTable('places', 'Ticks of each instruction, most first', places, on.card),
    ...[acrossTable(run.rows)].flat().filter(Boolean),
    causesTable(totals.by_cause), ...reasonsTable(totals.by_reason),
    h('div', { class: 'side-by-side' },
      meters('Ticks with so many levels in use', (k) => k, totals.by_levels, totals.ticks),
      meters('Ticks that each bank was busy', (k) => `bank ${k}`, totals.banks.map((bank) => bank.busy),
        totals.ticks)));
}

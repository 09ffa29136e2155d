// What is printed: the figures of each run, its timetable in pieces that pages can be cut between, the deck, and what
// else the page has.
import { h } from './dom.js';
import { sheets } from './rows.js';
import { bar, figures, legend } from './strip.js';
import { plural } from './words.js';

const MOST_CARDS = 1500;
const MOST_LINES = 1500;

function listOf(lines, most) {
  return lines.length > most ? [...lines.slice(0, most), `.. and ${lines.length - most} more`] : lines;
}

// `deck` are its lines, `report` those of the report, where there is one, `whole` the tables of a long run.
export function fillPaper(box, { title, runs, stepper, deck, report, notes = [], whole = [] }) {
  const most = Math.max(1, ...runs.map((run) => run.totals.ticks));
  const cards = listOf(deck.map((line, k) => `${String(k + 1).padStart(4)}  ${line}`), MOST_CARDS);
  const drawn = sheets(runs, stepper, stepper.t);
  box.replaceChildren(
    ...(title ? [h('h1', {}, title)] : []),
    ...notes.map((note) => h('p', {}, note)), ...whole,
    ...(whole.length ? [h('h3', {}, `Its first ${plural(runs[0].totals.instructions, 'instruction')}`)] : []),
    ...runs.flatMap((run) => [figures(run), bar(run, most, () => {})]),
    ...(runs.length ? [legend(runs, () => {})] : []),
    ...runs.flatMap((run, k) => [h('h2', {}, run.label ? `Timetable: ${run.label}` : 'Timetable'),
      ...drawn[k].map((sheet) => h('div', { class: 'sheet' }, sheet))]),
    h('h2', {}, 'Deck'), h('pre', { class: 'cards-printed' }, cards.join('\n')),
    ...(report ? [h('h2', {}, 'Report'), h('pre', { class: 'cards-printed' }, listOf(report, MOST_LINES).join('\n'))]
      : []),
  );
}

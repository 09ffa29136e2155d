// The totals and tables of a long run, as the ledger adds them up (docs/ledger.md, "Totals and tables").
import { CAUSE_NAMES, Off, REASONS, SEGMENT_REASONS } from './causes.js';

const PARTED = ['instruction', 'index', 'operand'];

// The ticks by cause, of those by stage and by stage and kind of wait.
function causesOf(sums) {
  for (const stage of PARTED) {
    const waits = Object.entries(sums).filter(([name]) => name.startsWith(`${stage}_`));
    if (sums[stage] !== waits.reduce((all, [, ticks]) => all + ticks, 0)) throw new Off(
      `the waits of ${stage} do not add up to its charges`);
  }
  return Object.fromEntries(CAUSE_NAMES.map((cause) => [cause, sums[cause]]));
}

// Numbers by the words before them.
function named(words) {
  return Object.fromEntries(words.flatMap((word, k) => (k % 2 ? [[words[k - 1].toLowerCase(), Number(word)]] : [])));
}

// What the lines say: the keys are those that `explain json` has under `totals`.
export function totalsOf(text) {
  const told = { by_reason: {}, by_card: [] };
  const all = {};
  const counts = {};
  const cards = [];
  let sums = all;
  const lines = {
    END: (words) => { told.end = words[1].toLowerCase(); },
    DONE: (words) => { told.instructions = Number(words[1]); },
    TICKS: (words) => { told.ticks = Number(words[1]); },
    SUM: (words) => { sums[words.slice(1, -1).join('_').toLowerCase()] = Number(words.at(-1)); },
    CARD: (words) => {
      sums = {};
      cards.push({ card: Number(words[1]) || null, times: named(words.slice(2)).rows, sums });
    },
    REASON: (words) => {
      told.by_reason[SEGMENT_REASONS[words[1]] ?? words[1].toLowerCase()] = named(words.slice(2));
    },
    COUNT: (words) => { counts[words[1]] = Number(words.at(-1)); },
  };
  for (const line of text.split('\n')) lines[line.split(' ')[0]]?.(line.split(' '));
  told.by_cause = causesOf(all);
  told.by_card = cards.map(({ card, times, sums: own }) => ({ card, times, by_cause: causesOf(own) }));
  const spent = (causes) => Object.values(causes).reduce((one, ticks) => one + ticks, 0);
  told.by_card.sort((a, b) => spent(b.by_cause) - spent(a.by_cause) || a.card - b.card);
  Object.assign(told, { dropped: counts.DROP, wrong_guesses: counts.MISSED });
  const waited = Object.values(told.by_reason).reduce((one, { ticks }) => one + ticks, 0);
  for (const [good, what] of [
    [spent(told.by_cause) === told.ticks, 'the charges do not add up to the ticks of the run'],
    [Object.keys(told.by_reason).length === REASONS.length + 3, 'a reason has no line'],
    [cards.reduce((one, { times }) => one + times, 0) === told.instructions,
      'the rows of the cards are not those of the run'],
    [waited + told.by_cause.executing === told.ticks, 'the reasons do not add up to the ticks of the run'],
  ]) if (!good) throw new Off(what);
  return told;
}

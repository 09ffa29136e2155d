// The experiment: the same deck on machines of one to eight levels and under other delays, as plots; and that nothing
// but ticks changes.
import { h } from './dom.js';
import { listed, plural } from './words.js';
import { budgetOf, bytesOf, delayCards, delaysOf, hasReaderCards, linesOf, withCards } from './decks.js';
import { plot } from './plot.js';
import { Stopped } from './programs.js';

const DELAYS = ['1', '2', '4', '8', '12', '16'];
const LEVELS = [1, 2, 3, 4, 5, 6, 7, 8];
const SHOWN_LEVELS = [1, 2, 4, 8];
const LONG = 100000;            // a deck that may do more is run only where that is asked for
const MOST_DELAY = 255;
const MOST_DELAYS = 4096;
const LATIN = new TextDecoder('latin1');
const CALM = 'The program says that the run is calm under all of these delays; then it is proved that more levels '
  + 'are never slower.';
const NOT_CALM = 'Under these delays it is not proved that more levels are never slower: the run is not what the '
  + 'glossary calls calm.';
// The lines of a report that delays may change, and the cards that ask for such lines.
const OF_TICKS = /^(ROW|DROP|TIME|TICKS) .*\n/gm;
const ASK_TICKS = ['DELAYS', 'TIME', 'CHART', 'SNAP', 'LIST'];

export class Experiment {
  constructor(box, runner) {
    Object.assign(this, { box, runner, shown: null, lists: [...DELAYS] });
  }

  stop() {
    this.runner.stop();
    this.shown = null;
  }

  async written(program, words, text) {
    const { status, bytes } = await this.runner.run(program, words, bytesOf(text));
    if (status !== 0) throw new Error(`the deck is refused under these delays, or can not be run (status ${status})`);
    return LATIN.decode(bytes);
  }

  // The ticks on each number of levels, and whether the program says that more are never slower.
  async ticks(text, hasReader) {
    if (!hasReader) {
      const report = await this.written('stretch', ['sweep'], text);
      return { ticks: [...report.matchAll(/^LEVELS \d TICKS (\d+)$/gm)].map((found) => Number(found[1])),
        calm: /^CALM 1$/m.test(report) };
    }
    const ticks = [];
    for (const levels of LEVELS) ticks.push(Number(/^TICKS (\d+)$/m.exec(
      await this.written('ledger', [String(levels), 'sums'], text))[1]));
    return { ticks, calm: false };
  }

  // Shows the experiment with a deck, where it is not shown yet.
  async show(text, isSure = false) {
    if (this.shown === text) return;
    if (this.text !== text) this.lists = [...DELAYS];       // lists that were added are for the deck of then
    this.text = text;
    this.runner.stop();
    this.shown = text;
    const lines = linesOf(text);
    if (budgetOf(lines) > LONG && !isSure) {
      this.shown = null;
      const sure = h('button', { onclick: () => this.show(text, true) }, 'Run the experiment');
      this.box.replaceChildren(h('p', {},
        `This deck may do more than ${plural(LONG, 'instruction')}, and an experiment runs it some fifty times. `,
        sure));
      return;
    }
    try {
      await this.made(text, lines);
    } catch (error) {
      if (error instanceof Stopped) return;
      this.shown = null;
      this.box.replaceChildren(h('p', { class: 'fault-line' }, error.message));
    }
  }

  async made(text, lines) {
    const hasReader = hasReaderCards(lines);
    const lists = [...new Set([...this.lists, delaysOf(lines)].filter(Boolean))];
    const status = h('span', { class: 'soft', role: 'status' }, 'runs …');
    this.box.replaceChildren(h('p', {}, status, ' ', h('button', { onclick: () => this.stopped() }, 'Stop')));
    const found = new Map();
    const others = new Set();
    for (const list of lists) {
      const cards = delayCards(list.split(' '));
      found.set(list, await this.ticks(withCards(text, ['DELAYS'], cards), hasReader));
      others.add((await this.written('stretch', ['run'], withCards(text, ASK_TICKS, cards))).replace(OF_TICKS, ''));
      status.textContent = `runs … ${found.size} of ${lists.length} lists of delays`;
    }
    this.plots(text, found, others.size === 1);
  }

  stopped() {
    this.stop();
    this.box.replaceChildren(h('p', { class: 'soft' }, 'Stopped.'));
  }

  plots(text, found, isSame) {
    const lists = [...found.keys()];
    const uniform = lists.filter((list) => !list.includes(' ')).sort((a, b) => a - b);
    const isCalm = [...found.values()].every((one) => one.calm);
    const rises = (list) => found.get(list).ticks.some((ticks, k, all) => k > 0 && ticks > all[k - 1]);
    const name = (list) => `delay ${list.length > 9 ? `${list.slice(0, 8)}…` : list}`;
    const slower = lists.filter(rises).map(name);
    this.box.replaceChildren(
      h('p', { class: isSame ? 'claim' : 'claim bad', role: 'status' }, isSame
        ? `✓ All other lines of the reports are the same, byte for byte, under ${lists.length} lists of delays: `
          + 'only ticks change. They were compared now.'
        : '✗ Other lines of the reports differ as well. That must not be: please report this deck.'),
      this.ask(text),
      h('div', { class: 'plots' },
        plot({
          title: 'Ticks of the run with more levels', name: 'levels', xs: LEVELS,
          series: lists.map((list) => ({ name: name(list), ys: found.get(list).ticks })),
          note: isCalm ? CALM : NOT_CALM + (slower.length
            ? ` Here more levels are slower with ${listed(slower)}, as the table shows.` : ''),
        }),
        uniform.length > 1 ? plot({
          title: 'Ticks of the run with slower storage', name: 'delay', xs: uniform.map(Number),
          series: SHOWN_LEVELS.map((levels) => ({ name: plural(levels, 'level'),
            ys: uniform.map((list) => found.get(list).ticks[levels - 1]) })),
          note: 'Each read of storage takes as many ticks as the delay.',
        }) : null));
  }

  // Adds a list of delays.
  ask(text) {
    const input = h('input', { size: 14, placeholder: '1 255 3 17', 'aria-label': 'list of delays',
      oninput: () => input.setCustomValidity('') });
    return h('form', { class: 'ask', onsubmit: (event) => {
      event.preventDefault();
      const numbers = input.value.trim().split(/[\s,]+/);
      if (numbers.length > MOST_DELAYS || !numbers.every((one) => /^\d{1,3}$/.test(one) && Number(one) >= 1
          && Number(one) <= MOST_DELAY)) {
        input.setCustomValidity(`numbers from 1 to ${MOST_DELAY}, with blanks between them`);
        input.reportValidity();
        return;
      }
      const list = numbers.map(Number).join(' ');
      if (!this.lists.includes(list)) this.lists.push(list);
      this.shown = null;
      this.show(text, true);
    } }, h('label', {}, 'another list of delays ', input), h('button', {}, 'Add'),
    this.lists.filter((list) => !DELAYS.includes(list)).map((list) =>
      [' ', h('button', { type: 'button', onclick: () => this.without(list, text) }, `without ${list.slice(0, 20)}`)]));
  }

  without(list, text) {
    this.lists = this.lists.filter((one) => one !== list);
    this.shown = null;
    this.show(text, true);
  }
}

// The stack of causes as a bar with its names, and the strip below it: which cause each tick went to. The strip is the
// slider.
import { h, s } from './dom.js';
import { CAUSES, grouped, plural } from './words.js';

const A_HAIR = 0.02;            // of a tick
const HEIGHT = 20;
const ABOVE = 10;
// Marks are drawn as triangles only where they stand so far apart.
const APART = 12;

// The numbers of a run in a line.
export function figures({ totals, interrupts, data, label }) {
  const { ticks, instructions } = totals;
  const counted = (number, one, many = `${one}s`) => [grouped(number), number === 1 ? one : many];
  const pairs = [counted(ticks, 'tick'), counted(instructions, 'instruction'),
    [instructions ? (ticks / instructions).toFixed(2) : '-', 'ticks an instruction'],
    counted(totals.dropped, 'dropped', 'dropped'), counted(interrupts ?? data.interrupts.length, 'interrupt'),
    counted(totals.wrong_guesses, 'wrong guess', 'wrong guesses'), counted(data.levels, 'level')];
  return h('p', { class: 'figures' }, label ? h('b', { class: 'label' }, label) : null,
    pairs.map(([number, what]) => h('span', {}, h('b', {}, number), ` ${what}`)));
}

// The bar: a button a cause, as wide as its ticks, on a scale on which the longest run fills the line.
export function bar(run, most, choose) {
  const shares = run.totals.by_cause;
  return h('div', { class: 'bar', style: `width:${(100 * run.totals.ticks) / Math.max(most, 1)}%` },
    CAUSES.filter(([cause]) => shares[cause]).map(([cause, name]) => h('button', {
      class: `piece b-${cause}`,
      'data-cause': cause,
      style: `flex:${shares[cause]} 0 0`,
      title: `${name}: ${plural(shares[cause], 'tick')}`,
      'aria-label': `${name}: ${plural(shares[cause], 'tick')}; marks them below`,
      onclick: () => choose(cause),
    }, shares[cause] / run.totals.ticks > 0.05 ? h('span', {}, grouped(shares[cause])) : '')));
}

// The names of the causes that came up, with their ticks in each run.
export function legend(runs, choose) {
  const found = CAUSES.filter(([cause]) => runs.some((run) => run.totals.by_cause[cause]));
  return h('div', { class: 'legend' }, found.map(([cause, name]) => h('button', {
    class: 'name',
    'data-cause': cause,
    'aria-pressed': 'false',
    onclick: () => choose(cause),
  }, h('i', { class: `mark b-${cause}`, 'aria-hidden': 'true' }), `${name} `,
  h('b', {}, runs.map((run) => grouped(run.totals.by_cause[cause])).join(' / ')))));
}

// Which causes the ticks of each column went to: by causes the paths of their pieces. A column stands for one tick or
// for many.
function columns(run, first, last, width) {
  const paths = new Map();
  const put = (cause, x, y, w, height) => {
    paths.set(cause,
      `${paths.get(cause) ?? ''}M${x.toFixed(2)} `
        + `${y.toFixed(2)}h${w.toFixed(2)}v${height.toFixed(2)}h${(-w).toFixed(2)}z`);
  };
  const scale = width / Math.max(last - first, 1);
  if (scale >= 1) {
    for (const { from, to, cause } of run.charges) put(cause, (from - first) * scale, 0, (to - from) * scale, HEIGHT);
    return paths;
  }
  const counts = Array.from({ length: Math.ceil(width) }, () => null);
  for (const { from, to, cause } of run.charges) {
    for (let t = from; t < to;) {
      const column = Math.min(Math.floor((t - first) * scale), counts.length - 1);
      const end = Math.min(to, Math.max(t + 1, Math.ceil(first + (column + 1) / scale)));
      counts[column] ??= new Map();
      counts[column].set(cause, (counts[column].get(cause) ?? 0) + end - t);
      t = end;
    }
  }
  counts.forEach((column, x) => {
    if (!column) return;
    const whole = [...column.values()].reduce((sum, n) => sum + n, 0);
    let y = HEIGHT;
    for (const [cause] of [...CAUSES].reverse()) {
      const n = column.get(cause);
      if (!n) continue;
      const height = (HEIGHT * n) / whole;
      y -= height;
      put(cause, x, y, 1, height);
    }
  });
  return paths;
}

// The strips of all runs on one axis, from `left` pixels on; `go` is called with the tick that is pointed at.
export class Strip {
  constructor(runs, first, last, go) {
    Object.assign(this, { runs, first, last });
    this.svg = s('svg', { class: 'strip', 'aria-hidden': 'true' });
    this.box = h('div', {
      class: 'slider', role: 'slider', tabindex: '0', id: 'slider', 'aria-label': 'tick', 'aria-valuemin': first,
      'aria-valuemax': last,
    }, this.svg);
    const point = (event) => {
      const x = event.clientX - this.box.getBoundingClientRect().left - this.left;
      // a tick is drawn up to its place on the axis
      go(Math.ceil(first + (x / this.width) * (last - first) - A_HAIR));
    };
    this.box.addEventListener('pointerdown', (event) => {
      this.box.setPointerCapture(event.pointerId);
      point(event);
    });
    this.box.addEventListener('pointermove', (event) => {
      if (this.box.hasPointerCapture(event.pointerId)) point(event);
    });
  }

  // Draws anew for a width; the axis begins at `left` and has `width` pixels.
  draw(left, width) {
    Object.assign(this, { left, width });
    const all = [];
    let y = ABOVE;
    for (const run of this.runs) {
      const pieces = [...columns(run, this.first, this.last, width)].map(([cause, d]) =>
        s('path', { class: `f-${cause}`, 'data-cause': cause, d }));
      all.push(s('g', { transform: `translate(${left} ${y})` }, pieces));
      all.push(s('g', { transform: `translate(${left} ${y})`, class: 'events' }, this.marks(run)));
      y += HEIGHT + ABOVE;
    }
    this.cursor = s('rect', { class: 'cursor', x: -1.5, y: 0, width: 3, height: y, rx: 1.5 });
    all.push(s('text', { class: 'soft', x: left - 8, y: ABOVE + 15, 'text-anchor': 'end' }, left > 200
      ? 'each tick went to' : ''));
    this.svg.setAttribute('height', y);
    this.svg.setAttribute('width', left + width + 8);
    this.svg.replaceChildren(...all, this.cursor);
  }

  marks(run) {
    const scale = this.width / Math.max(this.last - this.first, 1);
    const places = run.events().map((event) => (event.tick - this.first) * scale);
    const thin = places.some((x, k) => k > 0 && x - places[k - 1] < APART);
    return places.map((x) => s('path', { d: thin ? `M${x} -6h.8v6h-.8z` : `M${x - 3.5} -8h7l-3.5 5z` }));
  }

  set(t, text) {
    if (!this.cursor) return;           // it is not drawn yet
    const x = this.left + ((t - this.first) / Math.max(this.last - this.first, 1)) * this.width;
    this.cursor.style.transform = `translateX(${x}px)`;
    this.box.setAttribute('aria-valuenow', t);
    this.box.setAttribute('aria-valuetext', text);
  }
}

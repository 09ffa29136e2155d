// The timetable: a line a row, with the entry's life in its level above and its charges below. Only what is seen is
// drawn, and what was drawn stays where nothing of it is another: a step without scrolling moves the cursor and marks
// alone.
import { h, place, put, s } from './dom.js';
import { countWhile } from './read.js';
import { REASONS, causeName, plural } from './words.js';

const LINE = 22;
const AXIS = 24;
const BAR = 12;
const EDGE = 99;            // so far to the left the cursor is out of sight
const LETTER = 7.4;
const MARGIN = 8;
const MISSED = 'guessed wrongly';
const TELL = 200;           // milliseconds before rows that come into view are listed in words
// No element of a page may be longer than this in some browsers.
const MOST = 15000000;

// The lines of a run: its rows, behind the last one of a segment what was dropped, and interrupts.
function linesOf(run) {
  const lines = [];
  run.segments.forEach((segment, k) => {
    const range = run.bySegment[k];
    for (let n = range.from; n < range.to; n += 1) {
      // Behind the last tick of a run that goes on there is nothing of a row to be seen.
      if (run.rows[n].p > run.last && !run.ended) continue;
      run.rows[n].line = lines.length;
      lines.push({ entry: run.rows[n] });
    }
    if (range.to === 0 || segment.end > run.last) return;
    for (const entry of segment.dropped) {
      entry.line = lines.length;
      lines.push({ entry });
    }
    const interrupt = run.interrupt(segment.end);
    if (interrupt) lines.push({ interrupt });
  });
  return lines;
}

// Where numbers and addresses of rows end, and where their texts begin: as far left as the longest of them lets them.
function edgesOf(lines) {
  let [numbers, addresses] = ['drop'.length, 1];
  for (const { entry } of lines) {
    if (!entry) continue;
    numbers = Math.max(numbers, String(entry.row ?? '').length);
    addresses = Math.max(addresses, entry.address.length);
  }
  const number = MARGIN + Math.ceil(numbers * LETTER);
  const address = number + 1.5 * MARGIN + Math.ceil(addresses * LETTER);
  return { number, address, text: address + MARGIN };
}

// A text that is too long for its room ends in an ellipsis.
function fitted(text, room) {
  const most = Math.max(1, Math.floor(room / LETTER));
  return text.length > most ? `${text.slice(0, most - 1)}…` : text;
}

export class Timetable {
  constructor(run, app, last) {
    Object.assign(this, { run, app, first: run.first, last });
    this.lines = linesOf(run);
    this.edges = edgesOf(this.lines);
    this.build();
    this.svg = s('svg', { class: 'rows', 'aria-hidden': 'true' }, this.parts, this.cursor);
    this.size = h('div', { class: 'size' });
    // What the drawing shows, in words: the rows in view.
    this.heard = h('ul', { class: 'heard', 'aria-label': 'rows in view' });
    const name = `timetable${run.label ? ` of ${run.label}` : ''}: ${plural(run.rows.length, 'row')}, of which `
      + `those in view are listed`;
    this.box = h('div', { class: 'timetable', tabindex: '0', role: 'group', 'aria-label': name },
      h('div', { class: 'stick' }, this.svg, this.heard), this.size);
    Object.assign(this, { asked: false, told: '', telling: null });
    this.listen();
  }

  // The parts of the drawing, each above those before it.
  build() {
    const part = (kind) => s('g', { class: kind });
    const ground = (more) => s('rect', { class: 'ground', x: 0, y: 0, ...more });
    const [grid, bars, below, marks, labels, above, axis] = [part('grid'), part(), ground(), part(), part('labels'),
      ground({ height: AXIS }), part('axis')];
    this.parts = [grid, bars, below, marks, labels, above, axis];
    Object.assign(this, { grid, bars, below, marks, labels, above, axis, drawn: new Map(), sized: '', placed: '' });
    this.cursor = s('path', { class: 'cursor' });
  }

  listen() {
    this.box.addEventListener('scroll', () => {
      this.measure();
      this.app.scrolled(this);
      this.later();
    });
    this.box.addEventListener('wheel', (event) => {
      if (!event.ctrlKey) return;
      event.preventDefault();
      this.app.zoom(event.deltaY < 0 ? 1.25 : 0.8);
    }, { passive: false });
    let from = null;
    this.box.addEventListener('pointerdown', (event) => {
      if (event.pointerType === 'touch' || event.target === this.box) return;
      from = { x: event.clientX, y: event.clientY, left: this.box.scrollLeft, top: this.box.scrollTop, moved: false };
      this.box.setPointerCapture(event.pointerId);
    });
    this.box.addEventListener('pointermove', (event) => {
      if (!from) return this.app.point(this, this.at(event), event);
      if (Math.abs(event.clientX - from.x) + Math.abs(event.clientY - from.y) > 4) from.moved = true;
      if (from.moved) this.box.scrollTo(from.left - event.clientX + from.x, from.top - event.clientY + from.y);
      return undefined;
    });
    this.box.addEventListener('pointerup', (event) => {
      const moved = from?.moved;
      from = null;
      if (!moved) this.click(this.at(event), event.pointerType === 'touch');
    });
    this.box.addEventListener('pointercancel', () => { from = null; });
    this.box.addEventListener('pointerleave', () => this.app.point(this, null));
  }

  // What lies at a place of the screen: its line, and its tick, or none where it is a label.
  at(event) {
    const box = this.box.getBoundingClientRect();
    const x = event.clientX - box.left - this.box.clientLeft;
    const y = event.clientY - box.top - this.box.clientTop;
    const line = y < AXIS ? null : this.lines[Math.floor((y - AXIS + this.box.scrollTop) / LINE)] ?? null;
    const tick = x < this.app.left ? null : Math.round(this.first + (x - this.app.left
      + this.box.scrollLeft) / this.scale);
    return { line, tick };
  }

  click({ line, tick }, isTap) {
    if (tick !== null) this.app.go(tick, this.run);
    else if (line) this.app.go(line.entry ? line.entry.p : line.interrupt.tick, this.run);
    if (line) this.app.pointed(this.run, line, isTap);
  }

  // Size and place of the box are kept, so that no step has to ask for a layout.
  measure() {
    const { clientWidth, clientHeight, scrollLeft, scrollTop } = this.box;
    Object.assign(this, { width: clientWidth, height: clientHeight, scrollLeft, scrollTop });
  }

  // The width that ticks have at the scale that is wanted.
  layout() {
    this.scale = Math.min(this.app.scale, MOST / Math.max(this.last - this.first, 1));
    this.size.style.width = `${this.app.left + (this.last - this.first) * this.scale + 12}px`;
    this.size.style.height = `${AXIS + this.lines.length * LINE + 4}px`;
    this.measure();
    this.draw();
  }

  // Scrolls so that a tick and the line of an entry are seen.
  show(t, entry) {
    const { width, height, scrollLeft, scrollTop } = this;
    const x = (t - this.first) * this.scale;
    const room = width - this.app.left;
    let left = scrollLeft;
    let top = scrollTop;
    if (x < scrollLeft + 20 || x > scrollLeft + room - 20) left = Math.max(0, x - room / 3);
    if (entry?.line !== undefined) {
      const y = entry.line * LINE;
      if (y < scrollTop || y + 5 * LINE > scrollTop + height - AXIS) top = Math.max(0, y - 3 * LINE);
    }
    if (left !== scrollLeft || top !== scrollTop) this.box.scrollTo(left, top);
    this.later();
  }

  later() {
    if (this.asked) return;
    this.asked = true;
    requestAnimationFrame(() => {
      this.asked = false;
      this.draw();
    });
  }

  x(t) {
    return this.app.left + (t - this.first) * this.scale - this.scrollLeft;
  }

  draw() {
    const { width, height, scrollTop } = this;
    if (!width || !height || !this.scale) return;
    const from = Math.floor(scrollTop / LINE);
    const to = Math.min(this.lines.length, Math.ceil((scrollTop + height - AXIS) / LINE));
    const cursor = this.x(this.app.tickOf(this.run));
    this.cursor.style.transform = `translateX(${cursor >= this.app.left - 1 ? cursor : -EDGE}px)`;
    this.fill(from, to);
    this.tell(from, to);
  }

  // Lists the lines that are drawn, where they are others; a pause first, since many steps may follow each other.
  tell(from, to) {
    const told = `${from} ${to}`;
    if (told === this.told) return;
    this.told = told;
    clearTimeout(this.telling);
    this.telling = setTimeout(() => this.heard.replaceChildren(...this.lines.slice(from, to)
      .map((line) => h('li', {}, spoken(this.run, line)))), TELL);
  }

  // Draws the lines from one up to another as they stand in a box of this size, with grid and axis.
  fill(from, to) {
    const { width, height, scrollLeft, scale } = this;
    const { left } = this.app;
    const sized = `${width} ${height} ${left}`;
    const placed = `${sized} ${scrollLeft} ${scale}`;
    if (sized !== this.sized) this.resize();
    if (placed !== this.placed) {
      this.grid.replaceChildren(...this.gridLines());
      this.axis.replaceChildren(...this.axisTexts());
    }
    Object.assign(this, { sized, placed });
    const numbers = Array.from({ length: Math.max(0, to - from) }, (_, k) => from + k);
    this.drawn = new Map(numbers.map((n) => [n, this.line(n)]));
    const all = [...this.drawn.values()];
    place(this.bars, all.map((one) => one.bars));
    place(this.labels, all.map((one) => one.label));
    put(this.marks, numbers.map((n) => this.markOf(n)));
  }

  // The box has another size, or the labels have.
  resize() {
    const { width, height } = this;
    for (const [name, value] of [['width', width], ['height', height],
      ['viewBox', `0 0 ${width} ${height}`]]) this.svg.setAttribute(name, value);
    this.cursor.setAttribute('d', `M-1 ${AXIS - 4}h2V${height}h-2z M-5 ${AXIS - 9}h10l-5 6z`);
    this.below.setAttribute('width', this.app.left);
    this.below.setAttribute('height', height);
    this.above.setAttribute('width', width);
    this.drawn = new Map();
  }

  // The drawing of a line, of which what was drawn for the same place on the axis stays.
  line(n) {
    const line = this.lines[n];
    const one = this.drawn.get(n) ?? { bars: s('g'), label: s('g', {}, this.label(line)) };
    if (one.placed !== this.placed) one.bars.replaceChildren(...this.barsOf(line).filter(Boolean));
    one.placed = this.placed;
    const y = this.y(n);
    if (one.y === y) return one;
    one.y = y;
    for (const part of [one.bars, one.label]) part.setAttribute('transform', `translate(0 ${y})`);
    return one;
  }

  y(n) {
    return AXIS + n * LINE - this.scrollTop;
  }

  // What marks a line: it is at a level, or its card is chosen.
  markOf(n) {
    const { entry } = this.lines[n];
    const isHere = entry && this.app.isLevel(this.run, entry);
    if (!isHere && (!entry || this.app.card === null || entry.card !== this.app.card)) return null;
    return s('rect', { class: isHere ? 'here' : 'marked', x: 0, y: this.y(n), width: this.app.left - 4,
      height: LINE });
  }

  // The step between two numbers of the axis, which do not touch.
  step() {
    const least = Math.max(44, String(this.last).length * LETTER + 12);
    let step = 1;
    for (let k = 0; step * this.scale < least; k += 1) step *= k % 3 === 1 ? 2.5 : 2;
    return Math.max(1, Math.round(step));
  }

  *shown() {
    const step = this.step();
    const first = Math.max(this.first, Math.ceil((this.first + this.scrollLeft / this.scale) / step) * step);
    for (let t = first; t <= this.last && this.x(t) < this.width; t += step) yield t;
  }

  gridLines() {
    const { height } = this;
    const lines = [...this.shown()].map((t) => s('path', { d: `M${this.x(t)} ${AXIS}V${height}` }));
    const snaps = this.app.snaps.filter((t) => this.x(t) >= this.app.left && this.x(t) < this.width);
    return [...lines, ...snaps.map((t) => s('path', { class: 'snap', d: `M${this.x(t)} ${AXIS}V${height}` }))];
  }

  axisTexts() {
    // No number is cut at the edge.
    return [...this.shown()].filter((t) => this.x(t) + String(t).length * LETTER / 2 <= this.width)
      .map((t) => s('text', { x: this.x(t), y: 16, 'text-anchor': 'middle' }, String(t)));
  }

  // A rectangle of the ticks (from, to], where any of it is seen.
  piece(from, to, y, height, kind, more) {
    const left = Math.max(this.x(from), this.app.left - 2);
    const right = Math.min(this.x(to), this.width + 2);
    return right > left ? s('rect', { x: left, y, width: right - left, height, class: kind, ...more }) : null;
  }

  // The bars of a line, from its upper edge on.
  barsOf({ entry, interrupt }) {
    if (!entry) return [s('path', { class: 'event line',
      d: `M${this.app.left} 10H${this.x(interrupt.tick)}m-5 -4l5 4l-5 4` })];
    const before = this.run.before(entry);
    const start = this.run.segments[entry.place].start;
    const earlier = before && before.place === entry.place ? before.p : start;
    const ready = this.piece(earlier, entry.p, 9, 1.5, 'ready');
    if (entry.dropped) return [ready, this.piece(entry.p, entry.end, 4, BAR, 'drop')];
    const begins = entry.c - entry.cost;
    return [ready, this.piece(entry.p, entry.r, 3, BAR, 'f-operand_storage'),
      this.piece(entry.r, begins, 3.5, BAR - 1, 'turn'), this.piece(begins, entry.c, 3, BAR, 'f-executing'),
      ...entry.charges.map(({ from, to, cause }) => this.piece(from, to, 16, 4, `f-${cause}`, { 'data-cause': cause })),
      entry.missed && this.x(entry.c) >= this.app.left ? this.wrongGuess(entry, Math.min(earlier,
        entry.charges[0]?.from ?? entry.p)) : null];
  }

  // What is said of a wrong guess: after its bar, or before all that is drawn of it, or a cross, where there is room.
  wrongGuess(entry, first) {
    const [before, after] = [this.x(first) - 6, this.x(entry.c) + 6];
    if (before > this.width) return null;
    const text = (what, place) => s('text', { class: 'event', y: 14, ...place }, what);
    if (after + MISSED.length * LETTER <= this.width) return text(MISSED, { x: after });
    if (before - MISSED.length * LETTER >= this.app.left) return text(MISSED, { x: before, 'text-anchor': 'end' });
    return after + LETTER <= this.width ? text('✗', { x: after }) : null;
  }

  // What stands at the left of a line, from its upper edge on.
  label({ entry, interrupt }) {
    const { left } = this.app;
    if (!entry) {
      const name = interrupt.name ? ` (${interrupt.name})` : '';
      return s('text', { class: 'event', x: 8, y: 15 },
        `interrupt ${interrupt.indicator}${left > 250 ? `${name} at ${interrupt.tick}` : name}`);
    }
    const { number, address, text } = this.edges;
    return [s('text', { x: number, y: 15, 'text-anchor': 'end' }, entry.dropped ? 'drop' : String(entry.row)),
      s('text', { x: address, y: 15, 'text-anchor': 'end' }, entry.address),
      s('text', { x: text, y: 15 }, fitted((entry.text || '').replace(/\s+/g, ' '), left - text - 6))];
  }
}

const SHEET = { width: 1000, left: 300, lines: 44, most: 900, widest: 24 };

function ticksOf({ entry, interrupt }) {
  if (interrupt) return [interrupt.tick, interrupt.tick];
  return [entry.charges?.[0]?.from ?? entry.a, entry.dropped ? entry.end : entry.c];
}

// The pieces of a timetable for paper: some lines each, with their first and last tick. Of a long one the lines around
// a tick.
function piecesOf(run, tick) {
  const lines = linesOf(run);
  const near = Math.max(0, countWhile(lines, (line) => ticksOf(line)[1] <= tick) - SHEET.most / 2);
  const from = lines.length > SHEET.most ? near : 0;
  const pieces = [];
  for (let k = from; k < Math.min(lines.length, from + SHEET.most); k += SHEET.lines) {
    const shown = lines.slice(k, k + SHEET.lines);
    const first = Math.min(...shown.map((line) => ticksOf(line)[0]));
    pieces.push({ from: k, count: shown.length, first,
      last: Math.max(...shown.map((line) => ticksOf(line)[1]), first + 1) });
  }
  return pieces;
}

// The scales of pieces. All pieces of two runs have one scale, and one axis where each run is one piece. A run of its
// own has the widest scale for each piece; a shorter last piece has that of the piece before it.
function scaled(all) {
  const fitting = ({ first, last }) => Math.min(SHEET.widest, (SHEET.width - SHEET.left - 20) / (last - first));
  if (all.length === 1) {
    let widest = SHEET.widest;
    return [all[0].map((piece) => {
      widest = Math.min(piece.count < SHEET.lines ? widest : SHEET.widest, fitting(piece));
      return { ...piece, scale: widest };
    })];
  }
  const pieces = all.flat();
  const [first, last] = [Math.min(...pieces.map((one) => one.first)), Math.max(...pieces.map((one) => one.last))];
  const axis = all.every((one) => one.length === 1) ? { first, last } : {};
  const one = Math.min(...pieces.map((piece) => fitting({ ...piece, ...axis })));
  return all.map((some) => some.map((piece) => ({ ...piece, ...axis, scale: one })));
}

// The timetables of runs for paper: for each run its pictures.
export function sheets(runs, app, tick) {
  return scaled(runs.map((run) => piecesOf(run, tick))).map((pieces, n) => pieces.map((piece) => {
    const { first, last, scale, from, count } = piece;
    const table = new Timetable(runs[n], { ...PLAIN, snaps: app.snaps, left: SHEET.left }, last);
    Object.assign(table, { first, scale, width: SHEET.width, height: AXIS + count * LINE + 4, scrollLeft: 0,
      scrollTop: from * LINE });
    table.fill(from, from + count);
    return s('svg', { class: 'rows', viewBox: `0 0 ${table.width} ${table.height}`, role: 'img',
      'aria-label': 'timetable' }, table.parts);
  }));
}

// What a timetable asks of its page, where nothing is chosen.
const PLAIN = { card: null, isLevel: () => false };

// A line in words: what it is, its ticks, and what they were spent on.
function spoken(run, line) {
  const most = 2 + (line.entry?.charges?.length ?? 0);
  return `${about(run, { line, tick: null }).slice(0, most).join('; ')}.`.replace(/\s+/g, ' ');
}

// A row's numbers, charges and reads, for the pointer.
export function about(run, { line, tick }) {
  const { entry, interrupt } = line;
  if (interrupt) return [`Interrupt ${interrupt.indicator}${interrupt.name ? ` (${interrupt.name})` : ''} behind `
    + `row ${interrupt.after_row}, tick ${interrupt.tick}`];
  const what = entry.dropped ? `dropped at ${entry.end}` : `done at ${entry.c}, executes ${plural(entry.cost, 'tick')}`;
  const texts = [`${entry.dropped ? 'Dropped' : `Row ${entry.row}`}: ${entry.address} ${(entry.text || '').trim()}`,
    `address ${entry.a}, prepared ${entry.p}, operands ${entry.r}, ${what}`];
  for (const charge of entry.charges ?? []) texts.push(
    `${charge.from + 1 === charge.to ? '' : `${charge.from + 1}-`}${charge.to} `
      + `${causeName.get(charge.cause)}${charge.word === undefined ? '' : `, word ${charge.word}`}`);
  if (entry.because) {
    const { reason, row } = entry.because;
    const [text] = REASONS[reason === 'start' ? run.segments[entry.place].reason : reason];
    texts.push(`kept back: ${text}${row ? ` (row ${row})` : ''}`);
  }
  for (const use of entry.uses) {
    if (use.how === 'read') texts.push(
      `${use.kind} word ${use.word}: bank ${use.bank}, wanted ${use.want}, accepted ${use.accept}, there `
        + `${use.answer}${use.made ? '' : ' (not made)'}`);
    else if (use.kind !== 'following') texts.push(
      `${use.kind} word ${use.word}: ${use.how}${use.row ? ` from row ${use.row}` : ''}`);
  }
  if (tick !== null) texts.push(`here: tick ${tick}`);
  return texts;
}

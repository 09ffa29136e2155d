// The editor: a plain text area, so that undo, marking, the clipboard, input methods and screen readers are the
// browser's own. Behind it lies
// the same text in colours, of which only the lines that are seen are drawn, and beside it a gutter. A deck of very
// many cards is put into an
// element that the browser edits in blocks (longtext.js).
import { h, place } from './dom.js';
import { Line } from './line.js';
import { LongText, editsPlainText } from './longtext.js';
import { STATEMENT, READ, endOf, sameEnds } from './decks.js';

const LINE = 20;            // pixels, as in the style sheet
const TAB = 8;
const SHOWN = 400;          // characters of a line that are drawn
const BEYOND = 3;           // lines that are drawn above and below what is seen
const MANY = 3000;          // from so many lines on a text that is put in stands in blocks

// Puts text in the place of what is marked, so that the browser's undo knows of it.
function type(field, text) {
  if (field instanceof LongText) {
    field.type(text);
    return;
  }
  if (document.execCommand(text ? 'insertText' : 'delete', false, text)) return;
  field.setRangeText(text, field.selectionStart, field.selectionEnd, 'end');
  field.dispatchEvent(new Event('input', { bubbles: true }));
}

export class Editor {
  // `on` is told: `change(text, isTyped)`, `caret(card, column)`, `card(number)` of a click on a card's number,
  // `run()`; `isOperation(word)` is asked.
  constructor(box, on) {
    Object.assign(this, { box, on, lines: [''], end: 1, wrong: null, card: null, marks: new Map(), heat: new Map(),
      hottest: 1, capitals: true, leaves: false });
    Object.assign(this, { height: 400, letter: 8, at: 0, column: 0, asked: null, heard: new Set(), drawn: [],
      ruled: '' });
    this.attributes = {
      id: 'deck', class: 'area', spellcheck: 'false', autocapitalize: 'off', autocomplete: 'off', autocorrect: 'off',
      wrap: 'off',
      'aria-label': 'deck, one card a line', 'aria-describedby': 'fault keys-hint',
    };
    // What has the text and what is marked in it, and the element that is seen.
    this.short = h('textarea', this.attributes);
    [this.field, this.area] = [this.short, this.short];
    this.room = new ResizeObserver(() => this.measure());
    this.colours = h('div', { class: 'colours', 'aria-hidden': 'true' });
    this.gutter = h('div', { class: 'gutter', 'aria-hidden': 'true' });
    this.ruler = h('div', { class: 'ruler', 'aria-hidden': 'true' });
    this.grounds = ['names', 'edge', 'past'].map((kind) => h('div', { class: kind }));
    this.probe = h('span', { class: 'probe', 'aria-hidden': 'true' }, '0'.repeat(100));
    box.replaceChildren(this.ruler, this.gutter, h('div', { class: 'paper' }, this.colours, this.area), this.probe);
    this.listen();
    this.listenTo(this.area);
  }

  get text() {
    return this.field.value;
  }

  // Puts another text in: where it is to be undone by the browser's undo what differs is typed, else it is set.
  set(text, { undo = false } = {}) {
    if (undo && text.length < 200000) {
      const before = this.text;
      const [front, back] = sameEnds(before, text);
      this.select(front, before.length - back);
      type(this.field, text.slice(front, text.length - back));
    } else {
      this.take(text.split('\n', MANY).length < MANY || !editsPlainText() ? this.short : this.many);
      this.field.value = text;
    }
    this.field.setSelectionRange(0, 0);
    this.area.scrollTo(0, 0);
    this.changed();
  }

  get many() {
    this.long ??= new LongText(this.attributes);
    return this.long;
  }

  // Another of the two has the text from now on.
  take(field) {
    if (field === this.field) return;
    const area = field.box ?? field;
    const isFocused = document.activeElement === this.area;
    this.room.disconnect();
    this.area.replaceWith(area);
    Object.assign(this, { field, area });
    this.listenTo(area);
    if (isFocused) area.focus();
  }

  // Marks a part of the text, and takes the keyboard.
  select(start, end) {
    this.field.focus();
    this.field.setSelectionRange(start, end);
  }

  changed(isTyped = false) {
    const text = this.text;
    this.lines = text.split('\n');
    this.end = endOf(this.lines);
    Object.assign(this, { wrong: null, marks: new Map(), heat: new Map() });
    this.where();
    this.later();           // a browser may tell of one change in a thousand pieces
    this.on.change(text, isTyped);
  }

  listen() {
    document.addEventListener('selectionchange', () => { if (document.activeElement === this.area) this.where(); });
    this.gutter.addEventListener('click', (event) => {
      const card = Math.floor((event.clientY - this.gutter.getBoundingClientRect().top + this.area.scrollTop) / LINE)
        + 1;
      if (card <= this.lines.length) this.on.card(card);
    });
  }

  listenTo(area) {
    this.room.observe(area);
    if (this.heard.has(area)) return;
    this.heard.add(area);
    area.addEventListener('input', () => this.changed(true));
    area.addEventListener('scroll', () => this.draw());
    area.addEventListener('keydown', (event) => this.press(event));
    area.addEventListener('beforeinput', (event) => this.typed(event));
    area.addEventListener('focus', () => this.box.classList.add('focused'));
    area.addEventListener('blur', () => {
      this.leaves = false;
      this.box.classList.remove('focused');
    });
  }

  // ---- the caret

  // Its line and column, from 0 on.
  caret() {
    const { text } = this;
    const at = this.field.selectionStart;
    const begin = text.lastIndexOf('\n', at - 1) + 1;
    let line = 0;
    for (let k = text.indexOf('\n'); k >= 0 && k < at; k = text.indexOf('\n', k + 1)) line += 1;
    return { line, column: at - begin, text: this.lines[line] ?? '' };
  }

  where() {
    const { line, column } = this.caret();
    if (line === this.at && column === this.column) return;
    Object.assign(this, { at: line, column });
    this.on.caret(line + 1, column + 1);
    this.later();
  }

  press(event) {
    const isPlain = !event.shiftKey && this.field.selectionStart === this.field.selectionEnd;
    const { key } = event;
    if (key === 'Enter' && (event.ctrlKey || event.metaKey)) {
      event.preventDefault();
      this.on.run();
    } else if (key === 'Tab' && !event.shiftKey && !event.ctrlKey && !event.altKey && !event.metaKey
      && !this.leaves) this.tabulate(event);
    else if (key === 'Enter' && isPlain) this.enter(event);
    else if (key === 'Backspace' && isPlain) this.backspace(event);
    if (key === 'Escape') this.leaves = true;
    else if (key !== 'Tab') this.leaves = false;
  }

  // To column 10, and behind an operation to every eighth from there. A name that was typed in column 1 or 10, where a
  // new card begins, goes to column 2.
  tabulate(event) {
    const { column, text } = this.caret();
    if (/^[*/]/.test(text) && column === 0) return;
    event.preventDefault();
    if (column >= STATEMENT && !text.slice(0, column).trim()) return;
    const name = /^(?: {9,})?([A-Za-z][A-Za-z0-9]{0,7})$/.exec(text.slice(0, column))?.[1];
    if (name && !this.on.isOperation(name.toUpperCase())) {
      const at = this.field.selectionStart;
      this.field.setSelectionRange(at - column, at);
      type(this.field, ` ${name.padEnd(STATEMENT - 1)}`);
      return;
    }
    const stop = column < STATEMENT ? STATEMENT : STATEMENT + TAB * (Math.floor((column - STATEMENT) / TAB) + 1);
    type(this.field, ' '.repeat(stop - column));
  }

  // Behind a statement the next card begins in column 10, also where blanks stand behind the caret.
  enter(event) {
    const { line, text, column } = this.caret();
    if (line >= this.end || text[0] === '*' || text[0] === '/' || column < STATEMENT) return;
    event.preventDefault();
    const at = this.field.selectionStart;
    this.field.setSelectionRange(at, at + /^ */.exec(text.slice(column))[0].length);
    type(this.field, `\n${' '.repeat(STATEMENT)}`);
    const below = (line + 3) * LINE - this.area.scrollTop - this.height;
    if (below > 0) this.area.scrollTop += below;
    this.area.scrollLeft = 0;
  }

  // The blanks before column 10 go at once, but for column 1.
  backspace(event) {
    const { column, text } = this.caret();
    if (column !== STATEMENT || text.slice(0, STATEMENT).trim() !== '') return;
    event.preventDefault();
    const at = this.field.selectionStart;
    this.field.setSelectionRange(at - STATEMENT + 1, at);
    document.execCommand('delete');
  }

  // The machine has no small letters: in statements and control cards they become capitals as they are typed.
  typed(event) {
    if (!this.capitals || event.inputType !== 'insertText' || event.isComposing
      || !/^[a-z]$/.test(event.data ?? '')) return;
    const { line, column, text } = this.caret();
    const before = text.slice(0, column);
    const isText = text[0] === '*' || (text[0] !== '/' && (/^[^;']*('[^']*'[^;']*)*;/.test(before)
      || (before.match(/'/g) ?? []).length % 2));
    if (isText || (line > this.end && text[0] !== '/') || /0x[0-9a-f]*$/i.test(before)
      || (/(^|[,+-])0$/.test(before) && event.data === 'x')) return;
    event.preventDefault();
    type(this.field, event.data.toUpperCase());
  }

  // ---- what is shown beside the text

  // Marks a card as the faulty one; one behind the last line is shown at that.
  fault(card) {
    this.wrong = card === null ? null : Math.min(card, this.lines.length);
    if (card === null) this.area.removeAttribute('aria-invalid');
    else this.area.setAttribute('aria-invalid', 'true');
    this.draw();
  }

  // Puts the caret at a card, and scrolls to it.
  goTo(card, isMarked = true) {
    const begin = this.lines.slice(0, card - 1).reduce((sum, line) => sum + line.length + 1, 0);
    const end = begin + (this.lines[card - 1] ?? '').length;
    this.select(isMarked ? begin : end, end);
    this.show(card);
    this.where();
  }

  // Scrolls to a card.
  show(card) {
    const y = (card - 1) * LINE;
    if (y < this.area.scrollTop || y + LINE > this.area.scrollTop + this.height) this.area.scrollTop = Math.max(0,
      y - this.height / 3);
  }

  // Marks the cards of the levels and of what is prepared next (as Deck does).
  setLevels(levels, next) {
    this.marks = new Map();
    const put = (card, mark) => { if (card) this.marks.set(card, [...(this.marks.get(card) ?? []), mark]); };
    levels.forEach((entry, k) => put(entry.card, String(k + 1)));
    if (next) put(next.card, '▸');
    this.later('mark');
  }

  // How many ticks each card took.
  setHeat(heat) {
    this.heat = heat;
    this.hottest = Math.max(1, ...heat.values());
    this.later('mark');
  }

  // A card is chosen, or none.
  choose(card) {
    this.card = card;
    this.later('mark');
  }

  measure() {
    this.height = this.area.clientHeight || 400;
    this.letter = this.probe.getBoundingClientRect().width / 100 || 8;
    this.draw();
  }

  // Draws with the next frame, or where the lines stay as they are marks them alone.
  later(what = 'draw') {
    const isAsked = this.asked !== null;
    if (this.asked !== 'draw') this.asked = what;
    if (isAsked) return;
    requestAnimationFrame(() => {
      const asked = this.asked;
      this.asked = null;
      this[asked]();
    });
  }

  draw() {
    const { scrollTop, scrollLeft } = this.area;
    const from = Math.max(0, Math.floor(scrollTop / LINE) - BEYOND);
    const to = Math.min(this.lines.length, Math.ceil((scrollTop + this.height) / LINE) + BEYOND);
    const before = new Map(this.drawn.map((line) => [line.card, line]));
    this.drawn = [];
    for (let k = from; k < to; k += 1) {
      const text = this.lines[k].slice(0, SHOWN);
      const known = [k + 1, text, k > this.end && text[0] !== '/'];
      const old = before.get(k + 1);
      const line = old?.isOf(...known) ? old : new Line(...known);
      line.stand(k * LINE - scrollTop, scrollLeft);
      this.drawn.push(line);
    }
    this.mark();
    place(this.colours, [...this.grounds, ...this.drawn.map((line) => line.colours)]);
    place(this.gutter, this.drawn.map((line) => line.beside));
    this.rule((column) => (column - 1) * this.letter - scrollLeft);
  }

  // Marks the lines that are drawn; no place is asked for, so a step that needs no more lays out nothing here.
  mark() {
    const { hottest } = this;
    for (const line of this.drawn) line.show({ kind: this.kindOf(line.card), hottest,
      marks: (this.marks.get(line.card) ?? []).join(''), ticks: this.heat.get(line.card) });
  }

  kindOf(card) {
    const kinds = { wrong: this.wrong === card, here: this.marks.has(card), marked: this.card === card,
      caret: card === this.at + 1 };
    return ['line', ...Object.keys(kinds).filter((kind) => kinds[kind])].join(' ');
  }

  // The ruler and the grounds of the columns, where they are not as they stand.
  rule(x) {
    const ruled = `${x(1)} ${this.letter} ${this.column}`;
    if (ruled === this.ruled) return;
    this.ruled = ruled;
    const [names, edge, past] = this.grounds;
    names.style.cssText = `left:${x(2)}px;width:${STATEMENT * this.letter - this.letter}px`;
    edge.style.left = `${x(STATEMENT + 1)}px`;
    past.style.left = `${x(READ + 1)}px`;
    this.ruler.replaceChildren(h('div', { class: 'scale' }, this.columnsOf(x)));
  }

  columnsOf(x) {
    const word = (column, text) => h('span', { class: 'part', style: `left:${x(column)}px` }, text);
    const tens = [10, 20, 30, 40, 50, 60, 70, 80].map((k) => h('span',
      { class: 'ten', style: `left:${x(k)}px;width:${this.letter}px` }, String(k)));
    // Words are in one line, and numbers in the line below.
    return [word(2, 'name'), word(STATEMENT + 1, 'statement'), word(READ + 1, 'unread'), ...tens,
      h('i', { class: 'now', style: `left:${x(this.column + 1)}px;width:${this.letter}px` })];
  }
}

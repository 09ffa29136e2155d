// Stepping through the ticks of one run, or of two on one axis: the tick, its steps and keys, and where each view
// stands. The runs may be
// set anew at any time; what is drawn stays.
import { h, put } from './dom.js';
import { countWhile } from './read.js';
import { ZERO, grouped, plural, sentences } from './words.js';
import { Strip } from './strip.js';
import { Timetable, about } from './rows.js';
import { bankTable, committed, indexTable, interruptLine, levelTable, nextLine, printerPaper, registerTable,
  storageTable, waitingLine } from './tables.js';

// How wide the labels of rows are, by how wide the view is.
const LABELS = [[620, 300], [440, 214], [0, 168]];
const STRIP_MARGIN = 4;
const LEAST_SCALE = 5;          // a run whose ticks would be narrower is scrolled,
const OWN_SCALE = 9;            // and its ticks are so wide
const SCALES = { least: 0.02, most: 60, first: 40 };
const RATES = [1, 2, 5, 10, 25];
const NAME = /^[A-Z][A-Z0-9]{0,7}$/;            // of a card

// What the bars of a row are called, as the timetable and the picture have them.
export function phases() {
  const mark = (kind, text) => h('span', {}, h('i', { class: `mark m-${kind}` }), text);
  return [mark('operand', 'waits for operands'), mark('turn', 'waits for its turn'), mark('executing', 'executes'),
    mark('dropped', 'dropped')];
}

// A button of a step.
function step(id, text, title, label, act) {
  return h('button', { id, title, 'aria-label': label, onclick: act }, text);
}

export class Stepper {
  // `names` are those of indicators. `on` is told of what is chosen: `levels(levels, next)`, `card(card)`, `tick(t)`;
  // `wordOf(text)` gives the
  // word that a name stands for, and `nameOf(word)` the name of a word.
  constructor(names, on) {
    Object.assign(this, { names, on, runs: [], tables: [], snaps: [], levels: new Map(), chosen: null, cause: null,
      card: null, isAnother: false, wanted: null, pressed: null, shown: new Map() });
    Object.assign(this, { t: 0, first: 0, last: 0, timer: null, rate: RATES[1], zoomed: false, left: LABELS[0][1],
      scale: OWN_SCALE });
    this.build();
    new ResizeObserver(() => this.fit()).observe(this.stripBox);
  }

  // ---- what stands in the page

  build() {
    const box = (id, attributes = {}) => h('div', { id, ...attributes });
    this.sentence = h('p', { id: 'sentence', 'aria-live': 'polite' });
    this.notesBox = box('notes');
    this.stripBox = box('strip');
    this.causesBox = box('causes');              // the page around it says what stands here
    this.tablesBox = box('timetables');
    this.tip = box('tip', { hidden: true });
    // What the box at the pointer says, of the row of the tick or of one that was pressed: for a finger, and for keys.
    [this.rowHead, this.rowLines] = [h('summary', { title: 'its ticks and reads (r)' }), h('div', {})];
    this.rowBox = h('details', { id: 'row-box', ontoggle: () => this.tellRow() }, this.rowHead, this.rowLines);
    this.committedLine = h('p', { id: 'committed' });
    [this.levelsBox, this.wordsBox, this.banksBox, this.storageBox] = [box('levels'), box('words'), box('banks'),
      box('storage')];
    this.machine = h('section', { id: 'machine-view', 'aria-label': 'the machine at the tick' }, this.committedLine,
      h('div', { id: 'machine' }, this.levelsBox, this.wordsBox, this.banksBox, this.storageBox));
    // What leads to another tick stays in sight in the page around it.
    this.controls = h('div', { id: 'controls', role: 'group', 'aria-label': 'steps' },
      h('div', { id: 'steps' }, this.stepButtons(), this.until()),
      h('div', { id: 'options' }, this.playing(), this.scaleButtons()));
    this.view = h('div', { class: 'stepper' }, this.controls, this.sentence, this.stripBox, this.causesBox,
      this.notesBox, this.tablesBox, this.rowBox, this.key(), this.tip);
    addEventListener('keydown', (event) => this.press(event));
  }

  stepButtons() {
    this.tickInput = h('input', { id: 'tick', type: 'number', inputmode: 'numeric',
      onchange: (event) => this.go(Number(event.target.value)) });
    return [
      h('span', { class: 'group' },
        step('first', '|◀', 'first tick (Home)', 'first tick', () => this.go(this.first)),
        step('event-back', '◀◀!', 'interrupt, drop or wrong guess before (p, or control and left)', 'event before',
          () => this.event(false)),
        step('row-back', '◀◀', 'completion before (shift and left)', 'completion before', () => this.completion(false)),
        step('back', '◀', 'tick before (left)', 'tick before', () => this.go(this.t - 1))),
      h('label', { id: 'tick-of' }, h('span', {}, 'tick '), this.tickInput),
      h('span', { class: 'group' },
        step('forth', '▶', 'next tick (right)', 'next tick', () => this.go(this.t + 1)),
        step('row-forth', '▶▶', 'next completion (shift and right)', 'next completion', () => this.completion(true)),
        step('event-forth', '!▶▶', 'next interrupt, drop or wrong guess (n, or control and right)', 'next event',
          () => this.event(true)),
        step('last', '▶|', 'last tick (End)', 'last tick', () => this.go(this.last))),
    ];
  }

  playing() {
    this.playButton = h('button', { id: 'play', title: 'go on by itself (space)', 'aria-pressed': 'false',
      onclick: () => this.play() }, '▶ play');
    const rate = h('select', { id: 'rate', 'aria-label': 'ticks a second',
      onchange: (event) => this.setRate(Number(event.target.value)) },
      RATES.map((one) => h('option', { selected: one === this.rate }, one)));
    return h('span', { class: 'group' }, this.playButton, h('label', {}, rate, ' /s'));
  }

  scaleButtons() {
    this.runSelect = h('select', { id: 'run', onchange: (event) => this.chooseRun(
      this.runs[Number(event.target.value)]) });
    this.runLabel = h('label', { id: 'machine-of' }, 'details of ', this.runSelect);
    this.more = h('span', { class: 'group' });           // of the page around it
    return [h('span', { class: 'group' },
      step('out', '−', 'narrower ticks (-)', 'narrower ticks', () => this.zoom(0.8)),
      step('in', '+', 'wider ticks (+)', 'wider ticks', () => this.zoom(1.25))),
    h('span', { class: 'right' }, this.more, this.runLabel)];
  }

  // A break point: where the run goes next to a card, changes a word, or is interrupted.
  until() {
    this.untilKind = h('select', { id: 'until-kind', 'aria-label': 'go to', onchange: () => this.untilChosen() },
      h('option', { value: 'card' }, 'card'), h('option', { value: 'word' }, 'change of'),
      h('option', { value: 'interrupt' }, 'interrupt'));
    this.untilWhat = h('input', { id: 'until-what', size: 6, autocomplete: 'off', spellcheck: 'false',
      'aria-label': 'the card, word or register to go to', oninput: () => this.untilWhat.setCustomValidity('') });
    this.untilChosen();
    return h('form', { class: 'group', id: 'until', onsubmit: (event) => { event.preventDefault(); this.goUntil(true);
      } }, h('label', {}, 'go to ', this.untilKind), this.untilWhat,
      h('button', { type: 'button', id: 'until-back', title: 'the one before',
        'aria-label': 'go back to where it was before this tick', onclick: () => this.goUntil(false) }, '◀'),
      h('button', { id: 'until-forth', title: 'the next one (Enter)', 'aria-label': 'go on to where it is next' },
        '▶'));
  }

  untilChosen() {
    const kind = this.untilKind.value;
    this.untilWhat.hidden = kind === 'interrupt';
    this.untilWhat.placeholder = kind === 'card' ? '5, LOOP' : '50, $X1';
    this.untilWhat.title = kind === 'card' ? 'the number of a card, its name or its address: 5, LOOP, 34.32'
      : 'a word by number or name, or a register: 50, TOTAL, $X1, $IND';
    this.untilWhat.setCustomValidity('');
  }

  key() {
    this.snapKey = h('span', {}, 'dotted line: a snapshot (/SNAP)');
    return h('p', { class: 'key', 'aria-hidden': 'true' }, phases(),
      h('span', {}, 'thin line: it is prepared next'), h('span', {}, 'strip below a row: the ticks charged to it'),
      this.snapKey);
  }

  // ---- the runs

  // Shows other runs. The tick stays, or the end where it stood at the end; of another deck it is the beginning.
  set(runs, snaps = []) {
    if (this.timer !== null) this.play();
    const wasLast = this.runs.length > 0 && this.t === this.last && this.t > 0;
    Object.assign(this, { runs, snaps, chosen: runs[0], levels: new Map() });
    this.first = Math.min(...runs.map((run) => run.first));
    this.last = Math.max(...runs.map((run) => run.last));
    const t = this.wanted ?? (this.isAnother ? this.first : wasLast ? this.last : this.t);
    this.t = Math.min(Math.max(t, this.first), this.last);
    Object.assign(this, { isAnother: false, wanted: null });
    document.body.classList.toggle('two', runs.length > 1);
    this.notesBox.replaceChildren(...this.notes().map((note) => h('p', {}, note)));
    this.strip = new Strip(runs, this.first, this.last, (t) => this.go(t));
    this.stripBox.replaceChildren(this.strip.box);
    this.tables = runs.map((run) => new Timetable(run, this, this.last));
    this.tablesBox.replaceChildren(...this.tables.flatMap((table) =>
      [table.run.label ? h('h2', {}, table.run.label) : null, table.box].filter(Boolean)));
    Object.assign(this.tickInput, { min: this.first, max: this.last });
    this.snapKey.hidden = !snaps.length;
    this.runLabel.hidden = runs.length < 2;
    this.runSelect.replaceChildren(...runs.map((run, k) => h('option', { value: k }, run.label || '1')));
    this.fit();
    this.go(this.t);
  }

  // What has to be said beside the numbers.
  notes() {
    const notes = this.runs.filter((run) => !run.whole).map((run) =>
      `${run.label ? `${run.label}: r` : 'R'}ows ${grouped(run.rows[0].row)} to ${grouped(run.rows.at(-1).row)} `
      + 'are shown'
      + `${run.isCut ? '; the run goes on behind them' : ''}${run.rows[0].row > 1 ? '; reads of rows before these '
        + 'are not here' : ''}. ${this.on.cut ?? ''}`);
    if (this.runs.length === 2) notes.push(compared(...this.runs));
    return notes;
  }

  // ---- where things stand

  fit() {
    const width = this.stripBox.clientWidth;
    this.isHidden = !width;
    if (!width || !this.runs.length) return;
    [, this.left] = LABELS.find(([least]) => width > least);
    const room = Math.max(width - this.left - 16, 60);
    const whole = room / Math.max(this.last - this.first, 1);
    const isWhole = !this.zoomed && whole >= LEAST_SCALE;
    if (!this.zoomed) this.scale = isWhole ? Math.min(whole, SCALES.first) : OWN_SCALE;
    // Where the timetable is scrolled, a narrow page gives the strip the room of the labels too.
    const margin = !isWhole && this.left === LABELS.at(-1)[1] ? STRIP_MARGIN : this.left;
    this.strip.draw(margin, isWhole ? this.scale * (this.last - this.first) : room + this.left - margin);
    for (const table of this.tables) table.layout();
    this.update();
    if (this.isUnseen) this.showTick();
  }

  zoom(by) {
    this.zoomed = true;
    this.scale = Math.min(SCALES.most, Math.max(SCALES.least, this.scale * by));
    this.fit();
  }

  // Timetables of two runs are scrolled together along their ticks.
  scrolled(table) {
    for (const other of this.tables) if (other !== table
      && other.scrollLeft !== table.scrollLeft) other.box.scrollLeft = table.scrollLeft;
  }

  point(table, at, event) {
    const { tip } = this;
    tip.hidden = !at?.line;
    if (tip.hidden) return;
    tip.replaceChildren(...about(table.run, at).slice(0, 24).map((text) => h('div', {}, text)));
    const { innerWidth, innerHeight } = window;
    tip.style.left = `${Math.max(4, Math.min(event.clientX + 14, innerWidth - tip.offsetWidth - 8))}px`;
    const isLow = event.clientY + 18 + tip.offsetHeight > innerHeight;
    tip.style.top = `${isLow ? Math.max(4, event.clientY - tip.offsetHeight - 12) : event.clientY + 18}px`;
  }

  // A line was pressed; a finger opens the box, since nothing comes under it.
  pointed(run, line, isTap) {
    this.pressed = { run, line, t: this.t };
    if (isTap) this.rowBox.open = true;
    this.tellRow();
  }

  // While one steps on, the box waits.
  tellRowSoon() {
    clearTimeout(this.rowTimer);
    this.rowTimer = setTimeout(() => this.tellRow(), 40);
  }

  tellRow() {
    const run = this.chosen;
    if (!run) return;
    const at = this.tickOf(run);
    const isPressed = this.pressed?.run === run && this.pressed.t === this.t;
    const entry = run.charge(at)?.row ?? this.levels.get(run)[0] ?? run.next(at);
    const line = isPressed ? this.pressed.line : entry && { entry };
    this.rowBox.hidden = !line;
    if (!line) return;
    const [head, ...texts] = about(run, { line, tick: null });
    put(this.rowHead, [head]);
    put(this.rowLines, this.rowBox.open ? texts.map((text) => h('div', {}, text)) : []);
  }

  // ---- what is chosen

  tickOf(run) {
    return Math.min(Math.max(this.t, run.first), run.last);
  }

  isLevel(run, entry) {
    return this.levels.get(run)?.includes(entry) ?? false;
  }

  // The others fade (the style sheet has a rule for each cause).
  chooseCause(cause) {
    this.cause = this.cause === cause ? null : cause;
    this.markCauses();
  }

  markCauses() {
    document.body.dataset.cause = this.cause ?? '';
    for (const button of document.querySelectorAll('.legend button')) button.setAttribute('aria-pressed',
      String(button.dataset.cause === this.cause));
  }

  chooseCard(card) {
    this.card = this.card === card ? null : card;
    this.on.card?.(this.card);
    if (!this.chosen) return;
    const row = this.chosen.rows.find((one) => one.card === this.card && one.c >= this.t)
      ?? this.chosen.rows.find((one) => one.card === this.card);
    for (const table of this.tables) {
      if (row && table.run === this.chosen) table.show(this.t, row);
      else table.later();
    }
  }

  chooseRun(run) {
    this.chosen = run;
    this.runSelect.value = String(this.runs.indexOf(run));
    this.update();
  }

  // ---- steps

  go(t, run) {
    if (!this.runs.length) return;
    if (run && run !== this.chosen) this.chooseRun(run);
    this.t = Math.min(this.last, Math.max(this.first, Number.isFinite(t) ? Math.round(t) : this.t));
    this.tell();
    this.showTick();
    this.on.tick?.(this.t);
  }

  // Scrolls the timetables to the tick; out of sight they can't be scrolled, and are as soon as they are in sight.
  showTick() {
    this.isUnseen = this.isHidden;
    // Where no level is full a row is shown all the same: the one to which the tick is charged.
    for (const table of this.tables) {
      const at = this.tickOf(table.run);
      table.show(at, this.levels.get(table.run)[0] ?? table.run.charge(at)?.row ?? table.run.next(at));
    }
  }

  // The nearest of some ticks in order, behind the present one or before it.
  nearest(ticks, forth) {
    const t = forth ? ticks[countWhile(ticks, (one) => one <= this.t)]
      : ticks[countWhile(ticks, (one) => one < this.t) - 1];
    this.go(t ?? (forth ? this.last : this.first));
  }

  completion(forth) {
    this.nearest(this.chosen.rows.map((row) => row.c), forth);
  }

  event(forth) {
    this.nearest(this.chosen.events().map((event) => event.tick), forth);
  }

  // The ticks at which a break point holds, or what is wrong with it.
  ticksUntil(kind, what) {
    const { rows, data } = this.chosen;
    if (kind === 'interrupt') return { ticks: data.interrupts.map((one) => one.tick),
      none: 'the run has no interrupt' };
    if (kind === 'card') {
      const address = /^\d{1,6}\.(0|32)$/.test(what) ? what : this.on.addressOf?.(what) ?? addressOf(what, rows);
      if (address) return { ticks: rows.filter((row) => row.address === address).map((row) => row.c),
        none: `no instruction at ${address} is done` };
      if (NAME.test(what)) return { none: (this.on.wordOf?.(what) ?? null) === null ? `no card has the name ${what}`
        : `no instruction of ${what} is done` };
      if (!/^\d{1,7}$/.test(what)) return { none: 'the number of a card, its name or its address: 5, LOOP, 34.32' };
      return { ticks: rows.filter((row) => row.card === Number(what)).map((row) => row.c),
        none: `no instruction of card ${what} is done` };
    }
    const ticks = this.chosen.fields?.ticks(what, this.chosen);
    if (ticks) return { ticks, none: `the field ${what} does not change` };
    const word = /^\d{1,7}(\.0)?$/.test(what) ? Number(what) : this.on.wordOf?.(what) ?? this.on.wordOf?.(`$${what}`)
      ?? null;
    if (word === null) return { none: NAME.test(what) ? `no card and no register has the name ${what}`
      : 'a word by number or name, or a register: 50, TOTAL, $X1' };
    return { ticks: rows.filter((row) => row.state.words.some(([one]) => one === word)).map((row) => row.c),
      none: `word ${word} does not change` };
  }

  // Goes to where the break point holds next, and says where it does nowhere.
  goUntil(forth) {
    if (!this.chosen) return;
    const what = this.untilWhat.value.trim().toUpperCase();
    const { ticks = [], none } = this.ticksUntil(this.untilKind.value, what);
    const t = forth ? ticks[countWhile(ticks, (one) => one <= this.t)]
      : ticks[countWhile(ticks, (one) => one < this.t) - 1];
    if (t !== undefined) {
      this.go(t);
      return;
    }
    const wanted = { card: `no instruction of ${/^\d+$/.test(what) ? 'card ' : ''}${what}`,
      word: `no change of ${what}`, interrupt: 'no interrupt' }[this.untilKind.value];
    const text = ticks.length ? `${wanted} ${forth ? 'after' : 'before'} tick ${this.t}` : none;
    if (this.untilWhat.hidden) {
      this.sentence.replaceChildren(h('b', { class: 'now' }, `Tick ${this.t}`), ` ${text}.`);
      return;
    }
    this.untilWhat.setCustomValidity(text);
    this.untilWhat.reportValidity();
  }

  setRate(rate) {
    this.rate = rate;
    if (this.timer === null) return;
    this.play();
    this.play();
  }

  play() {
    if (this.timer === null && this.t >= this.last) this.go(this.first);
    if (this.timer === null) {
      this.timer = setInterval(() => {
        if (this.t >= this.last) this.play();
        else this.go(this.t + 1);
      }, 1000 / this.rate);
    } else {
      clearInterval(this.timer);
      this.timer = null;
    }
    this.playButton.setAttribute('aria-pressed', String(this.timer !== null));
    this.playButton.replaceChildren(this.timer !== null ? '❚❚ stop' : '▶ play');
    this.sentence.setAttribute('aria-live', this.timer !== null && this.rate > RATES[1] ? 'off' : 'polite');
  }

  press(event) {
    const { target, key, ctrlKey, shiftKey } = event;
    if (key === 'Escape' && this.cause) this.chooseCause(this.cause);
    const room = this.view.closest('[role=tabpanel]') ?? document.body;
    if (!this.runs.length || event.altKey || event.metaKey || !this.stripBox.clientWidth
      || !(target === document.body || room.contains(target)) || target.matches(
        'input, select, textarea, [contenteditable]')) return;
    if (key === ' ' && target.matches('button, summary')) return;
    const steps = {
      ArrowLeft: () => (ctrlKey ? this.event(false) : shiftKey ? this.completion(false) : this.go(this.t - 1)),
      ArrowRight: () => (ctrlKey ? this.event(true) : shiftKey ? this.completion(true) : this.go(this.t + 1)),
      Home: () => this.go(this.first),
      End: () => this.go(this.last),
      n: () => this.event(true),
      p: () => this.event(false),
      r: () => { this.rowBox.open = !this.rowBox.open; },
      ' ': () => this.play(),
      '+': () => this.zoom(1.25),
      '-': () => this.zoom(0.8),
    };
    if (!Object.hasOwn(steps, key) || (ctrlKey && !key.startsWith('Arrow'))) return;
    event.preventDefault();
    steps[key]();
  }

  // Shows the tick, and what may have become known of it.
  update() {
    this.shown.clear();
    this.tell();
  }

  // Puts what is made of some values into a box, where they are others than those of which it has its content.
  tellIn(box, values, make) {
    const before = this.shown.get(box);
    if (before?.length === values.length && values.every((value, k) => value === before[k])) return;
    this.shown.set(box, values);
    put(box, make());
  }

  // Shows the tick.
  tell() {
    if (!this.runs.length) return;
    for (const run of this.runs) this.levels.set(run, run.levels(this.tickOf(run)));
    const run = this.chosen;
    const t = this.tickOf(run);
    const state = run.state(t);
    const levels = this.levels.get(run);
    const text = `${t < this.t ? `It ended at tick ${t}: ` : ''}${sentences(run, t).join('. ')}.`;
    this.sentence.replaceChildren(h('b', { class: 'now' }, `Tick ${this.t}${run.label ? `, ${run.label}:` : ''}`),
      ` ${text}`);
    this.tickInput.value = this.t;
    this.strip.set(this.t, `tick ${this.t}. ${text}`);
    const charge = run.charge(t);
    const [banks, waiting] = [run.banks(t), run.waiting(t)];
    this.tellIn(this.committedLine, [run, state, charge], () => committed(run, t, state));
    put(this.levelsBox, [levelTable(run, t, levels), h('p', {}, nextLine(run, t))]);
    this.tellIn(this.wordsBox, [run, state, ...levels], () => [indexTable(run, state, run.ahead(state, levels)),
      h('p', {}, interruptLine(state, this.names)), registerTable(state, this.names)]);
    this.tellIn(this.banksBox, [run, ...banks, ...waiting], () => [bankTable(banks), h('p', {}, waitingLine(waiting))]);
    this.tellIn(this.storageBox, [run, state, run.printed(t)], () => [printerPaper(run, t),
      storageTable(run, t, state, (word) => this.on.nameOf?.(word))]);
    this.on.levels?.(levels, run.next(t));
    this.tellRowSoon();
    for (const table of this.tables) table.later();
  }
}

// The address of the card that has a name, where it was done: the name stands before the statement.
function addressOf(name, rows) {
  const isNamed = ({ text }) => {
    const [first, second] = (text ?? '').trim().split(/\s+/, 2);
    return first === name && second !== undefined;
  };
  return rows.find(isNamed)?.address;
}

// What is the same in two runs, and what is not.
function compared(one, two) {
  const same = countWhile(one.rows, (row) => {
    const other = two.rows[row.row - one.rows[0].row];
    return other !== undefined && other.row === row.row && other.address === row.address
      && JSON.stringify(other.state) === JSON.stringify(row.state);
  });
  const all = Math.max(one.rows.length, two.rows.length);
  const states = [one, two].map((run) => run.state(Infinity));
  const words = new Set([...states[0].words.keys(), ...states[1].words.keys()]);
  const differ = [...words].filter((word) => (states[0].words.get(word) ?? ZERO) !== (states[1].words.get(word)
    ?? ZERO)).length;
  const counters = states[0].counter === states[1].counter && states[0].enabled === states[1].enabled;
  const [a, b] = [one.totals, two.totals];
  const by = b.ticks - a.ticks;
  const other = one.rows[same] ?? two.rows[same];
  const differing = other
    ? ` The first that differs is ${other.row}, ${other.address} ${(other.text || '').replace(/\s+/g, ' ').trim()}.`
    : '';
  return `${grouped(same)} of ${plural(all, 'instruction')} ${same === 1 ? 'is' : 'are'} the same, in the same order, `
    + `and each leaves the same; at the end `
    + (differ === 0 && counters ? 'all registers and all storage are the same'
      : `${plural(differ, 'word')} of registers and storage differ`) + `.${differing} `
    + `It takes ${plural(a.ticks, 'tick')} with ${one.label}, and ${plural(b.ticks, 'tick')} with `
      + `${two.label}${by ? `, ${grouped(Math.abs(by))} ${by > 0 ? 'more' : 'fewer'}` : ''}; dropped are `
        + `${a.dropped} and ${b.dropped}.`;
}

// The page: a deck is run as it is typed, and each view shows what came of it.
import { byId, h } from './dom.js';
import { Editor } from './editor.js';
import { Experiment } from './experiment.js';
import { Kept } from './kept.js';
import { Lessons } from './lessons.js';
import { Live, ROWS } from './live.js';
import { Programs, Runner, Stopped } from './programs.js';
import { Stepper } from './step.js';
import { Views } from './views.js';
import { faultBox, repairs } from './faults.js';
import { fillPaper } from './paper.js';
import { MOST_BYTES, bytesOf, linesOf, operationOf } from './decks.js';
import { grouped, plural } from './words.js';
import { addressWith, packed, unpacked, wordsOf } from './links.js';
import { registerOf } from './contents.js';
import { wholeTables } from './where.js';

const PAUSE = 90;               // milliseconds without a key before a run,
const A_MOMENT = 1000;          // and one more for so many characters of the deck
const SLOW = 250;               // from so many on it is said that something runs
const MOST_KEPT = 400000;       // a longer deck is not kept for the next time
const MOST_LINK = 30000;
const KEYS = { deck: 'stretch.deck', theme: 'stretch.theme', lesson: 'stretch.lesson', now: 'stretch.now' };
const VIEWS = ['step', 'report', 'where', 'experiment', 'picture', 'listing', 'object'];
const LONGER = 'This is a long run: the timetable and the ticks beside the cards show its first '
  + `${plural(ROWS, 'instruction')}; the report and the sums are of the whole run.`;
const LATIN = new TextDecoder('latin1');
// A deck to begin with.
const NEW_DECK = '* A NEW DECK\n START   BEW\n         END,START\n';
// The machines that can stand beside.
const COMPARED = [...[1, 2, 4, 8].map((n) => [`levels ${n}`, `with ${plural(n, 'level')}`]),
  ...[1, 4, 8, 20].map((n) => [`delay ${n}`, `with delay ${n}`])];

// What the browser keeps; where it keeps nothing the page works all the same.
function storeOf(name) {
  return {
    get(key) {
      try {
        return window[name].getItem(key);
      } catch {
        return null;
      }
    },
    set(key, value) {
      try {
        window[name].setItem(key, value);
      } catch { /* no room, or not allowed */ }
    },
  };
}

// For the next time, and for a reload of this window.
const store = storeOf('localStorage');
const session = storeOf('sessionStorage');

// What this window had before it was loaded anew, or nothing.
function beforeReload() {
  if (performance.getEntriesByType('navigation')[0]?.type === 'navigate') return {};
  return JSON.parse(session.get(KEYS.now) ?? '{}');
}

// What a deck is called: its first card, where that is a comment.
function titleOf(lines) {
  return (lines[0]?.[0] === '*' && lines[0].slice(1).trim()) || 'stretch';
}

// Whether a row is of a card that lays data, or of none; `operations` are those of the cards. Where the run has changed
// what a card laid, the text of its row has another.
function isNoInstruction({ card, text }, operations) {
  const operation = operations.get(card);
  return !card || (/^(DD|XW|DR)$/.test(operation) && text.replace(/\s/g, '').toUpperCase().includes(operation));
}

// The bytes of a block of the page.
function block(id) {
  return Uint8Array.from(atob(byId(id).textContent), (letter) => letter.charCodeAt(0));
}

async function unzipped(bytes) {
  return new Response(new Blob([bytes]).stream().pipeThrough(new DecompressionStream('gzip'))).text();
}

class App {
  constructor(book, source) {
    Object.assign(this, { book, source, view: 'step', levels: 4, beside: '', keptDeck: null, turn: 0, times: {},
      typedAt: 0 });
    this.names = book.indicators.map((one) => one?.name ?? null);
    this.programs = new Programs(book.worker, { stretch: block('module-stretch'),
      ledger: block('module-ledger'), chart: block('module-chart') });
    [this.side, this.exam] = [new Runner(this.programs), new Runner(this.programs)];
    this.live = new Live(new Runner(this.programs), new Runner(this.programs), this.names);
    this.stepper = new Stepper(this.names, {
      // The cards of a deck that does not run are not those of the last run.
      levels: (levels, next) => {
        if (this.view === 'step' && !document.body.classList.contains('stale')) this.editor.setLevels(levels, next);
      },
      card: (card) => this.editor.choose(card),
      addressOf: (name) => this.views.symbols?.get(name), wordOf: (name) => registerOf(name)
        ?? this.views.wordOf(name), nameOf: (word) => this.views.nameOf(word),
    });
    byId('view-step').append(this.stepper.view, this.stepper.machine);
    this.experiment = new Experiment(byId('view-experiment'), new Runner(this.programs));
    this.views = new Views(this);
    this.editor = new Editor(byId('editor'), {
      change: (text, isTyped) => this.changed(text, isTyped), run: () => this.go(),
      card: (card) => this.chooseCard(card),
      isOperation: (word) => book.knowledge.operations.some(({ name }) => name === word),
      caret: (card, column) => byId('caret').replaceChildren(`card ${card}, column ${column}`),
    });
    this.kept = new Kept(byId('mine'), store, (text) => {
      this.editor.set(text);
      this.say();
    });
    this.lessons = new Lessons(byId('lesson'), book, {
      open: (deck, title, view, levels) => {
        if (levels) this.setLevels(levels);
        this.open(deck, title, { view });
      },
      close: () => this.lesson(null), print: () => this.printLesson(), text: () => this.editor.text,
      shown: (id) => store.set(KEYS.lesson, id),
      run: (text, program, words) => this.live.reportOf(text, this.exam, program, words),
    });
    this.build();
  }

  // ---- what can be pressed

  build() {
    // The menu is closed by a click beside it, and by Escape.
    addEventListener('click', (event) => { if (!byId('save').contains(event.target)) byId('save').open = false; });
    addEventListener('keydown', (event) => { if (event.key === 'Escape') this.escape(); });
    const on = (id, act, what = 'click') => byId(id).addEventListener(what, act);
    on('run-now', () => this.runNow());
    on('stop', () => this.stop());
    on('show-lessons', () => this.lesson(document.body.classList.contains('lesson') ? null : this.lastLesson()));
    on('share', () => this.share());
    on('theme', () => this.setTheme());
    on('capitals', (event) => { this.editor.capitals = event.target.checked; }, 'change');
    on('open-file', (event) => this.openFile(event.target), 'change');
    this.saving(on);
    const options = (decks) => decks.map((one) => h('option', { value: one.name }, one.name.replace(/_/g, ' ')));
    byId('examples').append(h('option', { value: 'new' }, 'a new deck'), ...options(this.book.examples),
      h('optgroup', { label: 'programs that people know' }, ...options(this.book.programs)));
    on('examples', (event) => this.openExample(event.target), 'change');
    this.tabs();
    for (const button of document.querySelectorAll('#places button')) button.addEventListener('click',
      () => this.place(button.dataset.place));
    this.machines();
    this.foot();
    addEventListener('dragover', (event) => event.preventDefault());
    addEventListener('drop', (event) => {
      event.preventDefault();
      this.file(event.dataTransfer.files[0]);
    });
    // An entry of the history that the page has made itself is no new address.
    addEventListener('hashchange', () => { if (!('lesson' in (history.state ?? {}))) this.fromAddress(); });
    addEventListener('popstate', ({ state }) => this.back(state));
    addEventListener('pagehide', () => this.leave());
    addEventListener('beforeprint', () => this.paper());
    addEventListener('afterprint', () => document.body.classList.remove('prints-lesson'));
  }

  escape() {
    if (!byId('save').open) return;
    byId('save').open = false;
    byId('save').querySelector('summary').focus();
  }

  saving(on) {
    const good = () => this.live.isCurrent && this.live.made;
    const save = (id, act) => on(id, async () => {
      byId('save').open = false;
      await act();
    });
    save('save-deck', () => this.save('deck.txt', this.editor.text));
    save('save-report', () => (good() ? this.save('report.txt', good().bytes)
      : this.say('This deck does not run yet.')));
    save('save-object', async () => (good() ? this.save('object.txt', await this.views.objectText())
      : this.say('This deck does not run yet.')));
    save('save-picture', async () => (good() ? this.save('picture.svg', await this.views.pictureText(),
      'image/svg+xml') : this.say('This deck does not run yet.')));
    save('save-page', () => this.savePage());
    save('print', () => this.printRun());
  }

  tabs() {
    const tabs = [...document.querySelectorAll('#tabs [role=tab]')];
    for (const tab of tabs) tab.addEventListener('click', () => this.choose(tab.dataset.view));
    byId('tabs').addEventListener('keydown', (event) => {
      const at = tabs.findIndex((tab) => tab.dataset.view === this.view);
      const to = { ArrowRight: at + 1, ArrowLeft: at - 1, Home: 0, End: tabs.length - 1 }[event.key];
      if (to === undefined) return;
      event.preventDefault();
      const tab = tabs[(to + tabs.length) % tabs.length];
      this.choose(tab.dataset.view);
      tab.focus();
    });
  }

  // How many levels, and what stands beside: another machine, or the deck as it was.
  machines() {
    const levels = h('select', { id: 'level-count', 'aria-label': 'levels',
        title: 'levels of the machine; report and picture are those of 4', onchange: () => {
      this.levels = Number(levels.value);
      this.go();
    } }, [1, 2, 3, 4, 5, 6, 7, 8].map((n) => h('option', { value: n, selected: n === 4 }, plural(n, 'level'))));
    const beside = h('select', { id: 'beside', 'aria-label': 'beside it',
        title: 'a second run on the same axis of ticks', onchange: () => {
      this.beside = beside.value;
      if (this.beside === 'keep') {
        this.keptDeck = this.editor.text;
        this.say('This deck is kept. Change it now: both are shown, one above the other.');
      } else this.say();
      this.go();
    } }, h('option', { value: '' }, 'compare …'), h('option', { value: 'keep' }, 'with this deck'),
    h('optgroup', { label: 'this deck on another machine' }, COMPARED.map(([value, text]) => h('option', { value },
      text))));
    this.stepper.more.append(levels, beside);
  }

  foot() {
    const { made } = this.book;
    const sum = (name) => h('span', {}, `${name} `, h('code', { title: made[name] }, made[name].slice(0, 16)));
    const proved = made.proved ? 'from the programs as they were proved'
      : 'from programs that were not proved (an unproved build)';
    byId('foot').append(h('details', {}, h('summary', {}, `stretch ${made.version}, ${proved}`), sum('sources'),
      sum('page'), h('span', {}, made.kit), h('span', {}, `lowered by ${made.lowering}`)));
  }

  // On a narrow screen one of lesson, deck and result is seen.
  place(place) {
    document.body.dataset.place = place;
    for (const button of document.querySelectorAll('#places button')) button.setAttribute('aria-pressed',
      String(button.dataset.place === place));
    if (place === 'lesson' && !document.body.classList.contains('lesson')) this.lesson(this.lastLesson());
    this.editor.measure();
    this.stepper.fit();
    this.showTab();
  }

  // The page that was read last, also over a visit.
  lastLesson() {
    const last = this.lessons.at ?? store.get(KEYS.lesson);
    return this.lessons.pages.has(last) ? last : 'lesson-1';
  }

  setLevels(levels) {
    this.levels = levels;
    byId('level-count').value = String(levels);
  }

  // Opens a page of the lessons, or closes them. One page behind another is an entry of the browser's history, unless
  // the address has made one already.
  lesson(id, part, isEntry = true) {
    const isOpen = document.body.classList.contains('lesson');
    this.lessonRoom(id !== null);
    if (id && isOpen && isEntry && id !== this.lessons.at) this.lessons.go(id, part);
    else {
      if (id) this.lessons.show(id, part);
      history.replaceState({ ...history.state, lesson: id, top: null }, '', addressWith(id));
    }
  }

  lessonRoom(isOpen) {
    document.body.classList.toggle('lesson', isOpen);
    byId('show-lessons').setAttribute('aria-pressed', String(isOpen));
    if (!isOpen && document.body.dataset.place === 'lesson') this.place('deck');
    this.editor.measure();
  }

  // Back and Forward of the browser lead through the pages that were read.
  back(state) {
    if (!('lesson' in (state ?? {}))) return;
    this.leaveLink();
    this.lessonRoom(state.lesson !== null);
    if (state.lesson) this.lessons.back(state);
  }

  // What a reload of this window has again: view, levels and tick of its deck, and the pages that were read.
  leave() {
    const { text } = this.editor;
    session.set(KEYS.now, JSON.stringify({ deck: text.length < MOST_KEPT ? text : '', view: this.view,
      levels: this.levels, t: this.stepper.wanted ?? this.stepper.t, place: document.body.dataset.place,
      places: this.lessons.places(), lesson: document.body.classList.contains('lesson') ? this.lessons.at : null }));
  }

  // Begins with what this window had, where its deck is the one that is there.
  again({ deck, view, levels, t, place, places = [], lesson }) {
    if (lesson) this.lessonRoom(true);
    if (place && (lesson || place !== 'lesson')) this.place(place);
    this.lessons.setPlaces(places);
    if (lesson) this.lesson(lesson, undefined, false);
    if (!deck || deck !== this.editor.text) return;
    this.setLevels(levels);
    this.stepper.wanted = t;
    this.choose(view);
  }

  setTheme(theme) {
    const root = document.documentElement;
    const isDark = root.dataset.theme ? root.dataset.theme === 'dark'
      : matchMedia('(prefers-color-scheme: dark)').matches;
    const wanted = theme ?? (isDark ? 'light' : 'dark');
    // What the system has is not held fast, so that the page goes on with it.
    if (matchMedia(`(prefers-color-scheme: ${wanted})`).matches) delete root.dataset.theme;
    else root.dataset.theme = wanted;
    store.set(KEYS.theme, root.dataset.theme ?? '');
    this.views.paint();
  }

  // Says something above the rooms, until it is closed or something else is said.
  say(...what) {
    this.isStray = false;
    const close = () => h('button', { class: 'quiet close', 'aria-label': 'close', title: 'close',
      onclick: () => this.say() }, '✕');
    byId('said').replaceChildren(...what, ...(what.length ? [close()] : []));
  }

  // The chosen tab is in sight, also where not all tabs are.
  showTab() {
    const [tabs, tab] = [byId('tabs'), byId(`tab-${this.view}`)];
    tabs.scrollLeft = tab.offsetLeft - (tabs.clientWidth - tab.offsetWidth) / 2;
  }

  choose(view) {
    if (view !== this.view) byId('right').scrollTop = 0;         // another view begins at its beginning
    this.view = view;
    for (const tab of document.querySelectorAll('#tabs [role=tab]')) {
      const isOn = tab.dataset.view === view;
      tab.setAttribute('aria-selected', String(isOn));
      tab.tabIndex = isOn ? 0 : -1;
      byId(`view-${tab.dataset.view}`).hidden = !isOn;
    }
    this.showTab();
    if (view !== 'step') this.editor.setLevels([], null);
    this.views.show(view);
  }

  // A card that is chosen beside the deck or in a view is marked with its rows.
  chooseCard(card) {
    this.stepper.chooseCard(card);
  }

  // ---- decks that come from elsewhere

  // The address names the deck of a link no more, so that a reload has the deck that is there.
  leaveLink() {
    if (wordsOf(location.hash).has('d')) history.replaceState(history.state, '', location.href.split('#')[0]);
  }

  // Another deck takes the place of the one that is there, which can be put back where it was typed.
  open(deck, title, { view, isOwn = false, isLink = false, said = `${title} is open.` } = {}) {
    if (!isLink) this.leaveLink();
    this.editor.set(deck);
    this.kept.opened(title, deck, isOwn);
    this.say(said);
    this.openedAt = performance.now();
    this.stepper.isAnother = true;
    if (view) this.choose(view);
    if (document.body.dataset.place === 'lesson') this.place('deck');
    return this.go();
  }

  openExample(select) {
    const { value } = select;
    const example = [...this.book.examples, ...this.book.programs].find((one) => one.name === value);
    select.value = '';
    if (value === 'new') this.open(NEW_DECK, null, { said: 'A new deck is open.' });
    if (example) this.open(example.deck, `The example ${example.name.replace(/_/g, ' ')}`);
  }

  openFile(input) {
    this.file(input.files[0]);
    input.value = '';
  }

  // A file: a deck, or an object text, of which the deck is made.
  async file(file) {
    if (!file) return;
    if (file.size > 2 * MOST_BYTES) {
      this.say(`${file.name} has ${grouped(file.size)} bytes; a job has at most ${grouped(MOST_BYTES)}.`);
      return;
    }
    const text = new TextDecoder('utf-8', { ignoreBOM: true }).decode(await file.arrayBuffer());
    if (/[\0-\x08\x0e-\x1f\ufffd]/.test(text)) {
      this.say(`${file.name} is no text, so it was not opened. A deck is a file of cards, one in each line.`);
      return;
    }
    if (/^END [A-Z]+ .*\nPC |^CARD \d+ [A-Z ]+\n$/.test(text)) {
      this.say(`${file.name} is what a run writes; the deck is another file.`);
      return;
    }
    if (/^OBJECT\b/.test(text)) {
      const { status, bytes } = await this.side.run('stretch', ['disassemble'], bytesOf(text));
      if (status === 0) await this.open(LATIN.decode(bytes), `${file.name}, an object text, as a deck`,
        { isOwn: true });
      else this.say(`${file.name} is no object text that the machine accepts: ${LATIN.decode(bytes)}`);
      return;
    }
    await this.open(text, file.name, { isOwn: true });
    if (/\r(?!\n)/.test(text)) this.say(
      `${file.name} has carriage returns without line feeds, which the machine refuses. The editor has made line `
        + `ends of them.`);
  }

  // ---- runs

  // On a narrow screen the result is what is seen next, where there is one.
  async runNow() {
    await this.go();
    if (this.live.isCurrent && byId('places').checkVisibility()) this.place('result');
  }

  changed(text, isTyped) {
    clearTimeout(this.timer);
    if (isTyped) {
      this.kept.typed(text);
      this.leaveLink();
    }
    // A repair is of the deck that was refused: it would undo what is typed since.
    for (const one of byId('fault').querySelectorAll('.repairs button')) one.disabled = true;
    this.typedAt = performance.now();
    if (this.openedAt && this.typedAt - this.openedAt > 8000) {
      this.openedAt = 0;
      this.say();
    }
    this.timer = setTimeout(() => this.go(), PAUSE + text.length / A_MOMENT);
  }

  busy(isOn) {
    clearTimeout(this.slow);
    document.body.classList.toggle('busy', false);
    if (!isOn) return;
    this.slow = setTimeout(() => {
      document.body.classList.add('busy');
      this.old('This deck still runs.');
      this.noFault();
      this.state('', 'runs …');
    }, SLOW);
  }

  progress(begun) {
    let told = '';
    const show = () => byId('progress').replaceChildren(`${((performance.now() - begun) / 1000).toFixed(1)} s${told}`);
    const clock = setInterval(show, 250);
    return {
      tell: ({ rows, lines }) => {
        told = rows === undefined ? `, ${plural(lines, 'line')} written` : `, ${plural(rows, 'row')}`;
        show();
      },
      end: () => clearInterval(clock),
    };
  }

  stopAll() {
    this.live.stop();
    this.side.stop();
    this.experiment.stop();
  }

  stop() {
    this.turn += 1;
    this.stopAll();
    this.exam.stop();
    this.busy(false);
    this.old('The run was stopped.');
    this.state('warn', 'Stopped. Change the deck, or run it again.');
  }

  state(kind, ...text) {
    const box = byId('state');
    box.className = kind;
    box.replaceChildren(...text);
  }

  // Runs the deck as it is now, and shows what comes of it, unless it has been changed meanwhile.
  async go() {
    clearTimeout(this.timer);
    this.turn += 1;
    const { turn } = this;
    this.stopAll();
    const text = this.editor.text;
    store.set(KEYS.deck, text.length < MOST_KEPT ? text : '');
    this.kept.save();
    const begun = performance.now();
    const progress = this.progress(begun);
    this.busy(true);
    try {
      const answer = await this.live.run(text, { levels: this.levels, beside: this.beside, kept: this.keptDeck },
        progress.tell);
      if (turn === this.turn) {
        this.busy(false);           // repairs that are tried behind a refusal are no run
        await this.shown(answer, text);
      }
    } catch (error) {
      if (turn === this.turn && !(error instanceof Stopped)) this.failed(`something went wrong: ${error.message}`,
        'Please report the deck with which it did.');
    } finally {
      progress.end();
      if (turn === this.turn) this.busy(false);
    }
    if (turn !== this.turn) return;
    this.times.all = performance.now() - begun;
    if (this.typedAt) this.times.key = performance.now() - this.typedAt;
    this.typedAt = 0;
  }

  async shown(answer, text) {
    if (answer.fault) await this.refused(answer, text);
    else if (answer.wrong) this.failed(answer.wrong, answer.more);
    else this.done(answer);
  }

  // Nothing came of this deck: what is shown is of the last one of which something did.
  old(why) {
    const isThere = this.stepper.runs.length > 0;
    this.editor.setLevels([], null);
    document.body.classList.toggle('empty', !isThere);
    document.body.classList.toggle('stale', isThere);
    if (this.isStray || byId('said').textContent.startsWith(LONGER)) this.say();
    byId('nothing').replaceChildren(`${why} ${isThere ? 'Below is the last deck that ran.' : ''}`);
  }

  failed(text, more) {
    this.old('This deck gave nothing.');
    this.editor.fault(null);
    this.state('bad', text);
    byId('fault').replaceChildren(h('p', { class: 'fault-line' }, h('b', {}, text)), more
      ? h('p', { class: 'soft' }, more) : '');
  }

  async refused({ fault, line, message }, text) {
    const { turn } = this;
    const card = Math.min(line, this.editor.lines.length);
    this.old('This deck does not run yet.');
    this.editor.fault(line);
    this.state('bad', message ? `Line ${line} cannot be read` : `Line ${line} is refused: ${fault}`);
    const refusal = { card: line, fault: message ?? fault };
    const shown = (offers) => byId('fault').replaceChildren(...faultBox(refusal, linesOf(text), this.book.knowledge,
      offers, () => this.editor.goTo(card)));
    shown([]);
    const offers = await repairs(text, refusal, this.book.knowledge, (deck) => this.live.refusalOf(deck, this.side));
    if (turn === this.turn && offers.length) shown(offers.map(([what, deck, made]) =>
      ({ what, card: made, act: () => {
        this.editor.set(deck, { undo: true });
        this.editor.goTo(card, false);
      } })));
  }

  noFault() {
    byId('fault').replaceChildren();
    this.editor.fault(null);
  }

  done({ runs, report, isCut, plain }) {
    document.body.classList.remove('empty', 'stale');
    byId('nothing').replaceChildren();
    this.noFault();
    const [run] = runs;
    const { totals, data } = run;
    const isWait = report.kind === 'WAIT';
    const heat = new Map();
    for (const row of run.rows) if (row.card) heat.set(row.card, (heat.get(row.card) ?? 0)
      + row.c - (row.charges[0]?.from ?? row.c));
    const beside = [...heat.values()].reduce((all, ticks) => all + ticks, 0);
    // Of a long run the ledger of its first rows has no sums of the whole run.
    const sums = isCut ? [] : [data.interrupts.length && plural(data.interrupts.length, 'interrupt'),
      totals.dropped && `${grouped(totals.dropped)} dropped`, beside < totals.ticks
        && `${plural(totals.ticks - beside, 'tick')} of instructions that begin at no card`];
    const facts = [plural(report.done, 'instruction'), !isCut && plural(totals.ticks, 'tick'), this.levels !== 4
      && `on ${plural(this.levels, 'level')}`, ...sums].filter(Boolean);
    this.state(isWait ? 'good' : 'warn', h('b', {}, isWait ? 'Ended in a wait:' : 'Ended by its budget:'),
      ` ${facts.join(', ')}`);
    if (isCut) this.say(LONGER);
    else if (byId('said').textContent.startsWith(LONGER)) this.say();
    this.left(run, report.kind === 'BUDGET', plain);
    this.editor.setHeat(heat);
    this.views.fresh();
    this.views.show(this.view);
  }

  // Where the counter came to what is no instruction of the deck, a deck most often lacks its BEW.
  left(run, isBudget, plain) {
    if (this.isStray) this.say();
    if (!isBudget || !run.rows.length) return;
    const operations = new Map(plain.cards.map((card, k) => [plain.lines[k], operationOf(card)]));
    const strange = run.rows.find((row) => isNoInstruction(row, operations));
    if (!strange || strange === run.rows[0]) return;
    const from = run.rows[run.rows.indexOf(strange) - 1];
    const what = strange.card
      ? `card ${strange.card} (${strange.text.replace(/\s+/g, ' ').trim()}), which is no instruction`
      : 'no instruction card of the deck';
    this.say(
      h('span', {},
        `After ${from.card ? `card ${from.card}` : from.address} the counter came to ${strange.address}, ${what}. `
          + `Is there a BEW where the program ends? `),
      h('button', { onclick: () => { this.choose('step'); this.stepper.go(strange.c); } }, `Tick ${strange.c}`), ' ',
      h('button', { onclick: () => this.lesson('first-faults') }, 'My first deck failed'));
    this.isStray = true;
  }

  // ---- files, links, paper

  save(name, what, type = 'text/plain') {
    const url = URL.createObjectURL(new Blob([what], { type }));
    h('a', { href: url, download: name }).click();
    setTimeout(() => URL.revokeObjectURL(url), 10000);
  }

  // The page as it came, with this deck in it.
  async savePage() {
    const mark = 'id="own-deck">';
    const at = this.source.indexOf(mark) + mark.length;
    const end = this.source.indexOf('</', at);
    this.save('stretch-with-deck.html',
      `<!DOCTYPE html>\n${this.source.slice(0, at)}${await packed(this.editor.text)}${this.source.slice(end)}\n`,
      'text/html');
  }

  async share() {
    const code = await packed(this.editor.text);
    const { first } = this.stepper;
    const t = this.stepper.wanted ?? this.stepper.t;
    const words = [`d=${code}`, this.view !== 'step' && `v=${this.view}`, this.levels !== 4 && `l=${this.levels}`,
      t !== first && `t=${t}`].filter(Boolean);
    const link = `${location.href.split('#')[0]}#${words.join('&')}`;
    if (link.length > MOST_LINK) {
      this.say('The deck is too long for a link. Save it as a file, or save this page with the deck in it.');
      return;
    }
    history.replaceState(history.state, '', link);
    const field = h('input', { id: 'link', value: link, readonly: true, size: 40,
      'aria-label': 'a link to this deck' });
    let isCopied = true;
    await navigator.clipboard?.writeText(link).catch(() => { isCopied = false; });
    this.say(isCopied && navigator.clipboard ? 'This link is copied; it carries the deck: '
      : 'This link carries the deck: ', field, location.protocol === 'file:'
      ? ' It opens on this computer alone. On another one put what begins with #d= behind the address of its page.'
      : '');
    field.focus();
    field.select();
  }

  async fromAddress() {
    const words = wordsOf(location.hash);
    const lesson = /^[0-9]{1,2}$/.test(words.get('lesson') ?? '') ? `lesson-${words.get('lesson')}`
      : words.get('lesson') ?? '';
    if (/^[a-z0-9-]{1,40}$/.test(lesson)) this.lesson(lesson, undefined, false);
    if (VIEWS.includes(words.get('v'))) this.choose(words.get('v'));
    if (/^[1-8]$/.test(words.get('l') ?? '')) this.setLevels(Number(words.get('l')));
    if (!words.has('d')) return false;
    if (/^\d{1,7}$/.test(words.get('t') ?? '')) this.stepper.wanted = Number(words.get('t'));
    try {
      await this.open(await unpacked(words.get('d'), MOST_BYTES + 1), 'The deck of the link', { isLink: true });
      return true;
    } catch {
      this.say('This link has no deck in it that can be read, or one that is too long.');
      return false;
    }
  }

  // Where to begin, for one who is here for the first time.
  welcome() {
    const first = h('button', { onclick: () => this.lesson('lesson-1') }, 'Lesson 1');
    this.say(
      h('span', {},
        'The IBM 7030 Stretch of 1961 works on several instructions at once. '
        + (byId('places').checkVisibility() ? 'Here is a deck of cards, a program; Result below shows '
          : 'At the left is a deck of cards, a program; at the right, ')
        + 'what became of it in each tick. Change a card, and it runs; or begin with ', first));
  }

  // Prints the page of the lessons that is open; print.css then leaves out all else.
  printLesson() {
    document.body.classList.add('prints-lesson');
    print();
  }

  // Prints the run, of a long one with the totals of all rows.
  async printRun() {
    const made = this.live.isCurrent ? this.live.made : null;
    if (made?.isCut) made.whole ??= await this.views.wholeTotals(made);
    print();
  }

  // What is printed of the run.
  paper() {
    if (document.body.classList.contains('prints-lesson')) return;
    const made = this.live.isCurrent ? this.live.made : null;
    if (made) this.views.show('step');        // the timetable of this run, also where another view is in sight
    const runs = made ? this.stepper.runs : [];
    const notes = [byId('state').textContent, ...(made?.isCut ? [LONGER] : [])];
    const whole = made?.whole ? wholeTables(runs[0], made.whole, { cause() {}, card() {} }) : [];
    fillPaper(byId('paper'), { title: titleOf(linesOf(this.editor.text)), runs, stepper: this.stepper,
      deck: linesOf(this.editor.text), report: made?.report.lines, notes, whole });
  }

  async begin() {
    const own = byId('own-deck').textContent.trim();
    const last = store.get(KEYS.deck);
    const deck = own ? await unpacked(own, MOST_BYTES + 1).catch(() => null) : last;
    this.kept.begin(last);
    this.editor.set(deck?.trim() ? deck : this.book.first);
    if (own) this.kept.opened('The deck of this page', deck);
    clearTimeout(this.timer);
    this.choose('step');
    this.again(beforeReload());
    const isPlaced = (this.stepper.wanted ?? null) !== null || wordsOf(location.hash).has('t');
    if (!(await this.fromAddress())) {
      await this.go();
      if (!deck) this.welcome();
    }
    // a first look at the machine at work
    if (!deck && !isPlaced && this.live.made) this.stepper.go(this.live.made.runs[0].fullest());
    document.body.classList.add('ready');
    this.times.opened = performance.now();
  }
}

const theme = store.get(KEYS.theme);
if (theme === 'dark' || theme === 'light') document.documentElement.dataset.theme = theme;
document.currentScript.remove();        // start.js has put it in, and a page that is saved has it compressed
const source = document.documentElement.outerHTML;
unzipped(block('book')).then((text) => {
  window.app = new App(JSON.parse(text), source);
  window.page = window.app.stepper;
  return window.app.begin();
}).catch((error) => {
  byId('state').replaceChildren(`This browser can not run the page: ${error.message}`);
  document.body.classList.add('ready');
});

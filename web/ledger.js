// The lines of a ledger (docs/ledger.md) as the object that `./explain json` writes (docs/explain.md), read one after
// another: of rows that
// are not shown nothing is kept but sums. tools/explaining says the same of these lines in Python.
import { CAUSE_NAMES, Off, SEGMENT_REASONS } from './causes.js';
import { spelling } from './spelling.js';
import { Totals } from './totals.js';

const KNOWN = new Set(CAUSE_NAMES);
const PARTED = new Set(['instruction', 'index', 'operand']);        // stages whose ticks lines WAIT tell
const REACH = 512;                  // no read waits, or keeps a bank busy, for so many ticks
const EXECUTES_ITSELF = 18;         // the indicator of an EX whose target is EX: nothing is executed
const LOWER = new Map();            // words of the lines in lower case

function lower(word) {
  let small = LOWER.get(word);
  if (small === undefined) LOWER.set(word, small = word.toLowerCase());
  return small;
}

function numberOf(word) {
  return word === '-' ? null : Number(word);
}

export class Ledger {
  // `cards` are those of the deck, `names` those of indicators by their numbers; the rows from `first` to `last` are
  // shown.
  constructor(levels, cards, names, first = 1, last = Infinity) {
    Object.assign(this, { levels, cards, names, first, last, delays: [],
      end: { kind: '', done: 0, ticks: 0, sums: {} } });
    Object.assign(this, { row: null, entry: null, segment: null, done: 0, counter: '0.0', enabled: false,
      words: new Map(), shown: null });
    Object.assign(this, { segments: [], entries: [], interrupts: [], prints: [], sums: new Totals(levels),
      spelled: new Map() });
    this.fresh();
  }

  // What is known of the reads of a segment: by the tick of their acceptance, by their bank the last, by their word
  // the last fetched.
  fresh() {
    Object.assign(this, { accepted: new Map(), lastIn: [], fetched: new Map() });
  }

  take(line) {
    const words = line.split(' ');
    const act = LINES[words[0]];
    if (!act) throw new Off(`no line of a ledger: ${line}`);
    if (this.row && (words[0] === 'ROW' || words[0] === 'END' || words[2] === 'START')) this.finish();
    act(this, words, line);
  }

  // ---- what lines tell

  begin(words) {
    this.entry = {
      row: Number(words[1]), address: words[2], a: Number(words[4]), p: Number(words[6]), r: Number(words[8]),
      serial: null, table: null,
      suppressed: null, card: null, kept: false, code: [], uses: [], writes: [], index: null,
    };
    return this.entry;
  }

  use(words) {
    const use = { kind: lower(words[1]), word: Number(words[2]), how: lower(words[3]) };
    if (use.how === 'read') this.read(use, words);
    else if (use.how === 'held') {
      use.row = this.entry.row;
      use.answer = Number(words[5]);
      // A read that is told of no one was made by the entry itself, which was begun and wanted it behind the end.
      const read = this.fetched.get(use.word);
      if (read && read.answer === use.answer) use.row = read.row;
    } else if (use.how === 'forwarded') {
      use.row = Number(words[5]);
      use.done = Number(words[7]);
    }
    this.entry.uses.push(use);
  }

  // Keeps a read for the waits of rows that come soon.
  read(use, words) {
    use.bank = Number(words[5]);
    use.want = Number(words[7]);
    use.turn = Number(words[9]);
    use.bank_free = Number(words[11]);
    use.accept = Number(words[13]);
    use.answer = Number(words[15]);
    use.made = words[17] === '1';
    const { kind, word, bank, want, accept, answer } = use;
    const { row } = this.entry;
    const read = { row, want, answer, word, kind, holder: this.lastIn[bank] ?? null };
    this.lastIn[bank] = read;
    if (kind === 'instruction' || kind === 'following') this.fetched.set(word, read);
    this.accepted.set(accept, read);
    if (this.accepted.size > 2 * REACH) for (const tick of this.accepted.keys()) if (
      tick <= accept - REACH) this.accepted.delete(tick);
  }

  wait(words) {
    const charge = this.row.charged.at(-1);
    const why = lower(words[3]);
    const piece = { from: Number(words[1]), to: Number(words[2]), cause: `${charge.cause}_${why}`,
      word: Number(words[5]) };
    const read = why === 'turn' ? this.accepted.get(piece.from) : why === 'bank' ? this.accepted.get(piece.to)
      : charge.cause === 'instruction' ? this.fetched.get(piece.word) : this.row;
    if (!read) throw new Off(`row ${this.row.row}: a wait for a read that is not told`);
    piece.read = { row: read.row, word: Number(words[7]), bank: Number(words[9]) };
    if (why === 'bank') piece.busy_with = read.holder && { row: read.holder.row, word: read.holder.word,
      kind: read.holder.kind };
    charge.waits.push(piece);
  }

  because(words) {
    const reason = lower(words[1]);
    if (reason !== 'prefetch') return { reason, row: numberOf(words[3]), tick: Number(words[5]),
      late: numberOf(words[7]) };
    const read = this.fetched.get(Number(words[3]));
    if (!read) throw new Off(`row ${this.row.row}: a word that was asked for by none`);
    return { reason, row: read.row, tick: read.want, late: numberOf(words[5]) };
  }

  // ---- a row is whole

  finish() {
    const { row } = this;
    this.row = null;
    this.cut(row);
    this.done = row.c;
    const shows = row.row >= this.first && row.row <= this.last;
    if (shows && !this.shown) this.show(row.beforeIt);
    const text = this.textOf(row);
    this.sums.add(row, text);
    const changed = row.changed.map(([word, , after]) => [word, after]);
    if (shows) this.entries.push(this.toldRow(row, text, { counter: this.counter, enabled: this.enabled,
      words: changed }));
    else if (!this.shown) for (const [word, after] of changed) this.words.set(word, after);
    if (row.ends) this.segments.push(this.toldSegment(row.segment));
    for (const printed of row.prints) this.prints.push({ after_row: row.row, tick: row.c, text: printed });
    if (row.interrupt !== null) this.interrupts.push({ after_row: row.row, tick: row.c, indicator: row.interrupt,
      name: this.names[row.interrupt] ?? null });
  }

  // Its charges in the order of time, those of waits cut further: without a gap from the completion before to its own.
  cut(row) {
    let at = this.done;
    for (const charge of row.charged) {
      const pieces = PARTED.has(charge.cause) ? charge.waits.sort((a, b) => a.from - b.from)
        : [{ from: charge.from, to: charge.to, cause: charge.cause }];
      for (const piece of pieces) {
        if (!KNOWN.has(piece.cause) || piece.from !== at || piece.to <= at) throw new Off(
          `row ${row.row}: its charges leave a gap at tick ${at}`);
        at = piece.to;
        if (piece.cause === 'executing') row.cost += piece.to - piece.from;
        row.charges.push(piece);
      }
      if (charge.to !== at) throw new Off(`row ${row.row}: its waits end at tick ${at}, not at ${charge.to}`);
    }
    if (at !== row.c) throw new Off(`row ${row.row}: its charges end at tick ${at}, not at ${row.c}`);
    row.waited = row.c - this.done - row.cost;
  }

  show({ counter, enabled }) {
    const words = [...this.words].filter(([, content]) => /[^0]/.test(content)).sort(([a], [b]) => a - b);
    this.shown = { counter, enabled, words };
    this.words.clear();
  }

  textOf(entry) {
    if (entry.card !== null && entry.kept) return this.cards[entry.card - 1].slice(1, 72)
      .split(';')[0].replace(/^ +| +$/g, '');
    if (!entry.code.length || entry.suppressed === EXECUTES_ITSELF) return '';
    const key = entry.code.join(' ');
    if (!this.spelled.has(key)) this.spelled.set(key, spelling(entry.code));
    return this.spelled.get(key);
  }

  // ---- what is told

  toldRow(row, text, state) {
    const early = row.index ? row.index.number + 16 : null;
    return {
      row: row.row, segment: row.segment.number, address: row.address, text, card: row.card, a: row.a, p: row.p,
      r: row.r, c: row.c, cost: row.cost,
      serial: row.serial, table: row.table, missed: row.missed, fault: row.suppressed === null ? null
        : this.names[row.suppressed],
      charges: row.charges, because: row.because, level_wait: row.levelWait, uses: row.uses, writes: row.writes,
      index: row.index,
      stored_index: row.changed.filter(([word]) => word >= 16 && word < 32 && word !== early)
        .map(([word, before, after]) => ({ number: word - 16, before, after })),
      state,
    };
  }

  toldAhead(entry) {
    const { address, card, a, p, r, serial, writes, uses, index } = entry;
    return { address, text: this.textOf(entry), card, a, p, r, serial, writes, uses, index };
  }

  toldSegment(segment) {
    return {
      segment: segment.number, reason: segment.reason, indicator: segment.indicator, after_wait: segment.afterWait,
      start: segment.start, end: segment.end,
      dropped: segment.dropped.map((entry) => this.toldAhead(entry)), begun: this.toldAhead(segment.begun),
    };
  }

  // The object of all lines, without the ticks on other machines.
  object() {
    this.sums.close(this.end);
    if (!this.shown) this.show(this);
    const snapshots = this.cards.filter((card) => card[0] === '/').map((card) => card.slice(0, 72).trim().split(/ +/))
      .filter((words) => words[0] === '/SNAP').flatMap((words) => words.slice(1).map(Number));
    return {
      levels: this.levels, delays: this.delays, end: this.end.kind, totals: this.sums.told(), snapshots,
      first: this.shown,
      segments: this.segments, entries: this.entries, interrupts: this.interrupts, prints: this.prints,
    };
  }
}

const LINES = {
  LEVELS: (ledger, words) => { if (Number(words[1]) !== ledger.levels) throw new Off(
    'it is of another number of levels'); },
  DELAYS: (ledger, words) => { ledger.delays.push(...words.slice(1).map(Number)); },
  IC: (ledger, words) => { ledger.counter = words[1]; },
  EN: (ledger, words) => { ledger.enabled = words[1] === '1'; },
  WORD: (ledger, words) => {
    if (ledger.row) ledger.row.changed.push([Number(words[1]), words[3], words[5]]);
    else ledger.words.set(Number(words[1]), words[3]);
  },
  SEGMENT: (ledger, words) => {
    if (words[2] === 'END') {
      ledger.segment.end = Number(words[3]);
      ledger.row.ends = true;
      return;
    }
    ledger.segment = {
      number: Number(words[1]), start: Number(words[3]), afterWait: words[5] === '1', reason: SEGMENT_REASONS[words[7]],
      indicator: words[7] === 'INTERRUPT' ? Number(words[8]) : null, end: null, dropped: [], begun: null,
    };
    ledger.fresh();
  },
  ROW: (ledger, words) => {
    ledger.row = Object.assign(ledger.begin(words), {
      c: Number(words[10]), segment: ledger.segment, missed: false, charged: [], charges: [], cost: 0, waited: 0,
      levelWait: 0, because: null, ends: false,
      changed: [], prints: [], interrupt: null, beforeIt: { counter: ledger.counter, enabled: ledger.enabled },
    });
  },
  DROP: (ledger, words) => { ledger.segment.dropped.push(ledger.begin(words)); },
  BEGUN: (ledger, words) => { ledger.segment.begun = ledger.begin(words); },
  MISSED: (ledger) => { ledger.row.missed = true; },
  ALONE: (ledger, words) => { Object.assign(ledger.entry, { serial: lower(words[1]), table: words[1] === 'TABLE'
    ? Number(words[2]) : null }); },
  SUPPRESSED: (ledger, words) => { ledger.entry.suppressed = Number(words[1]); },
  LAID: (ledger, words) => { Object.assign(ledger.entry, { card: Number(words[1]), kept: words[3] === '1' }); },
  CODE: (ledger, words) => { ledger.entry.code = words.slice(1); },
  USE: (ledger, words) => ledger.use(words),
  WRITES: (ledger, words) => { for (let k = 0; k < Number(words[2]); k += 1) ledger.entry.writes.push(Number(words[1])
    + k); },
  INDEX: (ledger, words) => { ledger.entry.index = { number: Number(words[1]), before: words[3], after: words[5] }; },
  CHARGE: (ledger, words) => { ledger.row.charged.push({ from: Number(words[1]), to: Number(words[2]),
    cause: lower(words[3]), waits: [] }); },
  WAIT: (ledger, words) => ledger.wait(words),
  LEVEL: (ledger, words) => { ledger.row.levelWait = Number(words[1]); },
  BECAUSE: (ledger, words) => { ledger.row.because = ledger.because(words); },
  PRT: (ledger, words, line) => { ledger.row.prints.push(line.slice(4)); },
  INT: (ledger, words) => { ledger.row.interrupt = Number(words[1]); },
  END: (ledger, words) => { ledger.end.kind = lower(words[1]); },
  DONE: (ledger, words) => { ledger.end.done = Number(words[1]); },
  TICKS: (ledger, words) => { ledger.end.ticks = Number(words[1]); },
  SUM: (ledger, words) => { ledger.end.sums[lower(words.slice(1, -1).join('_'))] = Number(words.at(-1)); },
};

// What the lists of a run say of a tick. Nothing of the machine is computed here: a tick's facts are found and put
// beside each
// other. "At tick t" is behind tick t, which is the time from t - 1 to t.

// The number of leading items that `holds` is true of; it is true of a front of the list.
export function countWhile(list, holds) {
  let low = 0;
  let high = list.length;
  while (low < high) {
    const middle = (low + high) >> 1;
    if (holds(list[middle])) low = middle + 1;
    else high = middle;
  }
  return low;
}

// The words of a state: those that a kept state has, and above them what rows have changed since.
export class Words {
  constructor(below, own = new Map()) {
    Object.assign(this, { below, own });
  }

  get(word) {
    return this.own.get(word) ?? this.below.get(word);
  }

  *[Symbol.iterator]() {
    yield* this.own;
    for (const pair of this.below) if (!this.own.has(pair[0])) yield pair;
  }

  *keys() {
    for (const [word] of this) yield word;
  }
}

// Puts reads in the order in which they are accepted, as nearly all come.
function inOrder(reads) {
  if (reads.some((read, k) => k > 0 && read.accept < reads[k - 1].accept)) reads.sort((a, b) => a.accept - b.accept);
}

// So many states are held that were asked for last.
const HELD = 4;
// How many rows lie between two states that are kept.
const EVERY = 1024;
// No delay is longer, so no read that was accepted earlier is still on its way.
const LONGEST = 255;

export class Run {
  // `data` is what `explain json` writes; `label` names the machine where two are compared. A run that was cut goes on
  // behind its last row.
  constructor(data, label, isCut = false) {
    this.data = data;
    this.label = label;
    this.isCut = isCut;
    this.fields = null;             // of its deck (Fields), where they are known
    this.rows = data.entries;
    this.segments = data.segments;
    this.totals = data.totals;
    this.whole = this.rows.length === data.totals.instructions && !isCut;
    const last = this.rows.at(-1);
    const ends = last !== undefined && last.row === data.totals.instructions && !isCut;
    // Of rows that others follow which are not here the last ones are left out: the levels behind them are not known.
    const known = ends ? last : this.rows[this.rows.length - 10];
    this.first = this.rows.length && this.rows[0].charges.length ? this.rows[0].charges[0].from : 0;
    this.last = known === undefined ? this.first : known.c;
    this.ended = ends;
    this.charges = [];
    for (const row of this.rows) {
      for (const charge of row.charges) {
        charge.row = row;
        this.charges.push(charge);
      }
    }
    this.held = [];
    this.number();
    this.gather();
    this.keep();
  }

  // Entries that ran ahead have the numbers behind the last row of their segment; the one begun has the next.
  number() {
    this.bySegment = this.segments.map(() => ({ from: this.rows.length, to: 0, reads: [] }));
    const place = new Map(this.segments.map((segment, k) => [segment.segment, k]));
    this.rows.forEach((row, k) => {
      const range = this.bySegment[place.get(row.segment)];
      range.from = Math.min(range.from, k);
      range.to = k + 1;
      row.place = place.get(row.segment);
    });
    this.segments.forEach((segment, k) => {
      const range = this.bySegment[k];
      if (range.to === 0) range.from = 0;
      segment.place = k;
      let number = range.to === 0 ? NaN : this.rows[range.to - 1].row;
      for (const guess of segment.dropped) {
        number += 1;
        Object.assign(guess, { row: number, dropped: true, place: k, end: segment.end });
      }
      if (segment.begun) Object.assign(segment.begun, { row: number + 1, begun: true, place: k });
    });
  }

  // The reads of each segment in the order in which they are accepted, and those made in all of them.
  gather() {
    const all = (entry, reads) => {
      for (const use of entry.uses) {
        if (use.how !== 'read') continue;
        use.entry = entry;
        reads.push(use);
      }
    };
    for (const row of this.rows) all(row, this.bySegment[row.place].reads);
    this.made = [];
    this.segments.forEach((segment, k) => {
      const reads = this.bySegment[k].reads;
      for (const guess of segment.dropped) all(guess, reads);
      if (segment.begun) all(segment.begun, reads);
      inOrder(reads);
      for (const read of reads) if (read.made) this.made.push(read);
    });
    inOrder(this.made);
  }

  // The states that are kept, each behind so many rows, and the index words that the run changes.
  keep() {
    const first = this.data.first;
    const words = new Map(first.words);
    this.kept = [{ counter: first.counter, enabled: first.enabled, words: new Map(words) }];
    const changed = new Set();
    const seen = (word) => { if (word >= 16 && word < 32) changed.add(word - 16); };
    const early = (entry) => { if (entry?.index) changed.add(entry.index.number); };
    for (const word of words.keys()) seen(word);
    this.rows.forEach((row, k) => {
      early(row);
      for (const [word, content] of row.state.words) {
        words.set(word, content);
        seen(word);
      }
      if ((k + 1) % EVERY === 0) this.kept.push({ ...row.state, words: new Map(words) });
    });
    for (const segment of this.segments) [...segment.dropped, segment.begun].forEach(early);
    this.changed = [...changed].sort((a, b) => a - b);
  }

  // How many of the rows here are done at a tick.
  done(t) {
    return countWhile(this.rows, (row) => row.c <= t);
  }

  // The number of instructions done at a tick, of the whole run.
  numberDone(t) {
    const done = this.done(t);
    return done === 0 ? (this.rows.length ? this.rows[0].row - 1 : 0) : this.rows[done - 1].row;
  }

  // The committed state at a tick: counter, whether interrupts are enabled, words by their numbers.
  state(t) {
    const done = this.done(t);
    const held = this.held.find((one) => one.done === done);
    if (held) return held;
    const from = Math.floor(done / EVERY);
    const kept = this.kept[from];
    const own = new Map();
    let { counter, enabled } = kept;
    for (let k = from * EVERY; k < done; k += 1) {
      const { state } = this.rows[k];
      for (const [word, content] of state.words) own.set(word, content);
      ({ counter, enabled } = state);
    }
    const state = { done, counter, enabled, words: new Words(kept.words, own) };
    this.held = [state, ...this.held].slice(0, HELD);
    return state;
  }

  // The segment of a tick: the first that ends later, else the last.
  segment(t) {
    const place = countWhile(this.segments, (segment) => segment.end <= t);
    return this.segments[Math.min(place, this.segments.length - 1)];
  }

  // The segment that ended at this very tick.
  endedAt(t) {
    const place = countWhile(this.segments, (segment) => segment.end < t);
    const segment = this.segments[place];
    return segment !== undefined && segment.end === t && this.bySegment[place].to > 0 ? segment : null;
  }

  // What is prepared in a segment: its rows from the k-th of all on, then those dropped, then the one begun.
  *entriesFrom(segment, k) {
    const range = this.bySegment[segment.place];
    for (let n = Math.max(k, range.from); n < range.to; n += 1) yield this.rows[n];
    yield* segment.dropped;
    if (segment.begun) yield segment.begun;
  }

  // The levels at a tick, oldest first.
  levels(t) {
    const segment = this.segment(t);
    const levels = [];
    if (segment === undefined || t < segment.start) return levels;
    for (const entry of this.entriesFrom(segment, this.done(t))) {
      if (entry.p > t || entry.begun || (entry.dropped && t >= segment.end)) break;
      if (entry.c !== undefined && entry.c <= t) continue;
      levels.push(entry);
    }
    return levels;
  }

  // The entry that is prepared next, where there is one.
  next(t) {
    const segment = this.segment(t);
    if (segment === undefined || t < segment.start || t >= segment.end) return null;
    for (const entry of this.entriesFrom(segment, this.done(t))) {
      if (entry.c !== undefined && entry.c <= t) continue;
      if (entry.begun || entry.p > t) return entry;
    }
    return null;
  }

  // The row or guess before an entry, in the order in which they are prepared.
  before(entry) {
    const segment = this.segments[entry.place];
    if (entry.c !== undefined) return this.rows[entry.row - 1 - this.rows[0].row] ?? null;
    const k = entry.begun ? segment.dropped.length : segment.dropped.indexOf(entry);
    return k > 0 ? segment.dropped[k - 1] : this.rows[this.bySegment[entry.place].to - 1] ?? null;
  }

  // The index words ahead: those of a state, as the levels have changed them.
  ahead(state, levels) {
    return new Words(state.words, new Map(levels.filter(({ index }) => index)
      .map(({ index }) => [16 + index.number, index.after])));
  }

  // The first tick at which most levels are in use.
  fullest() {
    let best = [this.first, 0];
    for (const { p } of this.rows) {
      const used = p <= this.last ? this.levels(p).length : 0;
      if (used > best[1]) best = [p, used];
    }
    return best[0];
  }

  // The read that a bank works on at a tick, by banks.
  banks(t) {
    const banks = Array.from({ length: this.totals.banks.length }, () => null);
    for (let k = countWhile(this.made, (read) => read.accept <= t) - 1; k >= 0; k -= 1) {
      const read = this.made[k];
      if (read.accept < t - LONGEST) break;
      if (t < read.answer && banks[read.bank] === null) banks[read.bank] = read;
    }
    return banks;
  }

  // The reads that are wanted and not accepted at a tick, in their turn.
  waiting(t) {
    const segment = this.segment(t);
    if (segment === undefined || t < segment.start || t >= segment.end) return [];
    const reads = this.bySegment[segment.place].reads;
    const waiting = [];
    for (let k = countWhile(reads, (read) => read.accept <= t); k < reads.length && reads[k].want <= t;
      k += 1) waiting.push(reads[k]);
    return waiting;
  }

  // How many lines the printer has printed by a tick.
  printed(t) {
    return countWhile(this.data.prints, (one) => one.tick <= t);
  }

  // What the tick t was spent on.
  charge(t) {
    const charge = this.charges[countWhile(this.charges, (one) => one.to < t)];
    return charge !== undefined && charge.from < t ? charge : null;
  }

  // The interrupt that is taken at a tick.
  interrupt(t) {
    const place = countWhile(this.data.interrupts, (one) => one.tick < t);
    const one = this.data.interrupts[place];
    return one !== undefined && one.tick === t ? one : null;
  }

  // The ticks of interrupts, drops and wrong guesses, in order.
  events() {
    const events = [];
    this.segments.forEach((segment, k) => {
      const last = this.rows[this.bySegment[k].to - 1];
      if (last === undefined || this.bySegment[k].to === 0 || segment.end > this.last
        || segment.end <= this.first) return;
      const interrupt = this.interrupt(segment.end);
      if (interrupt || segment.dropped.length || last.missed) events.push(
        { tick: segment.end, segment, interrupt, missed: last.missed });
    });
    return events;
  }
}

// The sums of a run, row after row (docs/explain.md): of causes, reasons, addresses, levels in use, banks and words.
import { CAUSE_NAMES, Off, REASONS, SEGMENT_REASONS } from './causes.js';

const BANKS = 6;

function sum(numbers) {
  return numbers.reduce((all, one) => all + one, 0);
}

// The number of the half-word at an address `word.bit`, by which addresses are ordered.
function halfWord(address) {
  const [word, bit] = address.split('.');
  return 2 * Number(word) + (bit === '32' ? 1 : 0);
}

// At how many ticks so many levels were in use; entries come in the order in which they enter.
class Standing {
  constructor(levels) {
    this.ticks = Array(levels + 1).fill(0);
    this.leaving = [];              // the ticks at which those leave that stand, the earliest first
    this.at = 0;
  }

  go(tick) {
    this.ticks[this.leaving.length] += tick - this.at;
    this.at = tick;
  }

  leaveBefore(tick) {
    while (this.leaving.length && this.leaving[0] <= tick) {
      this.go(this.leaving[0]);
      this.leaving.shift();
    }
  }

  enter(tick, leaves) {
    this.leaveBefore(tick);
    this.go(tick);
    this.leaving.push(leaves);
    if (this.leaving.length >= this.ticks.length) throw new Off(
      `more levels are in use at tick ${tick} than there are`);
  }

  end(tick) {
    this.leaveBefore(tick);
    this.go(tick);
    return this.ticks;
  }
}

export class Totals {
  constructor(levels) {
    Object.assign(this, { rows: 0, ticks: 0, dropped: 0, wrongGuesses: 0, levelRows: 0, levelTicks: 0,
      places: new Map(), answers: [] });
    this.byCause = Object.fromEntries(CAUSE_NAMES.map((cause) => [cause, 0]));
    this.byReason = Object.fromEntries([...Object.values(SEGMENT_REASONS),
      ...REASONS.slice(1)].map((reason) => [reason, { rows: 0, ticks: 0, late: 0 }]));
    this.banks = Array.from({ length: BANKS }, (_, bank) => ({ bank, reads: 0, busy: 0, waited: 0 }));
    this.words = { instruction_reads: 0, index_reads: 0, operand_reads: 0, following_reads: 0, held: 0, forwarded: 0 };
    this.standing = new Standing(levels);
  }

  // Adds a row, with what is dropped behind it.
  add(row, text) {
    this.rows += 1;
    this.ticks = row.c;
    if (row.missed) this.wrongGuesses += 1;
    if (row.levelWait) {
      this.levelRows += 1;
      this.levelTicks += row.levelWait;
    }
    this.addCauses(row, text);
    if (row.because) this.addReason(row);
    this.standing.enter(row.p, row.c);
    this.addReads(row);
    for (const { how, kind } of row.uses) {
      if (how === 'held' && kind === 'instruction') this.words.held += 1;
      else if (how === 'forwarded') this.words.forwarded += 1;
    }
    if (row.ends) this.addEnd(row.segment);
    if (this.answers.length) this.answers = this.answers.filter(([, tick]) => tick > row.c);
  }

  addCauses(row, text) {
    let place = this.places.get(row.address);
    if (!place) {
      place = { address: row.address, text, times: 0, by_cause: {} };
      this.places.set(row.address, place);
    }
    place.times += 1;
    for (const { from, to, cause } of row.charges) {
      this.byCause[cause] += to - from;
      place.by_cause[cause] = (place.by_cause[cause] ?? 0) + to - from;
    }
  }

  addReason(row) {
    const { reason, late } = row.because;
    const isFirst = reason === 'start';
    const one = this.byReason[isFirst ? row.segment.reason : reason];
    one.rows += 1;
    one.ticks += row.waited;
    one.late += isFirst ? row.waited : Math.min(row.waited, late);
  }

  addReads(entry) {
    for (const use of entry.uses) {
      if (use.how !== 'read' || !use.made) continue;
      const bank = this.banks[use.bank];
      this.words[`${use.kind}_reads`] += 1;
      bank.reads += 1;
      bank.busy += use.answer - use.accept;
      bank.waited += use.accept - Math.max(use.want, use.turn);
      this.answers.push([use.bank, use.answer]);
    }
  }

  addEnd({ dropped, begun, end }) {
    this.dropped += dropped.length;
    for (const entry of dropped) {
      this.standing.enter(entry.p, end);
      this.addReads(entry);
    }
    this.addReads(begun);
  }

  // All is added: what reads take behind the last tick does not count. The sums have to be those of the lines at the
  // end.
  close(end) {
    for (const [bank, tick] of this.answers) this.banks[bank].busy -= tick - this.ticks;
    this.byLevels = this.standing.end(this.ticks);
    const stages = {};
    for (const [cause, ticks] of Object.entries(this.byCause)) {
      const stage = cause.split('_')[0];
      stages[stage] = (stages[stage] ?? 0) + ticks;
      if (stage !== cause) stages[cause] = ticks;
    }
    const same = Object.keys(stages).length === Object.keys(end.sums).length
      && Object.entries(stages).every(([name, ticks]) => end.sums[name] === ticks);
    const reasons = Object.values(this.byReason);
    for (const [good, what] of [
      [this.ticks === end.ticks && this.rows === end.done, 'the last row is not the end of the run'],
      [sum(Object.values(this.byCause)) === end.ticks, 'the charges do not add up to the ticks of the run'],
      [same, 'the charges do not add up to the lines SUM'],
      [sum(reasons.map((one) => one.ticks)) + this.byCause.executing === end.ticks,
        'the reasons do not add up to the ticks of the run'],
      [reasons.every((one) => one.late >= 0 && one.late <= one.ticks), 'a reason is late by more than its ticks'],
      [sum(this.byLevels) === end.ticks, 'the levels in use do not add up to the ticks of the run'],
    ]) if (!good) throw new Off(what);
  }

  // What `explain json` tells under the key `totals`, without the ticks on other machines.
  told() {
    const spent = ({ by_cause }) => sum(Object.values(by_cause));
    return {
      ticks: this.ticks, instructions: this.rows, dropped: this.dropped, wrong_guesses: this.wrongGuesses,
      by_cause: this.byCause,
      by_reason: this.byReason, by_levels: this.byLevels,
      by_address: [...this.places.values()].sort((a, b) => spent(b) - spent(a)
        || halfWord(a.address) - halfWord(b.address)),
      waited_for_level: { rows: this.levelRows, ticks: this.levelTicks }, banks: this.banks, words: this.words,
    };
  }
}

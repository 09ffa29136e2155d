// What a deck gives: it is made plain and run, and its ledger is read, for one machine or for two.
import { MOST_BYTES, budgetOf, bytesOf, controlOf, delayCards, linesOf, withCards } from './decks.js';
import { Plain, Refused, retold } from './plain.js';
import { Report } from './report.js';
import { Run } from './read.js';
import { faultOf } from './faults.js';
import { grouped, plural } from './words.js';

export const ROWS = 20000;      // so many rows of a run are read
const LATIN = new TextDecoder('latin1');
const STATUS = {
  2: 'The words mean nothing.',
  3: `The job is too long: it has more than ${grouped(MOST_BYTES)} bytes.`,
  4: 'Reading the job failed.',
  5: 'Writing failed.',
  6: 'There is no memory for this run.',
  trap: 'The program was stopped by a fault of its own, a trap. This must not be: please report the deck.',
};

// What is told of a program that ended in another way than with a report.
function wrongOf({ status, message }) {
  return { wrong: STATUS[status] ?? `The program ended with status ${status}.`, more: message };
}

export class Live {
  // The ledger has a runner of its own, so that it is written while the deck runs.
  constructor(runner, second, names) {
    Object.assign(this, { runner, second, names, made: null, isCurrent: false });
  }

  // What was made last stays, as that of another deck.
  stop() {
    this.runner.stop();
    this.second.stop();
    this.isCurrent = false;
  }

  // A deck as the program reads it; throws Refused.
  async plain(text, runner = this.runner) {
    const plain = new Plain(text);
    await plain.resolve(async (deck) => LATIN.decode((await runner.run('stretch', ['run'], bytesOf(deck))).bytes
      ?? new Uint8Array()));
    return plain;
  }

  // The report of a deck, or what another command makes of it, for exercises and the like.
  async reportOf(text, runner, program = 'stretch', words = ['run']) {
    try {
      const { bytes } = await runner.run(program, words, bytesOf((await this.plain(text, runner)).text()));
      return LATIN.decode(bytes ?? new Uint8Array());
    } catch (error) {
      if (error instanceof Refused) return `CARD ${error.line} ${error.message}\n`;
      throw error;
    }
  }

  // The line and the fault for which a deck is refused, or none.
  async refusalOf(text, runner) {
    try {
      const plain = await this.plain(text, runner);
      const { status, bytes } = await runner.run('stretch', ['assemble'], bytesOf(plain.text()));
      const fault = status === 1 ? faultOf(LATIN.decode(bytes)) : null;
      return fault && { ...fault, card: plain.lines[fault.card - 1] ?? linesOf(text).length + 1 };
    } catch (error) {
      if (error instanceof Refused) return { card: error.line, fault: error.message };
      throw error;
    }
  }

  // Runs a deck. Gives {runs, report, ..}, a {fault} at a line, or what is {wrong}.
  async run(text, { levels, beside, kept }, tell) {
    let plain;
    try {
      plain = await this.plain(text);
    } catch (error) {
      if (!(error instanceof Refused)) throw error;
      return { fault: 'NOT PLAIN', line: error.line, message: error.message };
    }
    const deck = plain.text();
    const running = this.runner.run('stretch', ['run'], bytesOf(deck), tell);
    const written = this.runner.there().then(() => this.ledger(plain, deck, levels, tell));
    // A deck that gives no report is told of at once: its ledger, which has a budget of its own, is not waited for.
    const answer = await Promise.race([running, written.then(() => running)]);
    if (answer.status !== 0) this.second.stop();
    if (answer.status === 1) {
      const fault = faultOf(LATIN.decode(answer.bytes));
      return fault ? { fault: fault.fault, line: plain.lines[fault.card - 1] ?? plain.lines.length + 1 }
        : wrongOf(answer);
    }
    if (answer.status !== 0) return wrongOf(answer);
    const lines = await written;
    const report = new Report(LATIN.decode(answer.bytes));
    if (!lines.object) return wrongOf(lines);
    const isCut = report.done > ROWS;
    const runs = [new Run(lines.object, '', isCut)];
    const other = beside ? await this.beside(text, plain, deck, levels, { beside, kept }, tell) : null;
    if (other?.object) {
      runs[0].label = other.own;
      runs.push(new Run(other.object, other.label, other.isCut ?? isCut));
      runs[1].isOther = beside === 'keep';
    }
    this.made = { text, plain, deck, cards: plain.cards, report, bytes: answer.bytes, left: answer.left, runs, isCut,
      levels };
    this.isCurrent = true;
    return this.made;
  }

  // The ledger's object on so many levels; of a long run that of its first rows. Rows come while it is written.
  async ledger(plain, deck, levels, tell) {
    const entries = [];
    const take = (part) => { for (const entry of JSON.parse(part)) entries.push(entry); };
    const request = { ask: 'ledger', levels, job: bytesOf(shortened(deck)), cards: plain.cards, names: this.names,
      first: 1, last: ROWS };
    const answer = await this.second.ask({ ...request, isParted: true }, tell, take);
    if (answer.status !== 0) return answer;
    const object = { ...JSON.parse(answer.object), entries };
    if (plain.changed) retold(object, plain, linesOf(plain.source));
    return { object };
  }

  // The run that stands beside: of another machine, or of the deck that was kept.
  async beside(text, plain, deck, levels, { beside, kept }, tell) {
    const [kind, value] = beside.split(' ');
    if (kind === 'levels') {
      return { own: `a machine of ${plural(levels, 'level')}`, label: `a machine of ${plural(Number(value), 'level')}`,
        ...await this.ledger(plain, deck, Number(value), tell) };
    }
    if (kind === 'delay') {
      const slow = withCards(deck, ['DELAYS'], delayCards([value]));
      return { own: 'the delays of the deck', label: `a delay of ${plural(Number(value), 'tick')}`,
        ...await this.ledger(plain, slow, levels, tell) };
    }
    if (kept === null || kept === text) return null;
    const other = await this.plain(kept).catch(() => null);
    const answer = other && await this.runner.run('stretch', ['run'], bytesOf(other.text()), tell);
    if (answer?.status !== 0) return null;
    const made = await this.ledger(other, other.text(), levels, tell);
    for (const entry of made.object?.entries ?? []) entry.card = null;          // its cards are not those of the editor
    const isCut = new Report(LATIN.decode(answer.bytes)).done > ROWS;
    return { own: 'the deck now', label: 'the deck that was kept', ...made, isCut };
  }
}

// The deck with a budget for as many rows as are read; its cards stay where they are.
function shortened(deck) {
  if (budgetOf(linesOf(deck)) <= ROWS) return deck;
  return deck.split('\n').map((line) => (controlOf(line) === 'BUDGET' ? `/BUDGET ${ROWS}` : line)).join('\n');
}

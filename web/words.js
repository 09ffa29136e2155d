// Words for what is shown: causes, addresses, index words, and the sentence of a tick.

// The causes in the order of the stack, each with what it is called.
export const CAUSES = [
  ['restart', 'restart'],
  ['instruction_turn', 'instruction turn'],
  ['instruction_bank', 'instruction bank'],
  ['instruction_storage', 'instruction storage'],
  ['address', 'address'],
  ['index_bank', 'index bank'],
  ['index_storage', 'index storage'],
  ['preparing', 'preparing'],
  ['operand_turn', 'operand turn'],
  ['operand_bank', 'operand bank'],
  ['operand_storage', 'operand storage'],
  ['executing', 'executing'],
];

export const causeName = new Map(CAUSES);

export const ZERO = '0'.repeat(16);

// A number with a blank between thousands.
export function grouped(number) {
  return String(number).replace(/\B(?=(\d{3})+$)/g, '\u202f');
}

export function plural(number, one, many) {
  return `${grouped(number)} ${number === 1 ? one : many ?? `${one}s`}`;
}

// An index word as value, count and refill; count and refill only where one is not zero.
export function indexText(word) {
  const bits = BigInt(`0x${word}`);
  const part = (first, length) => (bits >> BigInt(64 - first - length)) & ((1n << BigInt(length)) - 1n);
  const magnitude = part(0, 24);
  const value = `${part(24, 1) ? '-' : ''}${magnitude >> 6n}.${magnitude & 63n}`;
  const flags = part(25, 3) ? ` flags ${part(25, 3).toString(2).padStart(3, '0')}` : '';
  const count = part(28, 18);
  const refill = part(46, 18);
  return (count || refill ? `${value}, ${count}, ${refill}` : value) + flags;
}

// The numbers of the indicators that are on and allowed by the mask: those that an interrupt would take.
export function pending(words) {
  const on = BigInt(`0x${words.get(11) ?? ZERO}`) & BigInt(`0x${words.get(12) ?? ZERO}`);
  const numbers = [];
  for (let k = 0; k < 64; k += 1) if ((on >> BigInt(63 - k)) & 1n) numbers.push(k);
  return numbers;
}

// A list in words.
export function listed(texts) {
  return texts.length < 2 ? texts.join('') : `${texts.slice(0, -1).join(', ')} and ${texts.at(-1)}`;
}

// What kept rows back, and what may help (docs/explain.md).
export const REASONS = {
  start: ['the run began', 'nothing: the first words have to come'],
  interrupt: ['first behind an interrupt', 'fewer interrupts, shorter ways back'],
  wrong_guess: ['first behind a wrong guess', 'turn the branch so that it is mostly not taken, or count by CB'],
  card: ['first behind a card of the reader', 'ask for fewer cards'],
  serial: ['it, or the row before, is done alone', 'no registers as words; fewer BB, BE, BEW, EX, T and SWAP'],
  store: ['a row stored into its words', 'no stores into instructions that come soon'],
  level: ['no level was free', 'more levels; long operations earlier'],
  forwarding: ['its index word came from a row that was not done', 'change an index word earlier before it is used'],
  bus: ['reads of a row before came first', 'fewer operands from storage at a time'],
  prefetch: ['its word was asked for late', 'faster storage; code and data in other banks'],
  order: ['it stood behind the row before', 'shorter waits of the rows before it'],
};

const SERIAL = new Map([
  ['table', 'it is the instruction of an interrupt table'],
  ['execute', 'it executes another one (EX)'],
  ['register', 'it uses a register as a word'],
  ['operation', 'by its operation'],
]);

export function aloneText(serial) {
  return `done alone (${SERIAL.get(serial) ?? serial})`;
}

// What a level does at a tick: [a word for its mark, the text].
export function levelDoes(entry, t) {
  const awaited = entry.uses.find((use) => use.kind === 'operand' && use.how !== 'register'
    && (use.answer ?? use.done) > t);
  if (entry.dropped) {
    const end = entry.end;
    return ['dropped', t < entry.r && awaited ? `waits for word ${awaited.word}; dropped at ${end}`
      : `waits; dropped at ${end}`];
  }
  if (t < entry.r) {
    return ['operand', awaited ? `waits for word ${awaited.word} until ${awaited.answer ?? awaited.done}`
      : `waits for its operands until ${entry.r}`];
  }
  const begins = entry.c - entry.cost;
  if (t < begins) return ['turn', `waits for its turn until ${begins}`];
  return ['executing', `executes until ${entry.c}`];
}

// What the entry that is prepared next waits for at a tick.
export function nextWaits(run, entry, t) {
  const word = entry.uses.find((use) => use.kind === 'instruction' && (use.answer ?? use.done ?? 0) > t);
  if (word) {
    if (word.how === 'read'
      && t < word.accept) return `waits for instruction word ${word.word}, which storage has not begun to read`;
    return `waits for instruction word ${word.word}${word.answer === undefined ? '' : ` until ${word.answer}`}`;
  }
  if (t < entry.a - 1) {
    const own = entry.uses.filter((use) => use.kind === 'instruction').map((use) => use.word);
    const writer = run.levels(t).find((level) => level.writes?.some((written) => own.includes(written)));
    if (writer) return `waits until ${writer.address} has stored into its words`;
    if (entry.serial) return `waits for all before it: it is ${aloneText(entry.serial)}`;
    const before = run.before(entry);
    if (before?.serial && (before.c === undefined
      || before.c > t)) return `waits for ${before.address}, which is ${aloneText(before.serial)}`;
    return 'waits for reads that came before its own';
  }
  if (t === entry.a - 1) return 'has its address formed in the next tick';
  const index = entry.uses.find((use) => use.kind === 'index' && (use.answer ?? use.done ?? 0) > t);
  if (index) return `waits for its index word ${index.word} until ${index.answer ?? index.done}`;
  if (t < entry.p - 1) return 'waits for a free level';
  return 'waits for nothing: it takes a level in the next tick';
}

// How index words go back where entries are dropped, youngest first: "index word 1 goes back 3.0 → 2.0".
function goneBack(dropped) {
  const steps = new Map();
  for (const entry of [...dropped].reverse()) {
    if (!entry.index) continue;
    const { number, before, after } = entry.index;
    if (!steps.has(number)) steps.set(number, [indexText(after)]);
    steps.get(number).push(indexText(before));
  }
  return [...steps].map(([number, words]) => `index word ${number} goes back ${words.join(' → ')}`);
}

// What the end of a segment is.
function endText(run, segment, t) {
  const parts = [];
  const interrupt = run.interrupt(t);
  const range = run.bySegment[segment.place];
  const last = run.rows[range.to - 1];
  const following = run.segments[segment.place + 1];
  if (interrupt) parts.push(
    `An interrupt by indicator ${interrupt.indicator}${interrupt.name ? ` (${interrupt.name})` : ''} is taken`);
  else if (last?.missed) parts.push(`The branch at ${last.address} was guessed wrongly`);
  else if (following?.reason === 'card') parts.push('A card came from the reader');
  if (!following && run.ended) parts.push(run.data.end === 'wait' ? 'The run ends: the machine waits'
    : 'The run ends: its budget of instructions is used up');
  const { dropped } = segment;
  if (dropped.length) {
    const names = [...dropped].reverse().map((entry) => entry.address);
    const order = names.length > 1 ? ', youngest first' : '';
    const back = goneBack(dropped);
    parts.push(
      `${listed(names)} ${names.length > 1 ? 'are' : 'is'} dropped${order}${back.length ? `: ${listed(back)}` : ''}`);
  }
  return parts;
}

// The price of an end: one tick to start anew, and one for each entry that was dropped.
function restartText(run, t) {
  const segment = run.segment(t);
  const earlier = run.segments[segment.place - 1];
  if (!earlier) return [];
  const dropped = [...earlier.dropped].reverse();
  const k = t - earlier.end;
  const whole = segment.start - earlier.end;
  const what = k <= dropped.length ? `the price of ${dropped[k - 1].address}, which was dropped` : 'to start anew';
  const why = run.rows[run.bySegment[earlier.place].to - 1]?.missed
    ? `; the branch at ${run.rows[run.bySegment[earlier.place].to - 1].address} was guessed wrongly` : '';
  return [`Tick ${k} of ${whole} before the next segment: ${what}${why}`];
}

// What a row that is done at this tick leaves.
function doneText(run, row) {
  const changed = row.state.words.filter(([word]) => word >= 16 && word < 32)
    .map(([word, content]) => `index word ${word - 16} is now committed as ${indexText(content)}`);
  const own = row.state.words.map(([word]) => word);
  if (run.fields) changed.push(...run.fields.changes(own, run.state(row.c - 1).words, run.state(row.c).words));
  if (own.includes(8) || own.includes(9) || own.includes(10)) changed.push(
    `the accumulator is now ${accumulatorText(run.state(row.c).words, /\(D/i.test(row.text))}`);
  return `${row.address} is done${changed.length ? `: ${listed(changed)}` : ''}`;
}

// The accumulator with its sign, in digits where an operation on digits has left them.
function accumulatorText(words, isDecimal) {
  const hex = ((words.get(8) ?? ZERO) + (words.get(9) ?? ZERO)).replace(/^0+(?=.)/, '');
  const isMinus = (BigInt(`0x${words.get(10) ?? ZERO}`) >> 59n) & 1n;
  const number = isDecimal && /^\d+$/.test(hex) ? hex : String(BigInt(`0x${hex}`));
  return `${isMinus && number !== '0' ? '-' : ''}${number}`;
}

// What happens in a tick, in sentences without their full stops.
export function sentences(run, t) {
  const parts = [];
  const segment = run.segment(t);
  if (t <= run.first) return run.first === 0 ? ['The run begins'] : ['This part of the run begins'];
  const ended = run.endedAt(t);
  if (ended) parts.push(...endText(run, ended, t));
  const done = run.rows[run.done(t) - 1];
  if (done && done.c === t) parts.push(doneText(run, done));
  if (!ended && t < segment.start) return [...parts, ...restartText(run, t)];
  if (!ended && t === segment.start && segment.place > 0) parts.push(...restartText(run, t));
  const levels = run.levels(t);
  levels.forEach((entry, k) => {
    const index = entry.index;
    const early = index
      ? `, and index word ${index.number} changed early, ${indexText(index.before)} → ${indexText(index.after)}` : '';
    if (entry.p === t) parts.push(`${entry.address} is prepared in level ${k + 1}${early}`);
    if (entry.r === t && entry.r > entry.p) parts.push(`The operands of ${entry.address} are there`);
  });
  const next = run.next(t);
  if (next && next.a === t) parts.push(`The address of ${next.address} is formed`);
  for (const read of run.banks(t)) {
    if (read && read.accept === t) parts.push(`Bank ${read.bank} begins to read word ${read.word}`);
  }
  if (parts.length) return parts;
  const oldest = levels[0];
  if (oldest) {
    const [what, text] = levelDoes(oldest, t);
    parts.push(what === 'executing'
      ? `${oldest.address} executes: tick ${t - (oldest.c - oldest.cost)} of ${oldest.cost}`
      : `${oldest.address} ${text}`);
  }
  if (next) parts.push(`${next.address} ${nextWaits(run, next, t)}`);
  return parts;
}

// The worker: it has the modules of the programs, and answers one request after another. What has to stop is ended
// with the worker.
import { run } from './host.js';
import { Ledger } from './ledger.js';

const KEPT_FIRST = 1 << 22;     // so many bytes of an output are kept from its beginning,
const KEPT_LAST = 1 << 18;      // and at least so many of its end
const TELL = 150;               // milliseconds between two words of progress
const PART = 2000;              // rows that go to the page at once
const ASKED = 512;              // pieces between two looks at the clock
const LATIN = new TextDecoder('latin1');

const modules = {};

async function moduleOf(source) {
  if (source instanceof WebAssembly.Module) return source;
  const stream = new Blob([source]).stream().pipeThrough(new DecompressionStream('gzip'));
  return WebAssembly.compile(await new Response(stream).arrayBuffer());
}

function joined(pieces) {
  const all = new Uint8Array(pieces.reduce((size, piece) => size + piece.length, 0));
  let at = 0;
  for (const piece of pieces) {
    all.set(piece, at);
    at += piece.length;
  }
  return all;
}

// Calls `tell` now and then, however often it is asked.
function teller(tell) {
  let said = performance.now();
  let count = 0;
  return (what) => {
    count += 1;
    if (count % ASKED || performance.now() - said < TELL) return;
    said = performance.now();
    tell(what());
  };
}

// What a program writes; of very much the middle is lost.
class Output {
  constructor() {
    Object.assign(this, { first: [], firstSize: 0, last: [], lastSize: 0, size: 0, pieces: 0 });
  }

  put(piece) {
    this.size += piece.length;
    this.pieces += 1;
    if (this.firstSize < KEPT_FIRST) {
      this.first.push(piece.slice());
      this.firstSize += piece.length;
      return;
    }
    this.last.push(piece.slice());
    this.lastSize += piece.length;
    if (this.lastSize < 2 * KEPT_LAST) return;
    while (this.lastSize - this.last[0].length >= KEPT_LAST) this.lastSize -= this.last.shift().length;
  }
}

// A run of a program: its status, and what it wrote.
function answerRun({ program, words, job }, tell) {
  const output = new Output();
  const progress = teller(tell);
  const status = run(modules[program], program, words, job, (piece) => {
    output.put(piece);
    progress(() => ({ lines: output.pieces }));
  });
  const bytes = joined([...output.first, ...output.last]);
  return { status, bytes, left: output.size - bytes.length, cutAt: output.firstSize };
}

// Puts pieces together and gives their lines, many at once, since each decoding costs.
class Lines {
  constructor(take) {
    Object.assign(this, { take, room: new Uint8Array(1 << 18), size: 0 });
  }

  put(piece) {
    if (this.size + piece.length > this.room.length) this.flush();
    this.room.set(piece, this.size);
    this.size += piece.length;
  }

  // A piece is whole lines, so what stands here is.
  flush() {
    const text = LATIN.decode(this.room.subarray(0, this.size));
    this.size = 0;
    for (let from = 0; from < text.length;) {
      const end = text.indexOf('\n', from);
      this.take(text.slice(from, end));
      from = end + 1;
    }
  }
}

// A ledger, read as it is written: the object of its rows, as text, which is quicker to pass on than what it says.
// Where parts are wanted
// its entries go so many at a time before the answer, which is then without them.
function answerLedger({ levels, job, cards, names, first, last, isParted }, tell, part) {
  const ledger = new Ledger(levels, cards, names, first, last);
  const progress = teller(tell);
  const lines = new Lines((line) => { if (!line.startsWith('CARD ')) ledger.take(line); });
  const status = run(modules.ledger, 'ledger', [String(levels)], job, (piece) => {
    lines.put(piece);
    progress(() => ({ rows: ledger.sums.rows }));
    if (isParted && ledger.entries.length >= PART) part(JSON.stringify(ledger.entries.splice(0)));
  });
  lines.flush();
  if (isParted && ledger.entries.length) part(JSON.stringify(ledger.entries.splice(0)));
  return status ? { status } : { status, object: JSON.stringify(ledger.object()) };
}

// Many runs at once, of which only status and output are wanted: for checks of the page.
function answerMany({ program, jobs }) {
  return { status: 0, answers: jobs.map(({ words, job }) => answerRun({ program, words, job }, () => {})) };
}

const ANSWERS = { run: answerRun, ledger: answerLedger, many: answerMany };

onmessage = async ({ data: { id, ask, ...request } }) => {
  const begun = performance.now();
  try {
    if (ask === 'modules') {
      for (const [name, source] of Object.entries(request.sources)) modules[name] = await moduleOf(source);
      postMessage({ id, modules });
    } else {
      const answer = ANSWERS[ask](request, (progress) => postMessage({ id, progress }),
        (part) => postMessage({ id, part }));
      postMessage({ id, ...answer, ms: performance.now() - begun });
    }
  } catch (error) {
    postMessage({ id, status: 'trap', message: String(error), ms: performance.now() - begun });
  }
};

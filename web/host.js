// One run of a program: a fresh instance of its module, whose memory goes with it. A program reads its job, writes,
// and asks for the
// words of its command; nothing else of the world is given to it (web/shim.c is the other side).
const encoder = new TextEncoder();
const NO_WORD = -1n;
const TOO_LONG = -2n;

// Runs a module under a name with words and a job, which is bytes. `put` is called with each piece that is written,
// which stands in the
// instance's memory and goes with it. Gives the exit status; a trap is thrown.
export function run(module, name, words, job, put) {
  const command = [name, ...words].map((word) => encoder.encode(word));
  let read = 0;
  let memory = null;
  const bytes = (from, size) => new Uint8Array(memory.buffer, Number(from), Number(size));
  const host = {
    read(to, size) {
      const piece = job.subarray(read, read + Number(size));
      bytes(to, piece.length).set(piece);
      read += piece.length;
      return BigInt(piece.length);
    },
    write(from, size) {
      put(bytes(from, size));
      return size;
    },
    word(number, to, size) {
      const word = command[Number(number)];
      if (word === undefined) return NO_WORD;
      if (word.length > Number(size)) return TOO_LONG;
      bytes(to, word.length).set(word);
      return BigInt(word.length);
    },
  };
  const instance = new WebAssembly.Instance(module, { host });
  memory = instance.exports.memory;
  return instance.exports.run();
}

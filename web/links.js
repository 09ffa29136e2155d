// A deck in the address of a page: `#d=` and its bytes, deflated, in the base64 of addresses. A link is a stranger's
// text: what it unpacks to is
// bounded, and it is put into the editor and nowhere else.
const PIECE = 4096;

async function through(bytes, transform, most) {
  const reader = new Blob([bytes]).stream().pipeThrough(transform).getReader();
  const pieces = [];
  let size = 0;
  for (;;) {
    const { done, value } = await reader.read();
    if (done) break;
    size += value.length;
    if (size > most) {
      reader.cancel().catch(() => {});
      throw new RangeError('too long');
    }
    pieces.push(value);
  }
  return new Uint8Array(await new Blob(pieces).arrayBuffer());
}

export async function packed(text) {
  const bytes = await through(new TextEncoder().encode(text), new CompressionStream('deflate-raw'), Infinity);
  let letters = '';
  for (let k = 0; k < bytes.length; k += PIECE) letters += String.fromCharCode(...bytes.subarray(k, k + PIECE));
  return btoa(letters).replace(/\+/g, '-').replace(/\//g, '_').replace(/=+$/, '');
}

// The text of a code; throws where it is none, or of more than so many bytes.
export async function unpacked(code, most) {
  const bytes = Uint8Array.from(atob(code.replace(/-/g, '+').replace(/_/g, '/')), (letter) => letter.charCodeAt(0));
  return new TextDecoder('utf-8', { fatal: true, ignoreBOM: true })
    .decode(await through(bytes, new DecompressionStream('deflate-raw'), most));
}

// The address with a page of the lessons in it, or with none; that of a deck stays as it is.
export function addressWith(lesson) {
  const [page, hash = ''] = location.href.split('#');
  if (wordsOf(`#${hash}`).has('d')) return location.href;
  return lesson ? `${page}#lesson=${lesson.replace(/^lesson-/, '')}` : page;
}

// The words of an address behind its #, by their names.
export function wordsOf(hash) {
  return new Map(hash.slice(1).split('&').filter(Boolean).map((word) => {
    const at = word.indexOf('=');
    return at < 0 ? [word, ''] : [word.slice(0, at), word.slice(at + 1)];
  }));
}

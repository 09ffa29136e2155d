// The cards of a deck as text, and decks that are made of them.

export const MOST_BYTES = 2000000;
export const READ = 72;             // the last column that is read
export const STATEMENT = 9;         // so many columns stand before the statement
const OWN_BUDGET = 1000;
const A_CARD = 10;                  // numbers on a card /DELAYS
const END = /^ *E *N *D *(?:[(,;]|$)/i;         // a statement whose operation is END

const PIECE = 4096;

const encoder = new TextEncoder();

export function bytesOf(text) {
  return encoder.encode(text);
}

// The lines without their ends.
export function linesOf(text) {
  const lines = text.split('\n').map((line) => (line.endsWith('\r') ? line.slice(0, -1) : line));
  if (lines.at(-1) === '') lines.pop();
  return lines;
}

// The word of a control card, '' of any other.
export function controlOf(line) {
  return line[0] === '/' ? line.slice(1, READ).split(' ')[0].toUpperCase() : '';
}

// The operation of a statement card, in capitals and without blanks.
export function operationOf(line) {
  return line.slice(STATEMENT, READ).split(/[(,;]/)[0].replace(/ /g, '').toUpperCase();
}

// The place of the card END among the lines; their number where there is none.
export function endOf(lines) {
  const place = lines.findIndex((line) => line[0] !== '*' && line[0] !== '/' && END.test(line.slice(STATEMENT, READ)));
  return place < 0 ? lines.length : place;
}

// Whether cards lie in the reader.
export function hasReaderCards(lines) {
  return lines.slice(endOf(lines) + 1).some((line) => line[0] !== '/');
}

// The deck without the control cards of these names, and with other cards behind it.
export function withCards(text, names, cards = []) {
  return [...linesOf(text).filter((line) => !names.includes(controlOf(line))), ...cards, ''].join('\n');
}

// The deck with control cards of these names, where it has none of them.
export function asking(text, names) {
  const there = new Set(linesOf(text).map(controlOf));
  return withCards(text, [], names.filter((name) => !there.has(name)).map((name) => `/${name}`));
}

export function delayCards(delays) {
  const cards = [];
  for (let k = 0; k < delays.length; k += A_CARD) cards.push(`/DELAYS ${delays.slice(k, k + A_CARD).join(' ')}`);
  return cards;
}

// The list of delays that the deck has, as text; '' where it has none.
export function delaysOf(lines) {
  return lines.filter((line) => controlOf(line) === 'DELAYS').map((line) =>
    line.slice(7, READ).trim().replace(/ +/g, ' ')).join(' ');
}

// How many instructions a run may do.
export function budgetOf(lines) {
  const card = lines.find((line) => controlOf(line) === 'BUDGET');
  const found = card && /^\/BUDGET +(\d{1,8}) *$/.exec(card.slice(0, READ));
  return found ? Number(found[1]) : OWN_BUDGET;
}

// How many characters are the same at the beginnings of two texts, and behind those at their ends.
export function sameEnds(before, after) {
  const most = Math.min(before.length, after.length);
  const same = (isSame, limit) => {
    let count = 0;
    let size = PIECE;
    while (count < limit && size) {
      size = Math.min(size, limit - count);
      if (isSame(count, size)) count += size;
      else size = Math.floor(size / 2);
    }
    return count;
  };
  const front = same((k, n) => before.slice(k, k + n) === after.slice(k, k + n), most);
  const last = (text, k, n) => text.slice(text.length - k - n, text.length - k);
  return [front, same((k, n) => last(before, k, n) === last(after, k, n), most - front)];
}

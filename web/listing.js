// The listing: each card with its place and bits, and the symbols.
import { h, wideTable } from './dom.js';
import { STATEMENT, READ, endOf } from './decks.js';

const MOST = 3000;
const [PLACE, BITS, CARD] = [[6, 15], [16, 32], 33];      // columns of a line of the listing

// The deck whose report has the listing of these cards: of the cards behind the end none is needed for it, and one
// instruction does.
export function listingDeck(cards) {
  return [...cards.slice(0, endOf(cards) + 1), '/LIST', '/BUDGET 1', ''].join('\n');
}

// The cards up to END with their places and bits, from the report of that deck, and the symbols.
export function listingOf(report, cards, lineOf) {
  const lines = report.split('\n');
  const end = Math.min(endOf(cards) + 1, cards.length);
  const listing = lines.slice(0, end).map((line, k) => ({
    number: lineOf(k + 1), place: line.slice(...PLACE).trim(), bits: line.slice(...BITS).trim(), card: line.slice(CARD),
    name: /^[*/]/.test(cards[k]) ? '' : cards[k].slice(1, STATEMENT).trim(),
  }));
  const symbols = lines.filter((line) => line.startsWith('SYM ')).map((line) => line.split(' ').slice(1));
  return { listing, symbols };
}

// The names of whole words by these; the first of a word.
export function namesOf(symbols) {
  const names = new Map();
  for (const [name, address] of symbols) {
    const [word, bit] = address.split('.').map(Number);
    if (bit === 0 && !names.has(word)) names.set(word, name);
  }
  return names;
}

export function listingView(box, { listing, symbols }, choose) {
  const code = (text) => h('td', { class: 'code' }, text);
  const rows = listing.slice(0, MOST).map(({ number, place, bits, card }) => h('tr', {
    tabindex: '0', onclick: () => choose(number), onkeydown: (event) => { if (event.key === 'Enter') choose(number); },
  }, h('td', { class: 'number' }, number), code(place), code(bits), code(card.slice(0, READ))));
  const named = symbols.map(([name, address]) => h('tr', {}, h('th', { scope: 'row', class: 'code' }, name),
    code(address)));
  box.replaceChildren(
    wideTable('listing', 'Where each card lies, and its bits', ['card', 'place', 'bits', 'text'], rows),
    listing.length > MOST ? h('p', { class: 'note' }, `The first ${MOST} cards are shown.`) : '',
    named.length ? wideTable('symbols', 'Names and their addresses', ['name', 'address'], named)
      : h('p', { class: 'soft' }, 'No card has a name.'));
}

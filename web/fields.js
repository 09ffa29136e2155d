// The fields of a deck by their names: where they lie, also across two words, what they say, and when they change.
import { bitsOf, fieldOf, registerText } from './contents.js';
import { STATEMENT, READ, operationOf } from './decks.js';
import { ZERO } from './words.js';

const WORD = 64;
const MOST = 4096;              // so many fields of one card DR are known
const FORM = /\(([BD])(U?)(?:,(\d+))?(?:,(\d+))?\)/;

// The fields that cards DD, XW and DR lay or reserve, with the names and forms of the deck; `place` is where a card's
// first field lies.
export function fieldsOf(listing) {
  return listing.filter(({ place, card }) => place && /^(DD|XW|DR)$/.test(operationOf(card)) && !/^[*/]/.test(card))
      .map(({ place, card, number }) => {
    const [word, bit] = place.split('.').map(Number);
    const statement = card.slice(STATEMENT, READ).split(';')[0].trim();
    const found = FORM.exec(statement.replace(/ /g, ''));
    const form = { decimal: found?.[1] === 'D', unsigned: found ? found[2] === 'U' : true,
      length: Number(found?.[3] ?? WORD) };
    form.byte = Number(found?.[4] ?? (form.decimal ? 4 : 8));
    const kind = operationOf(card);
    const count = kind === 'DR' ? Math.min(Number(/,(\d+)(\.0)?$/.exec(statement)?.[1] ?? 1), MOST) : 1;
    return { number, name: card.slice(1, STATEMENT).trim().toUpperCase(), place, first: WORD * word + bit, statement,
      kind, form, count };
  }).filter(({ count }) => count);
}

// What a field says in these words; `words` gives a word by its number.
export function fieldText(field, words) {
  return field.kind === 'XW' ? registerText(16, words(field.first / WORD), [])
    : fieldOf(words, field.first, field.form);
}

function wordsOf(first, length) {
  const words = [];
  const last = Math.floor((first + length - 1) / WORD);
  for (let word = Math.floor(first / WORD); word <= last; word += 1) words.push(word);
  return words;
}

export class Fields {
  // `listing` are cards with their places.
  constructor(listing) {
    this.byName = new Map();
    this.byWord = new Map();
    for (const field of fieldsOf(listing)) if (field.name && !this.byName.has(field.name)) this.add(field);
  }

  add(field) {
    const { length } = field.form;
    const all = Array.from({ length: field.count }, (_, k) => ({ ...field, first: field.first + k * length,
      name: field.count > 1 ? `${field.name} (field ${k + 1})` : field.name }));
    this.byName.set(field.name, all);
    for (const one of all) {
      for (const word of wordsOf(one.first, length)) this.byWord.set(word, [...(this.byWord.get(word) ?? []), one]);
    }
  }

  // The fields that lie in a word, or in a part of it.
  in(word) {
    return this.byWord.get(word) ?? [];
  }

  // The ticks at which rows change a field of this name; none where no field has it.
  ticks(name, { rows, data }) {
    const all = this.byName.get(name);
    if (!all) return null;
    const known = new Map(data.first.words);
    const read = (word) => known.get(word) ?? ZERO;
    const own = new Set(all.flatMap(({ first, form }) => wordsOf(first, form.length)));
    const ticks = [];
    for (const row of rows) {
      const put = row.state.words.filter(([word]) => own.has(word));
      const touched = [...new Set(put.flatMap(([word]) => this.in(word)
        .filter((one) => all.some(({ first }) => first === one.first))))];
      const before = touched.map(({ first, form }) => bitsOf(read, first, form.length));
      for (const [word, content] of put) known.set(word, content);
      if (touched.some(({ first, form }, k) => bitsOf(read, first, form.length) !== before[k])) ticks.push(row.c);
    }
    return ticks;
  }

  // What a row has put into the fields of the words that it changed: "SUM is now 15".
  changes(words, before, after) {
    const [old, now] = [(word) => before.get(word) ?? ZERO, (word) => after.get(word) ?? ZERO];
    const touched = new Set(words.flatMap((word) => this.in(word)));
    return [...touched].filter(({ first, form }) => bitsOf(old, first, form.length) !== bitsOf(now, first, form.length))
      .map((field) => `${field.name} is now ${fieldText(field, now)}`);
  }
}

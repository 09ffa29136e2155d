// The decks of one who writes: each that was typed, or opened as a file, stays until it is dropped, whatever else is
// opened in its place.
import { h } from './dom.js';
import { sameEnds } from './decks.js';
import { plural } from './words.js';

const KEY = 'stretch.decks';
const MOST = 8;                 // so many decks are kept; the oldest goes first, but never the newest of one's own
const MOST_STORED = 400000;     // a longer deck is kept while the page is open
const MOST_NAMED = 28;
const LEAST = 20;               // fewer characters are no deck yet
const MOST_SHOWN = 1;           // so many have a button of their own, and the others a menu

function newId() {
  return `${Date.now()} ${Math.random()}`;
}

// How a deck is named: one's own by its first card, where it is not the newest; a changed one by where it came from.
function nameOf({ title, text }, isNewest) {
  if (title) return `${title[0].toLowerCase()}${title.slice(1)}, as I changed it`;
  return isNewest ? 'my deck'
    : `my deck ${text.trim().split('\n')[0].slice(0, MOST_NAMED).trim()} `
      + `(${plural(text.trim().split('\n').length, 'card')})`;
}

// Whether a text is another deck than the one that stood there: hardly anything before and behind the change is the
// same.
function isAnother(before, text) {
  if (before.trim().length < LEAST || Math.abs(before.length - text.length) < 2) return false;
  const [front, back] = sameEnds(before, text);
  return 3 * (front + back) < before.length;
}

export class Kept {
  // `put` is told of a deck that is to be put back: its text.
  constructor(box, store, put) {
    Object.assign(this, { box, store, put, decks: [], now: null, title: null, text: '', written: new Map(),
      dropped: new Set() });
  }

  // The decks of the last time; `text` is the deck that the editor had then.
  begin(text) {
    this.text = text ?? '';
    const { decks, now, title } = this.stored();
    if (!decks && text) this.typed(text);
    if (decks) Object.assign(this, { decks, now: decks.find((deck) => deck.id === now) ?? null, title });
    this.remember();
  }

  // What the browser keeps, or nothing.
  stored() {
    try {
      const { decks, now, title } = JSON.parse(this.store.get(KEY));
      return { decks: decks.filter((deck) => typeof deck.text === 'string'
        && (deck.title === null || typeof deck.title === 'string')), now, title };
    } catch {
      return {};
    }
  }

  remember() {
    this.written = new Map(this.decks.map(({ id, text }) => [id, text]));
  }

  // Another window may have kept decks meanwhile: they stay, and a deck that both have changed becomes two.
  merge() {
    for (const deck of this.stored().decks ?? []) {
      const mine = this.decks.find(({ id }) => id === deck.id);
      if (!mine && !this.dropped.has(deck.id)) this.decks.splice(1, 0, deck);
      else if (mine && deck.text !== mine.text && deck.text !== this.written.get(deck.id)) {
        mine.id = newId();
        this.decks.splice(1, 0, deck);
      }
    }
    this.limit();
  }

  // The deck in the editor was changed by hand. Where it was made empty, or another pasted over it, it stays as it
  // was, and the other is a new one.
  typed(text) {
    if (!text.trim() || isAnother(this.text, text)) Object.assign(this, { now: null, title: null });
    this.text = text;
    if (!text.trim()) return;
    if (this.now) this.now.text = text;
    else this.add(this.title, text);
  }

  add(title, text) {
    this.now = { id: newId(), title, text };
    this.decks.unshift(this.now);
    this.limit();
  }

  limit() {
    const own = this.decks.find((deck) => deck.title === null);
    while (this.decks.length > MOST) {
      const [gone] = this.decks.splice(this.decks.findLastIndex((deck) => deck !== own && deck !== this.now), 1);
      this.dropped.add(gone.id);
    }
  }

  // Another deck was put into the editor. A file is one's own from the beginning on.
  opened(title, text, isOwn = false) {
    this.now = this.decks.find((deck) => deck.text === text) ?? null;
    Object.assign(this, { title, text });
    if (isOwn && !this.now) this.add(null, text);
    this.save();
  }

  save() {
    this.merge();
    const decks = this.decks.filter(({ text }) => text.length < MOST_STORED);
    this.store.set(KEY, JSON.stringify({ decks, now: this.now?.id ?? null, title: this.title }));
    this.remember();
    this.draw();
  }

  drop(deck) {
    this.dropped.add(deck.id);
    this.decks = this.decks.filter((one) => one !== deck);
    this.save();
  }

  back(deck) {
    Object.assign(this, { now: deck, title: deck.title, text: deck.text });
    this.put(deck.text);
    this.save();
  }

  draw() {
    const own = this.decks.find((deck) => deck.title === null);
    const others = this.decks.filter((deck) => deck !== this.now);
    const buttons = others.map((deck) => {
      const name = nameOf(deck, deck === own);
      return h('span', { class: 'group' }, h('button', { class: 'back', onclick: () => this.back(deck) }, deck === own
        ? 'Put my deck back' : `Put back ${name}`),
        h('button', { class: 'quiet', title: `drop ${name}`, 'aria-label': `drop ${name}`,
          onclick: () => this.drop(deck) }, '✕'));
    });
    const rest = buttons.slice(MOST_SHOWN);
    this.box.replaceChildren(...buttons.slice(0, MOST_SHOWN), rest.length
      ? h('details', {}, h('summary', {}, `${rest.length} more`), rest) : '');
  }
}

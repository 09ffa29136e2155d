// A line of the editor as it is drawn: a card in colours, and beside it its number, marks and ticks. What is as it was
// is not set again, so that the browser lays out anew only what a step changes.
import { h } from './dom.js';
import { piecesOf } from './columns.js';
import { plural } from './words.js';

const HEAT = 38;            // pixels of the longest bar

export class Line {
  // One of the reader's cards has no statement in it.
  constructor(card, text, isOfReader) {
    Object.assign(this, { card, text, isOfReader, known: {} });
    const pieces = isOfReader ? [['comment', text]] : piecesOf(text);
    this.inner = h('span', { class: 'text' }, pieces.map(([kind, piece]) => h('span', { class: `p-${kind}` }, piece)));
    this.marks = h('span', { class: 'marks' });
    this.heat = h('span', { class: 'heat' });
    this.colours = h('div', {}, this.inner);
    this.beside = h('div', {}, this.marks, h('span', { class: 'number' }, String(card)), this.heat);
  }

  isOf(card, text, isOfReader) {
    return this.card === card && this.text === text && this.isOfReader === isOfReader;
  }

  // Does what a value asks for, where it is another than before.
  set(name, value, act) {
    if (this.known[name] === value) return;
    this.known[name] = value;
    act(value);
  }

  // Stands so many pixels below the upper edge, and is scrolled to the right by so many.
  stand(y, scrolled) {
    this.set('y', y, () => {
      for (const box of [this.colours, this.beside]) box.style.transform = `translateY(${y}px)`;
    });
    this.set('scrolled', scrolled, () => { this.inner.style.marginLeft = `${-scrolled}px`; });
  }

  // `ticks` are those that the card took, if any, and `hottest` the most that a card took.
  show({ kind, marks, ticks, hottest }) {
    this.set('kind', kind, () => {
      for (const box of [this.colours, this.beside]) box.className = kind;
    });
    this.set('marks', marks, () => { this.marks.textContent = marks; });
    this.set('heat', ticks === undefined ? '' : `${ticks} ${hottest}`, () => this.warm(ticks, hottest));
  }

  warm(ticks, hottest) {
    if (ticks === undefined) {
      this.heat.removeAttribute('title');
      this.heat.replaceChildren();
      return;
    }
    this.heat.title = plural(ticks, 'tick');
    this.heat.replaceChildren(h('i', { style: `width:${Math.max(2, (HEAT * ticks) / hottest)}px` }),
      h('b', {}, ticks > 9999 ? `${Math.round(ticks / 1000)}k` : String(ticks)));
  }
}

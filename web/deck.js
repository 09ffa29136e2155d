// The deck, with the cards that stand at each level. Only the lines that are seen are in the page.
import { h } from './dom.js';

const CARD_LINE = 20;

export class Deck {
  constructor(cards, app) {
    Object.assign(this, { cards, app, marks: new Map(), wrong: null });
    this.list = h('div', { class: 'cards', role: 'list', style: `height:${cards.length * CARD_LINE}px` });
    this.box = h('div', { class: 'deck', tabindex: '0', 'aria-label': 'deck' }, this.list);
    this.box.addEventListener('scroll', () => {
      this.measure();
      this.draw();
    });
    Object.assign(this, { height: 400, top: 0, drawn: '' });
  }

  // Where the list stands is kept, so that no step has to ask for a layout.
  measure() {
    this.height = this.box.clientHeight || 400;
    this.top = this.box.scrollTop;
  }

  draw() {
    const from = Math.max(0, Math.floor(this.top / CARD_LINE) - 5);
    const to = Math.min(this.cards.length, Math.ceil((this.top + this.height) / CARD_LINE) + 5);
    const lines = [];
    for (let k = from; k < to; k += 1) {
      const marks = this.marks.get(k + 1) ?? [];
      const kind = ['card', marks.length ? 'here' : '', this.app.card === k + 1 ? 'marked' : '', this.wrong === k + 1
        ? 'wrong' : ''].join(' ').trim();
      const choose = () => this.app.chooseCard(k + 1);
      lines.push(h('div', {
        class: kind, role: 'listitem', style: `top:${k * CARD_LINE}px`, tabindex: '0', onclick: choose,
        onkeydown: (event) => { if (event.key === 'Enter') choose(); },
      }, h('span', { class: 'number' }, String(k + 1)), h('span', { class: 'marks' }, marks.join('')),
      h('span', { class: 'text' }, this.cards[k] || ' ')));
    }
    this.list.replaceChildren(...lines);
  }

  // Marks the cards of the levels and of what is prepared next; the card of the oldest level is scrolled to.
  set(levels, next) {
    this.marks = new Map();
    const put = (card, mark) => {
      if (card) this.marks.set(card, [...(this.marks.get(card) ?? []), mark]);
    };
    levels.forEach((entry, k) => put(entry.card, String(k + 1)));
    if (next) put(next.card, '▸');
    const moved = levels[0]?.card ? this.show(levels[0].card) : false;
    const marks = JSON.stringify([...this.marks]);
    if (moved || marks !== this.drawn) this.draw();
    this.drawn = marks;
  }

  // Scrolls to a card, where it is not seen.
  show(card) {
    const y = (card - 1) * CARD_LINE;
    if (y >= this.top && y + CARD_LINE <= this.top + this.height) return false;
    this.top = Math.max(0, y - this.height / 3);
    this.box.scrollTop = this.top;
    return true;
  }
}

// The lessons and pages of the manual, which the build has made HTML of. Each deck in them opens in the editor;
// exercises are checked by runs.
import { drawing, h } from './dom.js';
import { hintOf, judgeDeck, judgePrediction, predicted } from './exercises.js';
import { addressWith } from './links.js';

export class Lessons {
  // `book` has pages {id, title, lesson, html, decks}, exercises and pictures. `on` is asked: `open(deck, title,
  // view)`, `close()`, `print()` of the page that is open,
  // `run(deck)` for a report, `text()` for the deck in the editor.
  constructor(box, { pages, exercises, pictures }, on) {
    Object.assign(this, { exercises, pictures, on, at: null, left: new Map(),
      pages: new Map(pages.map((page) => [page.id, page])) });
    const options = (isLesson) => pages.filter((page) => page.lesson === isLesson)
      .map((page) => h('option', { value: page.id }, page.title));
    this.choice = h('select', { 'aria-label': 'lesson or page of the manual',
      onchange: () => this.go(this.choice.value) },
      h('optgroup', { label: 'Lessons' }, options(true)), h('optgroup', { label: 'Manual' }, options(false)));
    this.content = h('article', { class: 'prose', tabindex: '0', 'aria-label': 'the page' });
    const close = h('button', { class: 'quiet', 'aria-label': 'close the lessons', title: 'close',
      onclick: () => on.close() }, '✕');
    const paper = h('button', { id: 'print-lesson', title: 'print this page alone', onclick: () => on.print() }, 'Print');
    box.replaceChildren(h('div', { class: 'lesson-head' }, this.choice, paper, close), this.content);
    this.content.addEventListener('click', (event) => this.click(event));
  }

  show(id, part) {
    const page = this.pages.get(id);
    if (!page) return false;
    if (this.at !== id) this.put(page);
    const place = part && this.content.querySelector(`[id="${CSS.escape(part)}"]`);
    if (place) place.scrollIntoView();
    return true;
  }

  // Goes to a page, as an entry of the browser's history: Back leads to the page before, at its place.
  go(id, part) {
    if (!this.pages.has(id)) return;
    history.replaceState({ ...history.state, lesson: this.at, top: this.content.scrollTop }, '');
    history.pushState({ ...history.state, lesson: id, top: null }, '', addressWith(id));
    this.show(id, part);
  }

  // The page that an entry of the history has.
  back({ lesson, top }) {
    this.show(lesson);
    if (typeof top === 'number') this.content.scrollTop = top;
  }

  // What a reload of the page keeps: of each page that was read its place, and what stands in its fields.
  places() {
    if (this.at) {
      this.left.delete(this.at);
      this.left.set(this.at, { nodes: [...this.content.childNodes], top: this.content.scrollTop });
    }
    const texts = (node) => [...node.querySelectorAll?.('.exercise input') ?? []].map((input) => input.value);
    return [...this.left].map(([id, { nodes, top }]) => [id, top, nodes.flatMap(texts)]);
  }

  setPlaces(places) {
    for (const [id, top, texts] of places) {
      if (!this.pages.has(id)) continue;
      this.show(id);
      this.content.querySelectorAll('.exercise input').forEach((input, k) => { input.value = texts[k] ?? ''; });
      this.content.scrollTop = top;
      this.left.set(id, { nodes: [...this.content.childNodes], top });
    }
  }

  // A page that was left is as it was: its place, and what stands in its fields.
  put(page) {
    if (this.at) this.left.set(this.at, { nodes: [...this.content.childNodes], top: this.content.scrollTop });
    this.at = page.id;
    this.on.shown?.(page.id);
    this.choice.value = page.id;
    this.content.dataset.at = page.id;
    const before = this.left.get(page.id);
    if (before) {
      this.content.replaceChildren(...before.nodes);
      this.content.scrollTop = before.top;
      return;
    }
    // made by the build of the repository's pages alone: no card and no link is ever in it
    this.content.innerHTML = page.html;
    for (const image of this.content.querySelectorAll('img[data-picture]')) image.replaceWith(
      this.picture(image.dataset.picture, image.alt));
    for (const table of this.content.querySelectorAll('table')) {
      const room = h('div', { class: 'wide-table' });
      table.replaceWith(room);
      room.append(table);
    }
    for (const exercise of this.exercises.filter((one) => one.page === page.id)) {
      this.place(exercise.number)?.append(exercise.ask ? this.prediction(exercise) : this.writing(exercise));
    }
    this.content.scrollTop = 0;
  }

  // A picture of the program chart. The style sheet of the page gives it the colours of the timetable.
  picture(name, alt) {
    return h('div', { class: 'picture-room', tabindex: '0', role: 'img', 'aria-label': alt },
      drawing(this.pictures[name], { class: 'chart' }));
  }

  click(event) {
    const page = this.pages.get(this.at);
    const open = event.target.closest('button[data-deck]');
    if (open) this.on.open(page.decks[Number(open.dataset.deck)], page.title, open.dataset.view,
      Number(open.dataset.levels ?? 4));
    const link = event.target.closest('a[data-page]');
    if (!link) return;
    event.preventDefault();
    this.go(link.dataset.page, link.dataset.part);
  }

  // The item of a number in the list behind the heading Exercises.
  place(number) {
    const heading = [...this.content.querySelectorAll('h2')].find((one) => one.id === 'exercises');
    let list = heading?.nextElementSibling;
    while (list && list.tagName !== 'OL') list = list.nextElementSibling;
    return list?.children[number - 1];
  }

  nameOf({ page, number }) {
    return `Exercise ${number} of ${page.replace('-', ' ')}`;
  }

  prediction(exercise) {
    const input = (ask) => h('input', { autocomplete: 'off', spellcheck: 'false', size: ask.size ?? 18 });
    const fields = exercise.ask.map((ask) => h('label', {}, h('span', {}, ask.say), input(ask), h('output', {})));
    const verdict = h('p', { class: 'verdict', role: 'status' });
    const told = (texts) => fields.forEach((field, k) => { field.children[2].value = texts[k]; });
    const show = async () => told((await predicted(exercise, this.on.run)).map((text) => `the machine says ${text}`));
    const compare = async (event) => {
      event.preventDefault();
      const given = fields.map((field) => field.children[1].value);
      if (given.every((text) => text.trim() === '')) {
        verdict.replaceChildren('Write what you expect first.');
        return;
      }
      const [right, wanted] = [await judgePrediction(exercise, given, this.on.run),
        await predicted(exercise, this.on.run)];
      fields.forEach((field, k) => { field.className = right[k] === null ? '' : right[k] ? 'good' : 'bad'; });
      told(right.map((good, k) => (good === null ? '' : good ? '✓ so it is'
        : `✗ ${['not so', hintOf(given[k], wanted[k])].filter(Boolean).join(': ')}`)));
      const count = right.filter(Boolean).length;
      verdict.replaceChildren(count === fields.length ? 'All right: the machine says the same. '
        : `${count} of ${fields.length} right. `,
        h('button', { type: 'button', onclick: () => this.on.open(exercise.deck, this.nameOf(exercise)) },
          'Run it in the editor'), ' ',
        count < fields.length ? h('button', { type: 'button', onclick: show }, 'Show the answer') : '');
    };
    return h('form', { class: 'exercise', onsubmit: compare }, h('b', {}, 'Your prediction'), fields,
      h('button', {}, 'Compare with the machine'), verdict);
  }

  writing(exercise) {
    const list = h('ul', { class: 'checks', role: 'status' });
    const check = async () => {
      list.replaceChildren(h('li', {}, 'runs …'));
      const lines = await judgeDeck(exercise, this.on.text(), this.on.run);
      const isDone = lines.every(([good]) => good);
      list.replaceChildren(...lines.map(([good, text]) => h('li', { class: good ? 'good' : 'bad' },
        `${good ? '✓' : '✗'} ${text}`)));
      if (isDone) list.append(h('li', { class: 'good' }, h('b', {}, 'Done.')));
      else list.append(h('li', {}, h('button', { onclick: () => this.on.open(exercise.answer,
        `The answer to ${this.nameOf(exercise).toLowerCase()}`) }, 'Open an answer in the editor')));
    };
    const begin = h('button', { onclick: () => this.on.open(exercise.start, this.nameOf(exercise)) },
      'Begin in the editor');
    return h('div', { class: 'exercise' }, begin, ' ', h('button', { onclick: check }, 'Check my deck'), list);
  }
}

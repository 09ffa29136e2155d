// The views of a run: each is drawn when it is first looked at, and drawn anew when the run is another.
import { byId, h } from './dom.js';
import { READ, bytesOf, asking, budgetOf, linesOf, withCards } from './decks.js';
import { Fields } from './fields.js';
import { listingDeck, listingOf, listingView, namesOf } from './listing.js';
import { Stopped } from './programs.js';
import { reportView } from './report.js';
import { legend } from './strip.js';
import { totalsOf } from './sums.js';
import { plural } from './words.js';
import { whereView } from './where.js';

const PICTURE_ROWS = 200;
const MOST_BUDGET = 20000;      // a deck that may do more is drawn with a budget of its own
const PICTURE_BUDGET = 1000;
const LATIN = new TextDecoder('latin1');
// A picture has its mark for text that is cut in UTF-8; its other characters are of one byte.
const PICTURE = new TextDecoder();

// What of the picture of ./chart has which colour of the timetable: a part, what is coloured, and the colour's name in
// the style sheet.
const PAINT = [
  ['text', 'fill', 'text'], ['.m', 'fill', 'soft'], ['.p', 'fill', 'ground'], ['.g', 'stroke', 'grid'],
  ['.w', 'fill', 'operand'],
  ['.t', 'fill', 'turn'], ['.t', 'stroke', 'soft'], ['.e', 'fill', 'executing'], ['.d', 'stroke', 'drop'],
  ['.i', 'stroke', 'restart'],
  ['.s', 'stroke', 'soft'], ['#h rect', 'fill', 'ground'], ['#h rect+rect', 'fill', 'drop'],
];

// A picture in the colours that the page has now.
function painted(svg) {
  const probe = h('i', { hidden: true });
  document.body.append(probe);
  const rules = PAINT.map(([part, what, name]) => {
    probe.style.color = `var(--${name})`;
    return `${part}{${what}:${getComputedStyle(probe).color}}`;
  });
  probe.remove();
  return svg.replace('</style>', `${rules.join('')}</style>`);
}

// Whether the picture is of the first instructions of a deck alone.
function isDrawnShort(deck) {
  return budgetOf(linesOf(deck)) > MOST_BUDGET;
}

export class Views {
  constructor(app) {
    Object.assign(this, { app, drawn: new Set(), coming: null, listed: null, url: null, svg: null, image: null });
    matchMedia('(prefers-color-scheme: dark)').addEventListener('change', () => this.paint());
  }

  // The run is another one.
  fresh() {
    this.drawn = new Set();
    this.listed = null;
  }

  get made() {
    return this.app.live.made;
  }

  async show(view) {
    const { made } = this;
    if (!made || this.drawn.has(view)) return;
    this.drawn.add(view);
    try {
      this.coming = this[view](byId(`view-${view}`), made);
      await this.coming;
    } catch (error) {
      this.drawn.delete(view);
      if (!(error instanceof Stopped)) throw error;
    }
    // What comes late is of another run, where the deck was changed meanwhile.
    if (made !== this.made) this.drawn.delete(view);
  }

  async step(box, { runs }) {
    const { stepper } = this.app;
    stepper.causesBox.replaceChildren(legend(runs, (cause) => stepper.chooseCause(cause)));
    stepper.set(runs, runs[0].data.snapshots);
    if (stepper.cause) stepper.markCauses();
    this.listing().then(({ listing }) => {
      const fields = new Fields(listing);
      for (const run of runs) if (!run.isOther) run.fields = fields;
      this.app.stepper.update();
    }, () => {});         // a run that is stopped has none
  }

  async report(box, made) {
    const { listing } = await this.listing();
    const [run] = made.runs;
    const end = made.isCut ? null : { words: run.state(Infinity).words, before: new Map(run.data.first.words) };
    reportView(box, { report: made.report, left: made.left, indicators: this.app.book.indicators, listing, end });
    box.prepend(...this.ofFour('report', made));
  }

  // The program has four levels; where the timetable is of another number, that is said.
  ofFour(what, { levels }) {
    return levels === 4 ? [] : [h('p', { class: 'note' },
      `This ${what} is that of a machine of 4 levels; the timetable shows ${plural(levels, 'level')}. `
      + 'Only lines about ticks, and about what is ahead, may differ.')];
  }

  async where(box, made) {
    const [run] = made.runs;
    const cards = new Map();
    for (const row of run.rows) if (row.card && !cards.has(row.address)) cards.set(row.address, row.card);
    if (made.isCut && !made.whole) {
      const say = (text) => box.replaceChildren(h('p', { class: 'note', role: 'status' }, text));
      say('The sums of the whole run are being made …');
      try {
        made.whole = await this.wholeTotals(made);
      } catch (error) {
        say('The sums of the whole run were not made.');
        throw error;
      }
    }
    whereView(box, run, cards, { cause: (cause) => this.app.stepper.chooseCause(cause),
      card: (card) => this.toCard(card) }, made.whole);
  }

  // Of a long run, whose timetable has its first rows alone, the totals of all rows.
  async wholeTotals({ deck, levels, plain, cards }) {
    const { bytes } = await this.app.side.run('ledger', [String(levels), 'sums'], bytesOf(deck));
    const totals = totalsOf(LATIN.decode(bytes));
    for (const one of totals.by_card) {
      one.text = one.card ? cards[one.card - 1].slice(1, READ).split(';')[0].trim()
        : 'instructions that begin at no card';
      one.card = one.card && plain.lines[one.card - 1];
    }
    return totals;
  }

  experiment(box, { deck }) {
    return this.app.experiment.show(deck);
  }

  async picture(box) {
    this.svg = await this.pictureText();
    this.image = h('img', { alt: 'the timetable of the run, as the program chart draws it' });
    this.paint();
    const { deck, report } = this.made;
    const isCut = isDrawnShort(deck) && report.done > PICTURE_BUDGET;
    box.replaceChildren(...this.ofFour('picture', this.made), ...(isCut ? [h('p', { class: 'note' },
      `Of the first ${plural(PICTURE_BUDGET, 'instruction')}:`)] : []), h('p', { class: 'soft' },
      `The picture that ./chart draws of the report: at most ${PICTURE_ROWS} rows. `
      + 'Here it has the colours of the timetable. Save it as a file for a text or a slide.'),
    h('div', { class: 'picture-room', tabindex: '0' }, this.image));
  }

  // The program's picture, in the colours of the page.
  paint() {
    if (!this.image) return;
    if (this.url) URL.revokeObjectURL(this.url);
    this.shown = painted(this.svg);
    this.url = URL.createObjectURL(new Blob([this.shown], { type: 'image/svg+xml' }));
    this.image.src = this.url;
  }

  async listing(box = null) {
    const { plain, cards } = this.made;
    this.listed ??= this.app.side.run('stretch', ['run'], bytesOf(listingDeck(cards)))
      .then(({ bytes }) => listingOf(LATIN.decode(bytes), cards, (card) => plain.lines[card - 1]));
    const listed = await this.listed;
    this.symbols = new Map(listed.symbols);
    this.names = namesOf(listed.symbols);
    if (box) listingView(box, listed, (card) => this.toCard(card));
    return listed;
  }

  async object(box) {
    const text = await this.objectText();
    box.replaceChildren(h('p', { class: 'soft' }, 'What the assembler lays, as text: ',
      h('code', {}, './stretch load'), ' runs it, and this page opens it.'),
      h('pre', { class: 'output', tabindex: '0' }, text.slice(0, 200000)));
  }

  // ---- texts

  async objectText() {
    return LATIN.decode((await this.app.side.run('stretch', ['assemble'], bytesOf(this.made.deck))).bytes);
  }

  async pictureText() {
    const { deck } = this.made;
    const short = isDrawnShort(deck) ? withCards(deck, ['BUDGET'], [`/BUDGET ${PICTURE_BUDGET}`]) : deck;
    const { bytes } = await this.app.side.run('stretch', ['run'], bytesOf(asking(short, ['CHART', 'LIST'])));
    return PICTURE.decode((await this.app.side.run('chart', [], bytes)).bytes);
  }

  // ---- names

  // The name of the deck that a word has.
  nameOf(word) {
    return this.names?.get(word);
  }

  // The word that a name of the deck stands for.
  wordOf(name) {
    const address = this.symbols?.get(name);
    return address === undefined ? null : Number(address.split('.')[0]);
  }

  // Marks a card in the editor and its rows in the timetable; the keyboard stays where it is.
  toCard(card) {
    this.app.editor.show(card);
    if (this.app.stepper.card !== card) this.app.stepper.chooseCard(card);
  }
}

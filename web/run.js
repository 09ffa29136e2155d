// The page of one run, or of two, which the script tools/page makes: its runs stand in it.
import { byId, h } from './dom.js';
import { Fields } from './fields.js';
import { Ledger } from './ledger.js';
import { STATEMENT } from './decks.js';
import { namesOf } from './listing.js';
import { registerOf } from './contents.js';
import { Run } from './read.js';
import { bar, figures, legend } from './strip.js';
import { Deck } from './deck.js';
import { retold } from './plain.js';
import { Stepper } from './step.js';
import { fillPaper } from './paper.js';

// The data, from the block that the script has put into the page: plain JSON, or the same compressed.
async function load() {
  const block = byId('data');
  if (block.type === 'application/json') return JSON.parse(block.textContent);
  const bytes = Uint8Array.from(atob(block.textContent), (letter) => letter.charCodeAt(0));
  const stream = new Blob([bytes]).stream().pipeThrough(new DecompressionStream('gzip'));
  return JSON.parse(await new Response(stream).text());
}

// The cards of the deck as the program reads them.
function cardsOf({ deck, plain }) {
  return plain ? plain.cards : deck;
}

// The object of a run: made of the lines of its ledger, which are read here, or that of `./explain json`, of late rows.
function objectOf({ levels, first, last, lines, object }, data) {
  if (object) return object;
  const ledger = new Ledger(levels, cardsOf(data), data.names, first, last);
  for (let from = 0; from < lines.length;) {
    const end = lines.indexOf('\n', from);
    ledger.take(lines.slice(from, end));
    from = end + 1;
  }
  return ledger.object();
}

function runOf(run, data) {
  const object = objectOf(run, data);
  if (data.plain) retold(object, data.plain, data.deck);
  return new Run(object, run.label, run.cut);
}

function show(data) {
  const runs = data.runs.map((run) => runOf(run, data));
  const names = namesOf(data.symbols);
  const words = new Map(data.symbols.map(([name, address]) => [name, Number(address.split('.')[0])]));
  const places = new Map(data.symbols);
  const fields = new Fields(cardsOf(data).map((card) => card.toUpperCase())
    .map((card) => ({ card, place: places.get(card.slice(1, STATEMENT).trim()) })));
  for (const run of runs) run.fields = fields;
  let deck = null;
  let written = null;
  const stepper = new Stepper(data.names, {
    cut: 'The bar above is of all rows up to these. Others: tools/page --rows FROM TO DECK.',
    levels: (levels, next) => deck.set(levels, next),
    card: () => deck.draw(),
    tick: (t) => {
      clearTimeout(written);
      written = setTimeout(() => history.replaceState(null, '', `#t=${t}`), 250);
    },
    wordOf: (name) => registerOf(name) ?? words.get(name) ?? null, nameOf: (word) => names.get(word),
  });
  deck = new Deck(data.deck, stepper);
  const most = Math.max(...runs.map((run) => run.totals.ticks));
  const choose = (cause) => stepper.chooseCause(cause);
  byId('figures').replaceChildren(...runs.flatMap((run) => [figures(run), bar(run, most, choose)]),
    legend(runs, choose));
  byId('room').replaceChildren(stepper.view);
  byId('deck').replaceChildren(h('h2', {}, 'Deck'), deck.box);
  byId('columns').after(stepper.machine);
  const fromAddress = () => {
    const found = /^#t=(\d{1,15})$/.exec(location.hash);
    stepper.go(found ? Number(found[1]) : stepper.first);
  };
  stepper.set(runs, runs[0].data.snapshots);
  new ResizeObserver(() => {
    deck.measure();
    deck.draw();
  }).observe(deck.box);
  addEventListener('hashchange', fromAddress);
  addEventListener('beforeprint', () => fillPaper(byId('paper'), { runs, stepper, deck: data.deck }));
  fromAddress();
  return stepper;
}

// A deck that was refused: the line as it was written, the fault, and what can be said of it. With conveniences
// a card of the plain deck has another number.
function refused(data) {
  document.body.classList.add('refused');
  const { fault, card, help } = data.refused;
  const said = `Line ${card} is refused: ${fault}`;
  byId('figures').replaceChildren(h('p', { class: 'fault' }, said), h('pre', {}, help));
  const deck = new Deck(data.deck, { card: null, chooseCard() {} });
  deck.wrong = card;
  byId('deck').replaceChildren(h('h2', {}, 'Deck'), deck.box);
  deck.measure();
  deck.show(card);
  deck.draw();
  const notes = [said, h('span', { class: 'cards-printed' }, help)];
  fillPaper(byId('paper'), { title: data.name, runs: [], stepper: { t: 0 }, deck: data.deck, notes });
}

load().then((data) => {
  document.title = data.name;
  byId('name').replaceChildren(data.name);
  if (data.refused) refused(data);
  else window.page = show(data);
  document.body.classList.add('ready');
});

// Checks of exercises. What is right is what the machine says now, of the deck of the exercise or of its answer.

import { listed, plural } from './words.js';

const DIGITS = 16;              // of a word

// The deck with other numbers on the cards DD of these names, or the name that it has no such card of.
export function withData(deck, data) {
  let text = deck;
  for (const [name, value] of Object.entries(data)) {
    const card = new RegExp(`^( ${name} *DD(?:\\([^)\\n]*\\))?,)[^; \\n]*`, 'mi');
    if (!card.test(text)) return { missing: name };
    text = text.replace(card, (_, front) => front + value);
  }
  return { text };
}

// The part of a report behind a line, and what a pattern finds in it: the first group of each place, or the whole.
export function found(report, { line, behind }) {
  const from = behind ? report.search(new RegExp(behind, 'm')) : 0;
  if (from < 0) return '';
  return [...report.slice(from).matchAll(new RegExp(line, 'gm'))].map((one) => one[1] ?? one[0]).join(' ');
}

// What is given and what is found are compared without commas, and without the letters P, R and C of a row.
function plain(text) {
  return text.toUpperCase().replace(/(\d)[\u00a0\u2009\u202f](?=\d{3}\b)/g, '$1').replace(/\b[PRC] /g, ' ')
    .replace(/[\s,]+/g, ' ').trim();
}

// Whether a prediction is what is wanted; one number may be written with commas between its thousands.
function isSame(given, wanted) {
  return plain(given) === plain(wanted) || plain(given.replace(/(\d),(?=\d{3}\b)/g, '$1')) === plain(wanted);
}

// What the machine says where a prediction is asked for.
export async function predicted({ deck, ask, program, words }, run) {
  const report = await run(deck, program, words);
  return ask.map((one) => found(report, one));
}

// Of a prediction: for each field whether it was right; null where it is empty.
export async function judgePrediction(exercise, given, run) {
  return (await predicted(exercise, run)).map((wanted, k) => (plain(given[k] ?? '') === '' ? null
    : isSame(given[k], wanted)));
}

// What is wrong with a prediction, as far as it can be said without the answer.
export function hintOf(given, wanted) {
  const [mine, right] = [plain(given), plain(wanted)];
  const [numbers, asked] = [mine.split(' ').length, right.split(' ').length];
  if (numbers !== asked) return `${plural(asked, 'number')} ${asked === 1 ? 'is' : 'are'} asked for, here `
    + `${numbers === 1 ? 'is' : 'are'} ${numbers}`;
  if (right.length < DIGITS) return '';
  if (mine.length !== right.length) return `${plural(right.replace(/ /g, '').length, 'digit')} are asked for, here `
    + `${mine.replace(/ /g, '').length === 1 ? 'is' : 'are'} ${mine.replace(/ /g, '').length}`;
  const same = [...right].findIndex((letter, k) => letter !== mine[k]);
  return same ? `the first ${same === 1 ? 'digit is' : `${same} are`} right` : 'the first digit differs';
}

// What a report has where something else is asked for.
function insteadOf(text, { line }, deck) {
  if (text) return `it is ${text}`;
  const word = Number(/^\^MEM (\d+)/.exec(line)?.[1]);
  if (!word) return 'the report has no such line';
  const isAsked = [...deck.matchAll(/^\/DUMP +(\d+) +(\d+)/gim)].some(([, from, to]) => Number(from) <= word
    && word <= Number(to));
  return isAsked ? `word ${word} is zero`
    : `the report has no word ${word}; the card /DUMP ${word} ${word} asks for it`;
}

// Of a deck that was written: lines [whether it is so, what], for the data of the exercise and for others.
export async function judgeDeck(exercise, deck, run) {
  const lines = [];
  for (const data of [{}, ...(exercise.data ?? [])]) {
    const [mine, answer] = [withData(deck, data), withData(exercise.answer, data)];
    if (mine.missing) {
      lines.push(
        [false, `it can not be tried with other numbers: no card DD of it has the name ${mine.missing}. Give its `
          + `data the names ${listed(Object.keys(data))}`]);
      continue;
    }
    const [got, wanted] = [await run(mine.text), await run(answer.text)];
    const refused = /^CARD .*/.exec(got);
    if (refused) return [[false, `the deck is refused, ${refused[0]}`]];
    const where = Object.entries(data).map(([name, value]) => `${name} is ${value}`).join(' and ');
    for (const one of exercise.same) {
      const [a, b] = [found(got, one), found(wanted, one)];
      lines.push(
        [a === b, `${one.say}${where ? `, where ${where}` : ''}${a === b ? '' : `: ${insteadOf(a, one, mine.text)}`}`]);
    }
  }
  for (const { card, say } of exercise.cards ?? []) lines.push([new RegExp(card, 'mi').test(deck), say]);
  return lines;
}

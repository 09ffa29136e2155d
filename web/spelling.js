// The text of an instruction from its half-words, by the tables of model/formats.py, which the build puts into the
// module `formats`.
import { FORMATS } from './formats.js';

const FULL = 15;
const { index, branch, field, others, connective, writing, progressive } = FORMATS;
const FORMS = { 1: 'IM', ...progressive };
const ON_MEMORY = new Set(writing);
const MOST_IMMEDIATE = 24;
const MOST_ORDERED = 1000;
const LEAST_DIGIT = 4;

// The bits from `first` to `last` of a half-word; bit 0 is the leftmost.
function bits(half, first, last) {
  return (half >>> (31 - last)) & (2 ** (last - first + 1) - 1);
}

function place(address) {
  return `${address >> 6}.${address & 63}`;
}

function ofHalf(half) {
  const [address, j, op, i] = [bits(half, 0, 18) * 32, bits(half, 19, 22), bits(half, 23, 27), bits(half, 28, 31)];
  const isBranch = op === 23;
  const name = isBranch ? branch[j] : index[op];
  if (op === 0 || !name) return '';
  if (name === 'BEW' || name === 'NOP') return name;
  if (name === 'R') return `R,$X${j}`;
  if (name === 'LVS') {
    const summed = [...Array(16).keys()].filter((k) => bits(half, k, k));
    return ['LVS', ...[j, ...summed].map((k) => `$X${k}`)].join(',');
  }
  const target = place(address) + (i ? `($X${i})` : '');
  return isBranch || name === 'EX' ? `${name},${target}` : `${name},$X${j},${target}`;
}

// What the second half-word says of a field.
function fieldOf(two) {
  return { form: bits(two, 0, 2), length: bits(two, 3, 8) || 64, byte: bits(two, 9, 11) || 8,
    offset: bits(two, 12, 18) };
}

function isOperand(name, { form, length }, i) {
  if (form === 1) return !ON_MEMORY.has(name) && length <= MOST_IMMEDIATE;
  return form === 0 || i !== 0;
}

function onField(name, mode, { form, length, byte, offset }, target) {
  return `${name}(${mode},${length},${byte})${form ? `(${FORMS[form]})` : ''},${target}${offset ? `,${offset}` : ''}`;
}

function ofConnective(two, i, target) {
  const name = connective[bits(two, 24, 25)];
  const more = fieldOf(two);
  if (!name || bits(two, 26, 31) || !isOperand(name, more, i)) return '';
  return onField(name + bits(two, 20, 23).toString(2).padStart(4, '0'), 'BU', more, target);
}

function ofField(name, two, i, target) {
  const more = fieldOf(two);
  const [decimal, unsigned, negated] = [20, 21, 22].map((bit) => bits(two, bit, bit));
  const fits = !(decimal && (more.byte < LEAST_DIGIT || more.length % more.byte))
    && (unsigned || more.length >= more.byte);
  if (bits(two, 28, 31) || !fits || !isOperand(name, more, i)) return '';
  return onField(name + (negated ? 'N' : ''), 'BD'[decimal] + (unsigned ? 'U' : ''), more, target);
}

function ofOther(name, two, target) {
  const [first, marks, count] = [bits(two, 0, 18), bits(two, 20, 22), bits(two, 28, 31)];
  const isMove = name === 'T' || name === 'SWAP';
  const spare = name === 'BB' ? 0 : name === 'BI' ? marks & 1 : marks;
  if (spare || (count && !isMove)) return '';
  if (name === 'RD' || name === 'WR') return first >= 1 && first <= MOST_ORDERED ? `${name},${target},${first}` : '';
  const sense = marks >> 2;
  const after = name === 'BB' ? ['', 'Z', 'S', 'V'][marks & 3] : marks & 2 ? 'Z' : '';
  const operation = name === 'BB' || name === 'BI' ? `${name}${sense}${after}` : name;
  return [operation, target, place(32 * first), ...(isMove ? [count || 16] : [])].join(',');
}

function ofFull(one, two) {
  const i = bits(one, 28, 31);
  const target = place(bits(one, 0, 23)) + (i ? `($X${i})` : '');
  if (bits(two, 19, 19)) return ofConnective(two, i, target);
  const number = bits(two, 23, 27);
  if (field[number]) return ofField(field[number], two, i, target);
  return others[number] ? ofOther(others[number], two, target) : '';
}

// Of one or two half-words, eight hexadecimal digits each; '' where they are no instruction of the machine.
export function spelling(code) {
  const [one, two = 0] = code.map((half) => parseInt(half, 16));
  return bits(one, 24, 27) === FULL ? ofFull(one, two) : ofHalf(one);
}

// What words of the machine say: registers by name and parts, indicators, fields, characters (tools/read says the same
// of a report).
const REGISTERS = new Map([[0, '$Z'], [2, '$IA'], [3, '$UB'], [7, '$LZC'], [8, '$L'], [9, '$R'], [10, '$SB'],
  [11, '$IND'], [12, '$MASK'], [13, '$RM'], [14, '$FT'], [15, '$TR']]);
const FIRST_INDEX = 16;
const FIRST_STORAGE = 32;
const FIXED_MASK = 20;          // so many bits of the mask are always one
const WORD = 64;

function wordOf(hex) {
  return BigInt(`0x${hex}`);
}

// So many bits of a word, from `first` on; bit 0 is the leftmost.
function bits(word, first, count) {
  return (word >> BigInt(WORD - first - count)) & ((1n << BigInt(count)) - 1n);
}

function place(number) {
  return `${number / 64n}.${number % 64n}`;
}

export function registerName(number) {
  if (number >= FIRST_STORAGE) return `word ${number}`;
  return number >= FIRST_INDEX ? `$X${number - FIRST_INDEX}` : REGISTERS.get(number) ?? `word ${number}`;
}

// The register of a name, or none.
export function registerOf(name) {
  const index = /^\$X(\d{1,2})$/.exec(name);
  if (index) return Number(index[1]) < 16 ? FIRST_INDEX + Number(index[1]) : null;
  return [...REGISTERS].find(([, one]) => one === name)?.[0] ?? null;
}

// The indicators that are on, as their numbers.
export function onIn(hex) {
  const word = wordOf(hex);
  return [...Array(WORD).keys()].filter((k) => bits(word, k, 1));
}

function named(numbers, indicators) {
  return numbers.map((k) => (indicators[k] ? `${indicators[k].name} (${k})` : String(k)));
}

// Decimal digits, where all digits of a word are; with the sign of its last byte of four bits, where that is one.
export function digitsOf(hex) {
  if (!/^[0-9]+$/.test(hex) || /^0+$/.test(hex)) return null;
  const plain = hex.replace(/^0+(?=.)/, '');
  return { unsigned: plain, signed: /[08]$/.test(hex)
    ? `${hex.endsWith('8') ? '-' : '+'}${hex.slice(0, -1).replace(/^0+(?=.)/, '')}` : null };
}

export function charactersOf(hex) {
  return hex.match(/../g).map((byte) => parseInt(byte, 16)).map((byte) =>
    (byte >= 32 && byte <= 126 ? String.fromCharCode(byte) : '·')).join('');
}

function signedOf(hex) {
  const word = wordOf(hex);
  if ((word & 0xF7n) !== 0n || word >> 8n === 0n || word >> 8n >= 1n << 32n) return null;
  return `${word & 8n ? '-' : '+'}${word >> 8n}`;
}

// A word in each form that fits: [form, text]; a sign byte is looked for in words of storage alone.
export function formsOf(hex, isStorage = true) {
  const forms = [['binary', String(wordOf(hex))]];
  const signed = isStorage ? signedOf(hex) : null;
  if (signed) forms.push(['with a sign', signed]);
  const digits = digitsOf(hex);
  if (digits) forms.push(['digits', digits.unsigned]);
  if (isStorage && digits?.signed?.startsWith('-')) forms.push(['digits with a sign', digits.signed]);
  const text = charactersOf(hex);
  if (/[A-Za-z0-9 ]{3}/.test(text)) forms.push(['text', `'${text}'`]);
  return forms;
}

const PARTS = {
  2: (word) => `the interrupt table begins at word ${bits(word, 0, 18)}`,
  3: (word) => `protected from word ${bits(word, 32, 18)} up to ${bits(word, 0, 18)}, control ${bits(word, 57, 1)}`,
  7: (word) => `leading zeros ${bits(word, 17, 7)}, ones ${bits(word, 44, 7)}`,
  10: (word) =>
    `sign ${bits(word, 4, 1) ? 'minus' : 'plus'}, zone ${bits(word, 0, 4)}, flags `
      + `${bits(word, 5, 3).toString(2).padStart(3, '0')}`,
};

// What a register's word says. `indicators` are {name, says} by their numbers.
export function registerText(number, hex, indicators) {
  const word = wordOf(hex);
  if (number >= FIRST_INDEX && number < FIRST_STORAGE) {
    const flags = bits(word, 25, 3) ? `, flags ${bits(word, 25, 3).toString(2).padStart(3, '0')}` : '';
    return `value ${bits(word, 24, 1) ? '-' : ''}${place(bits(word, 0, 24))}, count ${bits(word, 28, 18)}, refill `
      + `${bits(word, 46, 18)}${flags}`;
  }
  if (PARTS[number]) return PARTS[number](word);
  if (number === 11) return named(onIn(hex), indicators).join(', ') || 'none is on';
  if (number === 12) {
    const more = named(onIn(hex).slice(FIXED_MASK), indicators).map((one) => `, ${one}`);
    return `0 to ${FIXED_MASK - 1}${more.join('')}`;
  }
  return formsOf(hex, false).map(([form, text]) => `${form} ${text}`).join(', ');
}

// So many bits of storage from a bit on, up to 64 of them; `words` gives a word by its number.
export function bitsOf(words, first, length) {
  const [at, bit] = [Math.floor(first / WORD), first % WORD];
  const whole = (wordOf(words(at)) << BigInt(WORD)) | wordOf(words(at + 1));
  return (whole >> BigInt(2 * WORD - bit - length)) & ((1n << BigInt(length)) - 1n);
}

// What a field says that begins at a bit: `words` gives a word by its number, `form` is {decimal, unsigned, length,
// byte}.
export function fieldOf(words, first, form) {
  const { decimal, unsigned, length, byte } = form;
  const field = bitsOf(words, first, length);
  const hasSign = !unsigned && length >= byte;
  const magnitude = hasSign ? field >> BigInt(byte) : field;
  const isMinus = hasSign && ((field >> BigInt(Math.min(byte, 4) - 1)) & 1n) === 1n;
  const size = hasSign ? length - byte : length;
  const number = decimal ? digits(magnitude, size, byte) : String(magnitude);
  return `${isMinus && number !== 'no digits' ? '-' : ''}${number}`;
}

// The digits of a magnitude: of each byte the low four bits.
function digits(magnitude, size, byte) {
  let text = '';
  for (let k = Math.floor(size / byte) - 1; k >= 0; k -= 1) {
    const digit = Number((magnitude >> BigInt(k * byte)) & 15n);
    if (digit > 9) return 'no digits';
    text += digit;
  }
  return text.replace(/^0+(?=.)/, '') || '0';
}

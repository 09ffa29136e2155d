// A text of very many lines that can be edited. A browser lays out a text area whole at each key; here the lines stand
// in blocks,
// and a key lays out its own block alone. Editing itself, with its undo, is the browser's, which may split, join or
// drop blocks.
import { h } from './dom.js';

const LINES = 200;          // of a block, as it is made

// Whether a browser edits plain text in an element.
export function editsPlainText() {
  const probe = document.createElement('div');
  try {
    probe.contentEditable = 'plaintext-only';
  } catch {
    return false;
  }
  return probe.contentEditable === 'plaintext-only';
}

function isBreak(node) {
  return node.nodeName === 'BR';
}

function lengthOf(nodes) {
  return nodes.reduce((sum, node) => sum + (isBreak(node) ? 1 : node.data.length), 0);
}

// The characters of some nodes; a line end behind the last line of a block is not seen, and counts for nothing.
function textOf(nodes) {
  const text = nodes.map((node) => (isBreak(node) ? '\n' : node.data)).join('');
  return text.endsWith('\n') ? text.slice(0, -1) : text;
}

// The texts and breaks of an element as runs, each of which is seen as lines of its own.
function runsOf(parent, runs = []) {
  let nodes = [];
  const close = () => {
    if (nodes.some((node) => isBreak(node) || node.data)) runs.push({ nodes, text: textOf(nodes) });
    nodes = [];
  };
  const take = (node) => {
    if (node.nodeType === Node.TEXT_NODE || isBreak(node)) nodes.push(node);
    else if (node.nodeName === 'DIV') {
      close();
      runsOf(node, runs);
    } else node.childNodes.forEach(take);
  };
  parent.childNodes.forEach(take);
  close();
  return runs;
}

// It has of a text area what the editor asks it for.
export class LongText {
  constructor(attributes) {
    this.box = h('div', { ...attributes, role: 'textbox', 'aria-multiline': 'true',
      contenteditable: 'plaintext-only' });
    Object.assign(this, { known: null, last: [0, 0] });
    this.box.addEventListener('input', () => { this.known = null; });
    this.box.addEventListener('beforeinput', (event) => this.before(event));
    for (const kind of ['copy', 'cut']) this.box.addEventListener(kind, (event) => this.copy(event));
    document.addEventListener('selectionchange', () => this.keep());
  }

  // The runs with the places where they begin, and the whole text.
  get told() {
    if (this.known) return this.known;
    const runs = runsOf(this.box);
    let begin = 0;
    for (const run of runs) {
      run.begin = begin;
      begin += run.text.length + 1;
    }
    this.known = { runs, value: runs.map(({ text }) => text).join('\n') };
    return this.known;
  }

  get value() {
    return this.told.value;
  }

  set value(text) {
    const lines = text.split('\n');
    const blocks = [];
    for (let k = 0; k < lines.length; k += LINES) {
      const own = lines.slice(k, k + LINES).join('\n');
      blocks.push(h('div', {}, own, own === '' || own.endsWith('\n') ? h('br') : null));
    }
    this.box.replaceChildren(...blocks);
    Object.assign(this, { known: null, last: [0, 0] });
  }

  get selectionStart() {
    return this.selection()[0];
  }

  get selectionEnd() {
    return this.selection()[1];
  }

  // Where what is marked begins and ends; while something else is marked, where it did last.
  selection() {
    const marked = getSelection();
    if (!marked.rangeCount) return this.last;
    const range = marked.getRangeAt(0);
    if (!this.box.contains(range.startContainer) || !this.box.contains(range.endContainer)) return this.last;
    const start = this.placeOf(range.startContainer, range.startOffset);
    this.last = [start, range.collapsed ? start : this.placeOf(range.endContainer, range.endOffset)];
    return this.last;
  }

  keep() {
    if (document.activeElement === this.box) this.selection();
  }

  setSelectionRange(start, end) {
    this.last = [start, end];
    if (document.activeElement === this.box) getSelection().setBaseAndExtent(...this.pointOf(start),
      ...this.pointOf(end));
  }

  focus() {
    const { last } = this;
    this.box.focus({ preventScroll: true });
    this.setSelectionRange(...last);
  }

  select() {
    this.setSelectionRange(0, this.value.length);
  }

  // The place in the text of a point of the page.
  placeOf(node, offset) {
    const { runs, value } = this.told;
    const own = runs.find(({ nodes }) => nodes.includes(node));
    if (own) return own.begin + Math.min(lengthOf(own.nodes.slice(0, own.nodes.indexOf(node))) + offset,
      own.text.length);
    // A point between nodes is before the first of those behind it.
    const range = document.createRange();
    const isBehind = (one) => {
      range.selectNode(one);
      return range.comparePoint(node, offset) <= 0;
    };
    for (const { nodes, text, begin } of runs) {
      const first = nodes.findIndex(isBehind);
      if (first >= 0) return begin + Math.min(lengthOf(nodes.slice(0, first)), text.length);
    }
    return value.length;
  }

  // The point of the page of a place in the text.
  pointOf(place) {
    const run = this.told.runs.findLast(({ begin }) => begin <= place);
    if (!run) return [this.box, 0];
    let left = Math.min(place - run.begin, run.text.length);
    for (const node of run.nodes) {
      const length = lengthOf([node]);
      if (!isBreak(node) && left <= length) return [node, left];
      if (isBreak(node) && left === 0) return [node.parentNode, [...node.parentNode.childNodes].indexOf(node)];
      left -= length;
    }
    const { parentNode } = run.nodes.at(-1);
    return [parentNode, parentNode.childNodes.length];
  }

  // Puts text in the place of what is marked, as a key does.
  type(text) {
    if (this.isTorn()) {
      const [start, end] = this.selection();
      const steps = [[start, start, 'X'], [start + 1, end + 1, ''], [start, start + 1, text]];
      for (const [from, to, one] of steps) {
        this.setSelectionRange(from, to);
        this.put(one);
      }
    } else this.put(text);
  }

  put(text) {
    document.execCommand(text ? 'insertText' : 'delete', false, text);
  }

  // Whether what is marked begins at the first character of a line and ends within another block: Chromium would take
  // the line end before
  // it as well, but not behind a letter.
  isTorn() {
    const [start, end] = this.selection();
    const { runs, value } = this.told;
    const { begin } = runs.findLast((run) => run.begin <= end) ?? { begin: 0 };
    return begin > start && value[start - 1] === '\n';
  }

  before(event) {
    const { inputType } = event;
    const [start, end] = this.selection();
    if (start === end || !event.cancelable || !/^(insert(Text|LineBreak|Paragraph|FromPaste)$|delete)/.test(inputType)
      || !this.isTorn()) return;
    event.preventDefault();
    const given = event.data ?? event.dataTransfer?.getData('text/plain') ?? '';
    if (inputType.startsWith('delete')) this.type('');
    else this.type(/LineBreak|Paragraph/.test(inputType) ? '\n' : given.replace(/\r\n?/g, '\n'));
  }

  copy(event) {
    const [start, end] = this.selection();
    if (start === end) return;
    event.preventDefault();
    event.clipboardData.setData('text/plain', this.value.slice(start, end));
    if (event.type === 'cut') this.type('');
  }
}

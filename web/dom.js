// Elements, made without any text of a card ever being read as HTML.

const SVG = 'http://www.w3.org/2000/svg';

function fill(node, attributes, children) {
  for (const [name, value] of Object.entries(attributes ?? {})) {
    if (value === null || value === undefined || value === false) continue;
    if (name.startsWith('on')) node.addEventListener(name.slice(2), value);
    else if (name === 'style') node.style.cssText = value;       // an attribute would fall under the page's policy
    else node.setAttribute(name, value === true ? '' : String(value));
  }
  node.append(...children.flat(Infinity).filter((child) => child !== null && child !== undefined && child !== false));
  return node;
}

// An element of HTML with attributes (a function under `onclick` and its like listens) and children, texts among them.
export function h(tag, attributes, ...children) {
  return fill(document.createElement(tag), attributes, children);
}

// The same of SVG.
export function s(tag, attributes, ...children) {
  return fill(document.createElementNS(SVG, tag), attributes, children);
}

// A drawing of the build's own pages as an element. Its style sheet, which the page's policy would refuse, and its
// patterns are left out.
export function drawing(text, attributes) {
  const plain = text.replace(/<(style|defs)>.*?<\/\1>/gs, '');
  const svg = document.importNode(new DOMParser().parseFromString(plain, 'image/svg+xml').documentElement, true);
  return fill(svg, attributes, []);
}

function hasSame(old, node) {
  const names = old.getAttributeNames();
  return old.nodeName === node.nodeName && names.length === node.getAttributeNames().length
    && names.every((name) => old.getAttribute(name) === node.getAttribute(name));
}

// Makes a box have these children. What is equal to what stood there stays, so that it has not to be laid out anew;
// none of it may listen.
export function put(box, children) {
  const made = children.flat(Infinity).filter((child) => child !== null && child !== undefined && child !== false)
    .map((child) => (child instanceof Node ? child : new Text(String(child))));
  made.forEach((node, k) => {
    const old = box.childNodes[k];
    if (!old) box.append(node);
    else if (old.isEqualNode(node)) return;
    else if (old.nodeType === Node.TEXT_NODE && node.nodeType === Node.TEXT_NODE) old.data = node.data;
    else if (old.nodeType === Node.ELEMENT_NODE && node.nodeType === Node.ELEMENT_NODE && hasSame(old, node)) put(old,
      [...node.childNodes]);
    else old.replaceWith(node);
  });
  while (box.childNodes.length > made.length) box.lastChild.remove();
}

// Makes a box have these nodes in this order. One that stands there already is not touched.
export function place(box, nodes) {
  const wanted = new Set(nodes);
  for (const old of [...box.childNodes]) if (!wanted.has(old)) old.remove();
  nodes.forEach((node, k) => { if (box.childNodes[k] !== node) box.insertBefore(node, box.childNodes[k] ?? null); });
}

// A table with a caption and heads, which is scrolled where it is wider than its room. A head stands as the column below
// it.
export function wideTable(kind, caption, names, rows) {
  const isNumber = (k) => rows[0]?.children[k]?.classList.contains('number');
  const head = h('thead', {}, h('tr', {}, names.map((name, k) => h('th', { scope: 'col', class: isNumber(k) && 'number' },
    name))));
  return h('div', { class: 'wide-table' }, h('table', { class: kind }, h('caption', {}, caption), names.length ? head
    : null, h('tbody', {}, rows)));
}

export function byId(id) {
  return document.getElementById(id);
}

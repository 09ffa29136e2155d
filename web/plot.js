// A plot of lines over numbers, with the numbers themselves beside the pointer and in a table.
import { h, s } from './dom.js';
import { grouped } from './words.js';

// A plot is drawn at the width that it has, so that its texts have one size everywhere.
const WIDTHS = { least: 280, first: 480, most: 640 };
const HEIGHT = 300;
const EDGE = { left: 56, right: 84, top: 22, bottom: 42 };
const APART = 15;           // pixels between two names of lines
const INNER_BOTTOM = HEIGHT - EDGE.bottom;

// A step of the axis: 1, 2 or 5 times a power of ten, so that some five of them reach up to the highest number.
function stepOf(most) {
  const power = 10 ** Math.floor(Math.log10(Math.max(most, 1) / 4));
  return Math.max(1, [1, 2, 5, 10].map((k) => k * power).find((step) => most / step <= 6));
}

class Scale {
  constructor(xs, most, width) {
    Object.assign(this, { xs, width, right: width - EDGE.right });
    this.step = stepOf(most);
    this.high = Math.ceil(most / this.step) * this.step;
  }

  x(k) {
    const [first, last] = [this.xs[0], this.xs.at(-1)];
    return EDGE.left + ((this.xs[k] - first) * (this.right - EDGE.left)) / Math.max(last - first, 1);
  }

  y(number) {
    return INNER_BOTTOM - (number / this.high) * (INNER_BOTTOM - EDGE.top);
  }

  // The place whose x is nearest.
  nearest(x) {
    return this.xs.reduce((best, _, k) => (Math.abs(this.x(k) - x) < Math.abs(this.x(best) - x) ? k : best), 0);
  }
}

function grid(scale, name) {
  const parts = [];
  for (let y = 0; y <= scale.high; y += scale.step) parts.push(s('path',
    { class: 'grid', d: `M${EDGE.left} ${scale.y(y)}H${scale.right}` }),
    s('text', { x: EDGE.left - 8, y: scale.y(y) + 4, 'text-anchor': 'end', class: 'soft' }, grouped(y)));
  let free = -Infinity;
  scale.xs.forEach((x, k) => {
    if (scale.x(k) - free < 22) return;
    free = scale.x(k);
    parts.push(s('text', { x: free, y: INNER_BOTTOM + 18, 'text-anchor': 'middle', class: 'soft' }, String(x)));
  });
  return [...parts, s('text', { x: (EDGE.left + scale.right) / 2, y: HEIGHT - 6, 'text-anchor': 'middle',
    class: 'soft' }, name), s('text', { x: EDGE.left, y: 12, class: 'soft' }, 'ticks')];
}

// The names at the ends of their lines, moved apart where they would meet.
function names(series, scale) {
  const places = series.map((one, n) => ({ n, y: scale.y(one.ys.at(-1)) + 4, text: one.name }))
    .sort((a, b) => a.y - b.y);
  places.forEach((place, k) => { if (k) place.y = Math.max(place.y, places[k - 1].y + APART); });
  const over = Math.max(0, (places.at(-1)?.y ?? 0) - INNER_BOTTOM - 6);
  return places.map(({ n, y, text }) => s('text', { x: scale.right + 8, y: y - over, class: `series-name s-${n % 8}` },
    text));
}

function tableOf(name, xs, series) {
  return h('details', {}, h('summary', {}, 'as a table'), h('div', { class: 'wide-table' },
    h('table', { class: 'numbers' },
    h('thead', {}, h('tr', {}, h('th', { scope: 'col' }, name), xs.map((x) =>
      h('th', { scope: 'col', class: 'number' }, x)))),
    h('tbody', {}, series.map((one) => h('tr', {}, h('th', { scope: 'row' }, one.name),
      one.ys.map((y) => h('td', { class: 'number' }, grouped(y)))))))));
}

// `series` are {name, ys}, with a number for each of `xs`.
export function plot({ title, name, xs, series, note }) {
  const most = Math.max(1, ...series.flatMap((one) => one.ys));
  const cursor = s('path', { class: 'cursor-line' });
  const tip = h('div', { class: 'plot-tip', hidden: true, 'aria-live': 'polite' });
  const svg = s('svg', { class: 'plot', role: 'img', 'aria-label': `${title}; arrow keys go through the numbers`,
    tabindex: '0' });
  let scale = null;
  let at = -1;
  const hide = () => {
    tip.hidden = true;
    cursor.setAttribute('d', '');
  };
  const draw = (width) => {
    scale = new Scale(xs, most, width);
    hide();
    for (const [key, value] of [['width', width], ['height', HEIGHT], ['viewBox', `0 0 ${width} ${HEIGHT}`]]) {
      svg.setAttribute(key, value);
    }
    const lines = series.map((one, n) => s('g', { class: `series s-${n % 8}` },
      s('path', { d: one.ys.map((y, k) => `${k ? 'L' : 'M'}${scale.x(k)} ${scale.y(y)}`).join('') }),
      one.ys.map((y, k) => s('circle', { cx: scale.x(k), cy: scale.y(y), r: 3 }))));
    svg.replaceChildren(...grid(scale, name), cursor, ...lines, ...names(series, scale));
  };
  const point = (k) => {
    at = Math.min(Math.max(k, 0), xs.length - 1);
    cursor.setAttribute('d', `M${scale.x(at)} ${EDGE.top}V${INNER_BOTTOM}`);
    tip.hidden = false;
    tip.replaceChildren(h('b', {}, `${name} ${xs[at]}`), ...series.map((one, n) =>
      h('div', { class: `s-${n % 8}` }, h('i', {}), `${one.name}: ${grouped(one.ys[at])}`)));
    const x = scale.x(at);
    tip.style.left = `${x > scale.width / 2 ? Math.max(0, x - tip.offsetWidth - 8) : x + 8}px`;
  };
  svg.addEventListener('pointermove', (event) => point(scale.nearest(event.clientX
    - svg.getBoundingClientRect().left)));
  svg.addEventListener('pointerleave', hide);
  svg.addEventListener('blur', hide);
  svg.addEventListener('keydown', (event) => {
    const by = { ArrowRight: 1, ArrowLeft: -1 }[event.key];
    if (!by) return;
    event.preventDefault();
    event.stopPropagation();
    point(at + by);
  });
  draw(WIDTHS.first);
  const figure = h('figure', { class: 'plot-box' }, h('figcaption', {}, title), svg, tip, note
    ? h('p', { class: 'note' }, note) : null, tableOf(name, xs, series));
  new ResizeObserver(() => {
    const width = Math.min(WIDTHS.most, Math.max(WIDTHS.least, figure.clientWidth));
    if (figure.clientWidth && width !== scale.width) draw(width);
  }).observe(figure);
  return figure;
}

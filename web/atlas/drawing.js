// Pictures of reductions as SVG, with the same as a list for readers of screens.
import { element, shape } from '../elements.js';
import { NAMES } from '../names.js';
import { address, classLink, labelled, letter, rowText, told } from './parts.js';
import { saveButton } from './saving.js';

/** @typedef {import('./parts.js').View} View */
/** @typedef {import('../picture.js').Picture} Picture */
/** @typedef {import('../picture.js').Box} Box */

const [ROW, GAP, TOP, LETTERS] = [28, 48, 26, 7.4];

/**
 * Where a box begins.
 * @param {Box} box
 * @param {number[]} counts how many boxes each column has
 * @param {number} most
 * @param {number} wide
 */
function corner(box, counts, most, wide) {
  return { x: box.column * (wide + GAP), y: TOP + (box.place + (most - counts[box.column]) / 2) * ROW };
}

/**
 * What stands in a box: the name of the class, and a mark where it has a solver.
 * @param {View} view
 * @param {number} at
 */
function inside(view, at) { return NAMES[at] + (view.atlas.solver(at) ? ' \u2713' : ''); }

/**
 * A class in the picture: a link in a box with the letter and the colour of its label.
 * @param {View} view
 * @param {Box} box
 * @param {{x: number, y: number}} where
 * @param {number} wide
 * @param {boolean} here
 */
function boxShape(view, box, where, wide, here) {
  const label = told(view).labels[box.at], { x, y } = where, said = `${NAMES[box.at]} ${labelled(view, label)}`;
  const name = view.atlas.solver(box.at) ? view.words.say('withSolver', said) : said;
  return shape('a', { href: address(view, NAMES[box.at]), 'aria-label': name, 'data-at': box.at, class: here ? 'here' : '' },
    shape('rect', { x, y: y + 1, width: wide, height: ROW - 4, rx: 4, class: 'box' }),
    shape('rect', { x, y: y + 1, width: 20, height: ROW - 4, rx: 4, class: `fill ${label}` }),
    shape('text', { x: x + 10, y: y + 17, 'text-anchor': 'middle', class: `letter ${label}` }, letter(view, label)),
    shape('text', { x: x + 26, y: y + 17, class: 'label' }, inside(view, box.at)));
}

/**
 * A line from the right side of a box to the left side of another.
 * @param {View} view
 * @param {import('../picture.js').Line} line
 * @param {Map<number, {x: number, y: number}>} places
 * @param {number} wide
 */
function lineShape(view, { from, to, row }, places, wide) {
  const [start, end] = [from, to].map(it => places.get(it) || { x: 0, y: 0 }), half = ROW / 2 - 1;
  const [x, y, u, v] = [start.x + wide, start.y + half, end.x, end.y + half];
  return shape('path', { d: `M${x} ${y}C${x + GAP / 2} ${y} ${u - GAP / 2} ${v} ${u} ${v}`, class: 'line', 'data-from': from, 'data-to': to },
    shape('title', {}, row ? rowText(view, row) : view.words.say('chainOfRows')));
}

/**
 * The lines of a class stand out while it has the focus or the pointer.
 * @param {SVGElement} svg
 */
function follow(svg) {
  /** @type {(event: Event) => void} */
  const light = event => {
    const link = event.target instanceof Element ? event.target.closest('a') : null, at = link && link.getAttribute('data-at');
    svg.querySelectorAll('.line').forEach(it => it.classList.toggle('lit', at !== null && [it.getAttribute('data-from'),
      it.getAttribute('data-to')].includes(at)));
  };
  for (const kind of ['focusin', 'focusout', 'mouseover']) svg.addEventListener(kind, light);
}

/**
 * Scrolls a picture that is wider than its frame, when it is first seen, so that a box stands in the middle.
 * @param {HTMLElement} frame
 * @param {number} middle
 */
function centre(frame, middle) {
  const watch = new IntersectionObserver(seen => {
    if (!seen.some(it => it.isIntersecting)) return;
    watch.disconnect();
    frame.scrollLeft = middle - frame.clientWidth / 2;
  });
  watch.observe(frame);
}

/**
 * The picture, and below it what it says as a list.
 * @param {View} view
 * @param {Picture} picture
 * @param {number} here the class around which it is, or -1
 * @param {string} title
 */
export function drawn(view, picture, here, title) {
  const counts = picture.heads.map((_, column) => picture.boxes.filter(it => it.column === column).length), most = Math.max(1, ...counts);
  const wide = Math.ceil(36 + LETTERS * Math.max(...picture.boxes.map(it => inside(view, it.at).length), 12));
  const width = Math.max(1, counts.length) * (wide + GAP) - GAP + 4, height = TOP + most * ROW + 4;
  const places = new Map(picture.boxes.map(it => [it.at, corner(it, counts, most, wide)]));
  const svg = shape('svg', { viewBox: `-2 0 ${width} ${height}`, width, height, role: 'group', 'aria-label': title, class: 'picture' },
    ...picture.lines.map(it => lineShape(view, it, places, wide)),
    ...picture.heads.map((text, column) => shape('text', { x: column * (wide + GAP), y: 14, class: 'head' },
      text && view.words.say(text))),
    ...picture.boxes.map(it => boxShape(view, it, corner(it, counts, most, wide), wide, it.at === here)));
  follow(svg);
  const panel = element('div', { class: 'saved' });
  const save = saveButton(view, view.words.say('pictureSave'), 'reductions.svg', () => asFile(svg), panel);
  const frame = element('div', { class: 'scroll', tabindex: '0', role: 'region', 'aria-label': title }, svg);
  const place = places.get(here);
  if (place) centre(frame, place.x + wide / 2);
  return element('div', {}, frame, asList(view, picture), element('p', {}, save), panel);
}

/**
 * What a picture says, as a list.
 * @param {View} view
 * @param {Picture} picture
 */
function asList(view, picture) {
  const joined = new Set(picture.lines.flatMap(({ from, to }) => [from, to]));
  const lines = picture.lines.map(({ from, to, row }) => element('li', {}, classLink(view, from), row ? ` \u2192 (${rowText(view, row)}) `
    : ' \u2192 ',
    classLink(view, to)));
  const alone = picture.boxes.filter(({ at }) => !joined.has(at)).map(({ at }) => element('li', {}, classLink(view, at)));
  return element('details', {}, element('summary', {}, view.words.say('pictureList')), element('ul', { class: 'plain' }, ...lines, ...alone));
}

/** The colours of a picture in a file, which has no styles of the page. */
const STYLES = `text { font: 12px "DejaVu Sans Mono", monospace; fill: #1d2430 } .head { font: 12px sans-serif; fill: #4a5462 }
.line { fill: none; stroke: #76808e } .box { fill: #fff; stroke: #76808e } .here .box { stroke-width: 3 }
.letter { fill: #fff; font-weight: 600 } .fill { fill: #7d3fb0 } .fill.easy { fill: #1f7546 } .fill.pseudo { fill: #5d7414 }
.fill.weak { fill: #8a5d00 } .fill.hard { fill: #a8470f } .fill.strong { fill: #a3222c } .fill.open { fill: #2f62a8 }`;

/**
 * A picture as a file.
 * @param {SVGElement} svg
 */
function asFile(svg) {
  const copy = /** @type {SVGElement} */ (svg.cloneNode(true));
  copy.querySelectorAll('a').forEach(it => it.removeAttribute('href'));
  copy.prepend(shape('style', {}, STYLES));
  return `${new XMLSerializer().serializeToString(copy)}\n`;
}

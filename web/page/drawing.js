// A chart as elements of SVG, and as files: SVG, PNG, TikZ.
import { shape } from '../elements.js';
import { AXIS, BAR, LINE, TOP } from './chart.js';

/** @typedef {import('./chart.js').Chart} Chart */
/** @typedef {import('./chart.js').Bar} Bar */
/** @typedef {import('./chart.js').Mark} Mark */

/** Of so many lines a chart fits on a page of paper. */
const MOST_LINES = 40;
/** The colours of bars, each bright enough for dark letters. */
export const FILLS = ['#a9c8f0', '#f3c98b', '#b5dcae', '#e3bce6', '#f0b6ab', '#a8dcdc', '#d8d39a', '#c9c4f2'];

/** The name of what fills bars that break a condition, in a file; in a page each chart has its own. */
const STRIPES = 'broken-stripes';

/**
 * A bar with its label.
 * @param {Bar} bar
 * @param {string} [fills] the name of what fills it where it breaks a condition
 */
export function barShape(bar, fills = STRIPES) {
  const { x, y, width, broken } = bar;
  const classes = ['bar', bar.late ? 'late' : '', broken ? 'broken' : '', bar.marked ? 'marked' : ''].filter(Boolean).join(' ');
  const edge = broken || bar.late ? '#a11d27' : bar.marked ? '#1c232e' : '#5b6675';
  const rect = shape('rect', { x, y, width, height: BAR, rx: 3, fill: broken ? `url(#${fills})` : FILLS[bar.colour], stroke: edge,
    'stroke-width': broken || bar.marked ? 3 : bar.late ? 2 : 1 });
  const how = { x: x + width / 2, y: y + BAR / 2 + 4.5, 'text-anchor': 'middle', fill: '#1c232e', class: 'label' };
  return shape('g', { class: classes, 'data-at': bar.at }, rect, ...(bar.label ? [shape('text', how, bar.label)] : []));
}

/**
 * The mark of a due date, or of a release date.
 * @param {Mark} mark
 */
export function markShape({ kind, x, y, late, short }) {
  const colour = late ? '#a11d27' : '#2c5b34', top = y + 2, foot = y + LINE - 2;
  if (kind === 'release') {
    const d = `M${x} ${top}V${foot}M${x} ${y + LINE / 2}l6 0`;
    return shape('path', { d, class: 'release', fill: 'none', stroke: '#1b4f9c', 'stroke-width': 2 });
  }
  const d = short ? `M${x - 5} ${top - 1}h10l-5 8z` : `M${x} ${foot}V${top}h-8l4 4l-4 4h8`;
  return shape('path', { d, class: `due${late ? ' late' : ''}`, fill: colour, stroke: colour, 'stroke-width': 1.4 });
}

/**
 * What fills a bar that breaks a condition: stripes, which are seen without colours too.
 * @param {string} id
 */
function stripes(id) {
  const how = { id, width: 8, height: 8, patternUnits: 'userSpaceOnUse', patternTransform: 'rotate(45)' };
  return shape('defs', {}, shape('pattern', how,
    shape('rect', { width: 8, height: 8, fill: '#ffd9d6' }), shape('rect', { width: 3, height: 8, fill: '#e0797c' })));
}

/**
 * The lines and the axis behind the bars.
 * @param {Chart} chart
 */
function ground(chart) {
  const foot = TOP + chart.lines.length * LINE;
  const lines = chart.lines.flatMap(({ title, y }) => [
    shape('text', { x: 6, y: y + LINE / 2 + 4.5, class: 'title', fill: '#1c232e' }, title),
    shape('path', { d: `M${chart.left} ${y + LINE}H${chart.width}`, class: 'rule', stroke: '#c9d0d9' })]);
  const ticks = chart.ticks.flatMap(({ x, text }) => [shape('path', { d: `M${x} ${TOP}V${foot + 5}`, class: 'rule', stroke: '#c9d0d9' }),
    shape('text', { x, y: foot + AXIS - 8, 'text-anchor': x > chart.width - 60 ? 'end' : 'middle', class: 'tick', fill: '#414b59' }, text)]);
  return [...lines, ...ticks];
}

/**
 * A chart as an element.
 * @param {Chart} chart
 * @param {string} title
 * @param {string} [fills] the name of what fills bars that break a condition, which stands once in a page
 */
export function drawn(chart, title, fills = STRIPES) {
  const { width, height } = chart, name = chart.lines.length > MOST_LINES ? 'chart long' : 'chart';
  return shape('svg', { viewBox: `0 0 ${width} ${height}`, width, height, class: name, role: 'group', 'aria-label': title, 'font-size': 12.5,
    'font-family': 'system-ui, "Segoe UI", "DejaVu Sans", sans-serif' }, stripes(fills), ...ground(chart),
  ...chart.bars.map(it => barShape(it, fills)),
  ...chart.marks.map(markShape));
}

/**
 * A chart as the text of an SVG file, on white paper.
 * @param {Chart} chart
 * @param {string} title
 */
export function svgText(chart, title) {
  const svg = drawn(chart, title);
  svg.prepend(shape('title', {}, title), shape('rect', { width: chart.width, height: chart.height, fill: '#fff' }));
  return `${new XMLSerializer().serializeToString(svg)}\n`;
}

/**
 * A chart as the bytes of a PNG file, two pixels for each of the screen.
 * @param {Chart} chart
 * @param {string} title
 * @returns {Promise<Blob>}
 */
export async function pngOf(chart, title) {
  const address = URL.createObjectURL(new Blob([svgText(chart, title)], { type: 'image/svg+xml' })), image = new Image();
  try {
    image.src = address;
    await image.decode();
    const canvas = document.createElement('canvas');
    canvas.width = Math.min(16000, chart.width * 2);
    canvas.height = Math.min(16000, chart.height * 2);
    const pen = canvas.getContext('2d');
    if (pen) pen.drawImage(image, 0, 0, canvas.width, canvas.height);
    return await new Promise((done, fail) => canvas.toBlob(it => it ? done(it) : fail(new Error('no picture')), 'image/png'));
  } finally {
    URL.revokeObjectURL(address);
  }
}

/** Signs that mean something in LaTeX, or look like something else in its first fonts.
 * @type {Object<string, string>} */
const SIGNS = { '\\': '\\textbackslash{}', '~': '\\textasciitilde{}', '^': '\\textasciicircum{}', '<': '\\textless{}', '>': '\\textgreater{}',
  '|': '\\textbar{}', '"': '{\\ttfamily\\char34}', '-': '{-}', '\u2212': '$-$', '\u2009': '\\,', '\u202f': '\\,',
  ...Object.fromEntries(Array.from('#$%&_{}', it => [it, `\\${it}`])) };
/** Signs that are not seen. */
const UNSEEN = /[\u200b-\u200f\u2028-\u202e\u2060-\u2069\ufeff]/g;
/** Signs that pdflatex knows without a further package. */
const LATIN = /^[\n -~\u00a0\u00a1-\u017f\u2009\u202f\u2013\u2014\u2018-\u201a\u201c-\u201e\u2022\u2026\u20ac\u2212]*$/;

/**
 * A text of LaTeX.
 * @param {string} text
 */
export function latex(text) { return Array.from(text.replace(UNSEEN, ''), it => SIGNS[it] || it).join(''); }

/**
 * A place of the chart in centimetres.
 * @param {number} x
 * @param {number} y
 */
function at(x, y) { return `(${(x / 40).toFixed(3)},${(-y / 40).toFixed(3)})`; }

/**
 * A bar in TikZ, with its label.
 * @param {Bar} bar
 */
function tikzBar({ x, y, width, label, late, broken, marked, colour }) {
  const edge = broken ? 'mspred,very thick' : late ? 'mspred,thick' : marked ? 'black,very thick' : 'gray,thin';
  const text = latex(label), middle = at(x + width / 2, y + BAR / 2);
  return [`\\draw[fill=msp${'abcdefgh'[colour]},draw=${edge}] ${at(x, y)} rectangle ${at(x + width, y + BAR)};`,
    ...(text ? [`\\node[font=\\scriptsize] at ${middle} {\\strut ${text}};`] : [])];
}

/**
 * The mark of a date in TikZ, in the form that it has in the page.
 * @param {Mark} mark
 */
function tikzMark({ kind, x, y, late, short }) {
  const top = y + 2, foot = y + LINE - 2, middle = y + LINE / 2, colour = late ? 'mspred' : 'mspgreen';
  if (kind === 'release') return `\\draw[mspblue,thick] ${at(x, top)} -- ${at(x, foot)} ${at(x, middle)} -- ${at(x + 6, middle)};`;
  if (short) return `\\fill[${colour}] ${at(x - 5, top - 1)} -- ${at(x + 5, top - 1)} -- ${at(x, top + 7)} -- cycle;`;
  return `\\filldraw[${colour}] ${at(x, foot)} -- ${at(x, top)} -- ${at(x - 8, top)} -- ${at(x - 4, top + 4)} -- ${at(x - 8, top + 8)} -- `
    + `${at(x, top + 8)};`;
}

/**
 * A chart as a picture of TikZ, in centimetres.
 * @param {Chart} chart
 */
export function tikzText(chart) {
  const foot = TOP + chart.lines.length * LINE;
  const lines = chart.lines.map(({ title, y }) => `\\node[anchor=west,font=\\small] at ${at(0, y + LINE / 2)} {\\strut ${latex(title)}};`);
  const ticks = chart.ticks.flatMap(({ x, text }) => [`\\draw[lightgray] ${at(x, TOP)} -- ${at(x, foot + 5)};`,
    `\\node[anchor=north,font=\\scriptsize] at ${at(x, foot + 4)} {${latex(text)}};`]);
  const colours = [...FILLS.map((it, place) => ['abcdefgh'[place], it]), ['red', '#a11d27'], ['green', '#2c5b34'], ['blue', '#1b4f9c']];
  const defined = colours.map(([name, it]) => `\\definecolor{msp${name}}{HTML}{${it.slice(1).toUpperCase()}}`);
  const body = [...defined, '\\begin{tikzpicture}', ...ticks, ...lines, ...chart.bars.flatMap(tikzBar), ...chart.marks.map(tikzMark),
    '\\end{tikzpicture}', ''].join('\n');
  const other = LATIN.test(body) ? '' : '% (some names have letters that pdflatex does not know: lualatex and xelatex do, with a font for them)\n';
  return `% \\usepackage{tikz}; where it is too wide: \\resizebox{\\linewidth}{!}{\\input{plan}}\n${other}${body}`;
}

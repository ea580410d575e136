// What a Gantt chart shows: its lines and bars, what is late, the marks of dates, the axis. No element of a page is made here.
import { compare, fraction, near } from '../fractions.js';
import { momentText } from './clock.js';
import { endsOf } from './schedule.js';

/** @typedef {import('../fractions.js').Fraction} Fraction */
/** @typedef {import('./schedule.js').Piece} Piece */
/** @typedef {import('./instance.js').Built} Built */
/** @typedef {import('./clock.js').ListClock} ListClock */
/**
 * What is drawn, and how: lines by job or by machine, names of machines, the width of the time axis, and moments in German.
 * @typedef {object} Wanted
 * @property {Piece[]} pieces
 * @property {Built} built
 * @property {ListClock} clock
 * @property {boolean} byJob
 * @property {boolean} german
 * @property {(machine: number) => string} machineName
 * @property {(row: number) => string} jobName
 * @property {number} width
 * @property {number} [span] up to which moment the axis goes at least
 * @property {Set<number>} broken places of pieces that break a condition
 * @property {Set<number>} marked rows of jobs that are pointed out
 */
/**
 * @typedef {object} Bar
 * @property {number} at the place of its piece
 * @property {number} row
 * @property {number} x
 * @property {number} y
 * @property {number} width
 * @property {number} colour
 * @property {string} label
 * @property {boolean} late
 * @property {boolean} broken
 * @property {boolean} marked
 */
/**
 * The mark of a date; a short one stands above the bars.
 * @typedef {{kind: 'due' | 'release', x: number, y: number, row: number, late: boolean, short: boolean}} Mark
 */
/**
 * @typedef {object} Chart
 * @property {number} width
 * @property {number} height
 * @property {number} left where time begins
 * @property {number} scale pixels of a unit of the list
 * @property {{title: string, y: number}[]} lines
 * @property {Bar[]} bars
 * @property {Mark[]} marks
 * @property {{x: number, text: string}[]} ticks
 */

export const LINE = 40, BAR = 28, TOP = 10, AXIS = 26, COLOURS = 8;
const LETTER = 7.2, LEAST_TITLE = 60, MOST_TITLE = 170;
/** Seconds between dates on the axis. */
const STEPS = [60, 300, 600, 900, 1800, 3600, 7200, 10800, 21600, 43200, 86400, 172800, 345600, 604800, 1209600, 2419200];

/**
 * A name cut in its middle where it is too long.
 * @param {string} name
 * @param {number} fits signs
 */
export function cut(name, fits) {
  const signs = Array.from(name);
  if (signs.length <= fits) return name;
  if (fits < 3) return '';
  const back = Math.floor((fits - 1) / 2);
  return `${signs.slice(0, fits - 1 - back).join('')}\u2026${back ? signs.slice(-back).join('') : ''}`;
}

/**
 * The greatest moment of a chart: its last end, and dates that are not far behind it.
 * @param {Wanted} wanted
 */
export function spanOf(wanted) {
  const last = Math.max(wanted.span || 0, ...wanted.pieces.map(it => near(it.to))) || 1;
  const dates = wanted.built.jobs.flatMap(it => it.d ? [near(it.d)] : []).filter(it => it <= 1.25 * last);
  return Math.max(last, ...dates);
}

/**
 * A step of 1, 2 or 5 times a power of ten, at least as great as another.
 * @param {number} least
 */
function niceStep(least) {
  const power = 10 ** Math.floor(Math.log10(least));
  return [1, 2, 5, 10].map(it => it * power).find(it => it >= least * 0.999999) || 10 * power;
}

/**
 * The moments of the axis, in units of the list, without those before the start.
 * @param {number} span
 * @param {number} scale
 * @param {ListClock} clock
 * @returns {number[]}
 */
function momentsOfAxis(span, scale, clock) {
  const dated = clock.start !== null && clock.unit > 0, least = (dated ? 118 : 46) / scale;
  if (!dated || clock.calendar) {
    const step = niceStep(least);
    return Array.from({ length: Math.min(400, Math.floor(span / step + 1e-9) + 1) }, (_, at) => at * step);
  }
  const seconds = STEPS.find(it => it >= least * clock.unit) || Math.ceil(least * clock.unit / STEPS[10]) * STEPS[10];
  const start = clock.start || 0, first = Math.ceil(start / seconds) * seconds, found = [];
  for (let at = first; at - start <= span * clock.unit && found.length < 400; at += seconds) found.push((at - start) / clock.unit);
  return found;
}

/**
 * A moment of the axis as it is written there.
 * @param {number} moment
 * @param {Wanted} wanted
 */
function tickText(moment, { clock, german }) {
  const exact = fraction(Math.round(moment * 1000000), 1000000);
  return momentText(exact, clock, german).replace(/^(\d{4})-(\d\d-\d\d )/, '$2').replace(/^(\d\d\.\d\d\.)\d{4}/, '$1');
}

/**
 * The lines of a chart: for each its title, and the place of a piece's line.
 * @param {Wanted} wanted
 * @returns {{titles: string[], of: (piece: Piece) => number, ofRow: (row: number) => number}}
 */
function linesOf(wanted) {
  const { built, pieces } = wanted;
  if (!wanted.byJob) {
    const last = new Map(pieces.map(it => /** @type {[number, number]} */ ([it.row, it.machine - 1])));
    const ends = endsOf(pieces);
    for (const it of pieces) if (compare(it.to, ends.get(it.row) || it.to) === 0) last.set(it.row, it.machine - 1);
    const count = Math.max(built.machines, ...pieces.map(it => it.machine));
    return { titles: Array.from({ length: count }, (_, at) => wanted.machineName(at + 1)), of: it => it.machine - 1,
      ofRow: row => last.has(row) ? Number(last.get(row)) : -1 };
  }
  const first = new Map();
  for (const it of pieces) if (!first.has(it.row) || first.get(it.row) > near(it.from)) first.set(it.row, near(it.from));
  const rows = built.jobs.map(it => it.row.id).sort((one, other) => (first.get(one) || 0) - (first.get(other) || 0));
  const places = new Map(rows.map((row, at) => [row, at]));
  return { titles: rows.map(wanted.jobName), of: it => Number(places.get(it.row)), ofRow: row => Number(places.get(row)) };
}

/**
 * What a bar says where so many signs fit.
 * @param {Piece} piece
 * @param {number} width
 * @param {boolean} late
 * @param {Wanted} wanted
 */
function labelOf(piece, width, late, wanted) {
  const name = wanted.byJob ? wanted.built.machines > 1 ? wanted.machineName(piece.machine) : '' : wanted.jobName(piece.row);
  const text = cut(name, Math.floor((width - 6) / LETTER) - (late ? 2 : 0));
  return late && width > 10 ? `${text}${text ? ' ' : ''}!` : text;
}

/**
 * The marks of due dates and release dates, each at the line where its job ends.
 * @param {Wanted} wanted
 * @param {(moment: Fraction) => number} place
 * @param {(row: number) => number} lineOf
 * @param {Set<number>} late
 * @returns {Mark[]}
 */
function marksOf(wanted, place, lineOf, late) {
  return wanted.built.jobs.flatMap(({ row, d, r }) => {
    const y = TOP + lineOf(row.id) * LINE;
    /** @type {Mark[]} */
    const found = [];
    if (lineOf(row.id) < 0 || !wanted.built.text) return found;
    if (d) found.push({ kind: 'due', x: place(d), y, row: row.id, late: late.has(row.id), short: !wanted.byJob });
    if (r.n > 0n && wanted.byJob) found.push({ kind: 'release', x: place(r), y, row: row.id, late: false, short: false });
    return found;
  });
}

/**
 * @param {Wanted} wanted
 * @returns {Chart}
 */
export function chartOf(wanted) {
  const { pieces, built } = wanted, lines = linesOf(wanted), ends = endsOf(pieces);
  const isLate = (/** @type {number} */ row, /** @type {Fraction} */ due) => compare(ends.get(row) || due, due) > 0;
  const late = new Set(built.text ? built.jobs.filter(({ row, d }) => d && isLate(row.id, d)).map(it => it.row.id) : []);
  const title = Math.max(...lines.titles.map(it => Array.from(it).length), 0) * LETTER + 14;
  const left = Math.round(Math.min(MOST_TITLE, Math.max(LEAST_TITLE, title))), span = spanOf(wanted);
  const scale = Math.max(40, wanted.width - left - 24) / span, place = (/** @type {Fraction} */ it) => left + near(it) * scale;
  const bars = pieces.map((piece, at) => {
    const x = place(piece.from), width = Math.max(1, place(piece.to) - x), missed = late.has(piece.row);
    return { at, row: piece.row, x, y: TOP + lines.of(piece) * LINE + (LINE - BAR) / 2, width, colour: (piece.row - 1) % COLOURS,
      label: labelOf(piece, width, missed, wanted), late: missed, broken: wanted.broken.has(at), marked: wanted.marked.has(piece.row) };
  }).filter(it => Number.isFinite(it.y));
  const fits = Math.floor((left - 14) / LETTER);
  return { width: Math.round(left + span * scale + 24), height: TOP + lines.titles.length * LINE + AXIS, left, scale,
    lines: lines.titles.map((it, at) => ({ title: cut(it, fits), y: TOP + at * LINE })), bars, marks: marksOf(wanted, place, lines.ofRow, late)
      .filter(it => it.x >= left && it.x <= left + span * scale + 2),
    ticks: momentsOfAxis(span, scale, wanted.clock).map(it => ({ x: left + it * scale, text: tickText(it, wanted) })) };
}

/**
 * Whether charts have the same lines, the same axis, and bars of the same pieces.
 * @param {Chart} one
 * @param {Chart} other
 */
export function hasFrame(one, other) {
  const frame = (/** @type {Chart} */ { width, height, left, scale, lines, ticks }) => JSON.stringify([width, height, left, scale, lines, ticks]);
  return one.bars.length === other.bars.length && one.bars.every((it, at) => it.at === other.bars[at].at) && frame(one) === frame(other);
}

/**
 * Whether two bars are drawn alike.
 * @param {Bar} one
 * @param {Bar} other
 */
export function isBar(one, other) {
  return one.x === other.x && one.y === other.y && one.width === other.width && one.label === other.label && one.colour === other.colour
    && one.late === other.late && one.broken === other.broken && one.marked === other.marked;
}

/**
 * What a piece says of itself, for a pointer and for readers of screens.
 * @param {Piece} piece
 * @param {Wanted} wanted
 */
export function noteOf(piece, wanted) {
  const from = momentText(piece.from, wanted.clock, wanted.german), to = momentText(piece.to, wanted.clock, wanted.german, true);
  return { job: wanted.jobName(piece.row), machine: wanted.machineName(piece.machine), from, to };
}


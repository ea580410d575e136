// Which job waits for which, as a graph: its levels, its circles, where its picture has each job, and an arc more or less in the column after.
import { boxesOf } from '../picture.js';
import { usedRows } from './instance.js';
import { arcsOf, calledAt, namesBefore, placesOf } from './jobs.js';
import { withCell } from './table-view.js';

/** @typedef {import('./instance.js').Problem} Problem */
/** @typedef {import('./instance.js').Row} Row */
/** @typedef {[number, number]} Arc places of two jobs, the one that comes before first */
/** @typedef {{x: number, y: number}} Point */
/**
 * A picture: the corner of each job, the points of each arc with whether it belongs to a circle, how many levels have arcs, and its size.
 * @typedef {{boxes: Point[], lines: {arc: Arc, points: Point[], round: boolean}[], levels: number, width: number, height: number}} Layout
 */
/**
 * What came of an arc: rows with it or without it; or a circle that it would close, as places of jobs; or that the column cannot name its job.
 * @typedef {{rows: Row[], added: boolean} | {circle: number[]} | {nameless: number}} Outcome
 */

/** Of how many jobs a picture is drawn at most. */
export const MOST_DRAWN = 60;
export const [BOX, TALL, ROW, GAP, EDGE] = [132, 30, 42, 58, 6];
/** How much of a row an arc takes that goes by. */
const BY = 0.4;

/**
 * A shortest way along arcs from one job to another, both included; null where there is none.
 * @param {Arc[]} arcs
 * @param {number} from
 * @param {number} to
 * @returns {number[] | null}
 */
export function wayOf(arcs, from, to) {
  const before = new Map([[from, -1]]), queue = [from];
  for (const at of queue) {
    for (const [one, other] of arcs) {
      if (one !== at || before.has(other)) continue;
      before.set(other, at);
      queue.push(other);
    }
  }
  if (!before.has(to)) return null;
  const way = [];
  for (let at = to; at >= 0; at = Number(before.get(at))) way.unshift(at);
  return way;
}

/**
 * A circle of arcs, its first job at the end again; null where there is none.
 * @param {Arc[]} arcs
 */
export function circleOf(arcs) {
  for (const [one, other] of arcs) {
    const way = wayOf(arcs, other, one);
    if (way) return [one, ...way];
  }
  return null;
}

/**
 * The level of each job: how many arcs a longest way to it has. In a circle the first job begins.
 * @param {number} count
 * @param {Arc[]} arcs
 * @returns {number[]}
 */
export function levelsOf(count, arcs) {
  const levels = new Array(count).fill(0);
  let rest = Array.from({ length: count }, (_, at) => at);
  for (let level = 0; rest.length; level++) {
    const waiting = new Set(arcs.filter(it => rest.includes(it[0])).map(it => it[1])), free = rest.filter(it => !waiting.has(it));
    const those = free.length ? free : rest.slice(0, 1);
    for (const it of those) levels[it] = level;
    rest = rest.filter(it => !those.includes(it));
  }
  return levels;
}

/**
 * Columns of jobs, with a place in each column between for an arc that goes by; and the lines from column to column.
 * @param {number[]} those jobs with arcs
 * @param {number[]} levels
 * @param {Arc[]} arcs
 */
function columnsOf(those, levels, arcs) {
  const columns = Array.from({ length: Math.max(-1, ...those.map(it => levels[it])) + 1 }, (_, level) => those.filter(it => levels[it] === level));
  /** @type {import('../picture.js').Line[]} */
  const lines = [];
  let next = levels.length;
  const ways = arcs.map(([one, other]) => {
    const between = Array.from({ length: Math.max(0, levels[other] - levels[one] - 1) }, () => next++);
    between.forEach((it, step) => columns[levels[one] + 1 + step].push(it));
    const way = [one, ...between, other];
    if (levels[one] < levels[other]) way.slice(1).forEach((to, step) => lines.push({ from: way[step], to, row: 0 }));
    return way;
  });
  return { columns, lines, ways };
}

/**
 * The columns with what is joined side by side: once from the right to the left, then back.
 * @param {number[][]} columns
 * @param {import('../picture.js').Line[]} lines
 */
function sorted(columns, lines) {
  const inOrder = (/** @type {import('../picture.js').Box[]} */ boxes, /** @type {number} */ column) =>
    boxes.filter(it => it.column === column).sort((one, other) => one.place - other.place).map(it => it.at);
  const back = boxesOf([...columns].reverse(), lines.map(it => ({ ...it, from: it.to, to: it.from }))), last = columns.length - 1;
  const first = columns.length ? [inOrder(back, last), ...columns.slice(1)] : [], there = boxesOf(first, lines);
  return columns.map((_, column) => inOrder(there, column));
}

/**
 * Where the jobs of columns stand, each column in the middle.
 * @param {number[][]} columns
 * @param {number} count of jobs; what is beyond is an arc that goes by
 * @returns {{places: Map<number, Point>, height: number}}
 */
function placed(columns, count) {
  const tall = (/** @type {number} */ at) => at < count ? ROW : ROW * BY, heights = columns.map(it => it.reduce((sum, at) => sum + tall(at), 0));
  const height = Math.max(0, ...heights), places = new Map();
  columns.forEach((those, column) => {
    let y = EDGE + (height - heights[column]) / 2;
    for (const at of those) {
      places.set(at, { x: EDGE + column * (BOX + GAP), y });
      y += tall(at);
    }
  });
  return { places, height };
}

/**
 * The picture of a graph. Jobs without arcs stand below the others, in rows.
 * @param {number} count
 * @param {Arc[]} arcs
 * @param {number} room how wide it may be without a need to be moved
 * @returns {Layout}
 */
export function layoutOf(count, arcs, room) {
  const all = Array.from({ length: count }, (_, at) => at), joined = new Set(arcs.flat()), those = all.filter(it => joined.has(it));
  const levels = levelsOf(count, arcs), { columns, lines, ways } = columnsOf(those, levels, arcs);
  const { places, height } = placed(sorted(columns, lines), count), across = Math.max(1, columns.length, Math.floor((room - EDGE) / (BOX + GAP)));
  const top = EDGE + (height ? height + ROW / 2 : 0), alone = all.filter(it => !joined.has(it));
  alone.forEach((it, at) => places.set(it, { x: EDGE + at % across * (BOX + GAP), y: top + Math.floor(at / across) * ROW }));
  const point = (/** @type {number} */ it) => places.get(it) || { x: 0, y: 0 };
  const drawn = ways.map((way, at) => ({ arc: arcs[at], points: way.map(point), round: wayOf(arcs, arcs[at][1], arcs[at][0]) !== null }));
  const used = alone.length ? Math.max(columns.length, Math.min(across, alone.length)) : columns.length;
  const below = alone.length ? top + Math.ceil(alone.length / across) * ROW : EDGE + height;
  return { boxes: all.map(point), lines: drawn, levels: columns.length, width: 2 * EDGE + Math.max(1, used) * (BOX + GAP) - GAP,
    height: below + EDGE };
}

/**
 * The arcs of rows, without what is wrong with them.
 * @param {Row[]} rows
 */
export function arcsIn(rows) { return arcsOf(rows, { fault: () => undefined }); }

/**
 * An arc is taken away where it is there, and else added, in the column after. One that would close a circle is not added.
 * @param {Problem} problem
 * @param {number} before its place among the used rows
 * @param {number} after
 * @returns {Outcome}
 */
export function turned(problem, before, after) {
  const used = usedRows(problem), arcs = arcsIn(used), isArc = (/** @type {Arc} */ [one, other]) => one === before && other === after;
  const added = !arcs.some(isArc), way = added ? wayOf(arcs, after, before) : null;
  if (way) return { circle: [before, ...way] };
  const name = calledAt(used[before], before), row = used[after], places = placesOf(used);
  const names = namesBefore((row.cells.after || '').trim(), places), kept = added ? names : names.filter(it => places.get(it) !== before);
  // (a job that is only called by its place gets its name, so that it keeps it)
  const named = added ? withCell(problem.rows, used[before].id, 'job', name) : problem.rows;
  const rows = withCell(named, row.id, 'after', [...kept, ...added ? [name] : []].join(' | '));
  const wanted = added ? [...arcs, [before, after]] : arcs.filter(it => !isArc(it)), found = arcsIn(usedRows({ ...problem, rows }));
  const text = (/** @type {number[][]} */ those) => String(those.map(String).sort());
  return text(found) === text(wanted) ? { rows, added } : { nameless: before };
}

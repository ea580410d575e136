// Pictures of reductions: which classes stand where, and which rows lead from one to another.
import { MACHINES, NAMES, partsOf } from './names.js';
import { ends } from './classes.js';

/** @typedef {import('./classes.js').Atlas} Atlas */
/** @typedef {{at: number, column: number, place: number}} Box a class, its column from the left, and its place there from above */
/** @typedef {{from: number, to: number, row: number}} Line from an easier class to a harder one; the row is 0 where it stands for a chain */
/** @typedef {{boxes: Box[], lines: Line[], heads: string[]}} Picture the heads of its columns are keys of atlas/words.js, or empty */

/**
 * Columns of classes as boxes: in each column but the first they stand in the order of the middle of those from which lines lead to them.
 * @param {number[][]} columns
 * @param {Line[]} lines
 * @returns {Box[]}
 */
export function boxesOf(columns, lines) {
  /** @type {Map<number, number>} */
  const places = new Map();
  return columns.flatMap((those, column) => {
    const middle = new Map(those.map((at, place) => {
      const before = lines.filter(it => it.to === at && places.has(it.from)).map(it => places.get(it.from) || 0);
      return [at, before.length ? before.reduce((sum, it) => sum + it, 0) / before.length : (place + 0.5) / those.length];
    }));
    const sorted = column ? [...those].sort((one, other) => (middle.get(one) || 0) - (middle.get(other) || 0)) : those;
    sorted.forEach((at, place) => places.set(at, (place + 0.5) / sorted.length));
    return sorted.map((at, place) => ({ at, column, place }));
  });
}

/**
 * The classes around one: those from which rows lead to it on the left, those to which rows lead on the right, with the chains that decide
 * its label; the classes of the same problem stand in its column.
 * @param {Atlas} atlas
 * @param {import('./chains.js').Chain[]} chains
 * @param {number} at
 * @returns {Picture}
 */
export function around(atlas, chains, at) {
  const same = atlas.problem(at), middle = [at, ...same.filter(it => it !== at)];
  /** @type {Map<number, number>} */
  const column = new Map(middle.map(it => [it, 0]));
  /** @type {(it: number, where: number) => void} */
  const put = (it, where) => { if (!column.has(it)) column.set(it, where); };
  for (const { start, rows } of chains) {
    const walk = [start, ...rows.map(([, to]) => to)], here = walk.indexOf(at);
    walk.forEach((it, place) => put(it, place - here));
  }
  atlas.below(at).forEach(([, from]) => put(from, -1));
  atlas.above(at).forEach(([, to]) => put(to, 1));
  const least = Math.min(...column.values()), count = Math.max(...column.values()) - least + 1;
  const columns = Array.from({ length: count }, (_, it) => Array.from(column.keys()).filter(one => column.get(one) === it + least));
  const lines = Array.from(column.keys()).flatMap(from => atlas.above(from)
    .filter(([, to]) => column.has(to) && (column.get(to) || 0) > (column.get(from) || 0)).map(([row, to]) => ({ from, to, row })));
  /** @type {Object<string, string>} */
  const titles = { '-1': 'around -1', 0: 'around 0', 1: 'around 1' }, heads = columns.map((_, it) => titles[it + least] || '');
  return { boxes: boxesOf(columns, lines), lines, heads };
}

/**
 * The frontier on some machines: the hardest easy classes, the easiest and the hardest open ones, the easiest hard ones, each problem once,
 * and the chains between them that go over no other of them.
 * @param {Atlas} atlas
 * @param {string[]} labels
 * @param {number} machines a place in MACHINES
 * @returns {Picture}
 */
export function frontier(atlas, labels, machines) {
  const { environment, short } = MACHINES[machines];
  const among = NAMES.map((_, at) => at).filter(at => partsOf(at).environment === environment && partsOf(at).short === short);
  const open = ['open', 'pseudo'], easiest = ends(atlas, labels, among, open, false);
  const columns = [ends(atlas, labels, among, ['easy'], true), easiest,
    ends(atlas, labels, among, open, true).filter(at => !easiest.includes(at)), ends(atlas, labels, among, ['weak', 'hard', 'strong'], false)];
  const heads = ['head hardest easy', 'head easiest open', 'head hardest open', 'head easiest hard'];
  const shown = columns.flat();
  const reached = new Map(shown.map(at => [at, atlas.reached(at)]));
  /** @type {(from: number, to: number) => boolean} */
  const leads = (from, to) => from !== to && (reached.get(from) || new Set()).has(to);
  /** @type {(from: number, to: number) => boolean} */
  const next = (from, to) => leads(from, to) && !shown.some(it => leads(from, it) && leads(it, to));
  const lines = shown.flatMap(from => shown.filter(to => next(from, to)).map(to => ({ from, to, row: 0 })));
  const boxes = boxesOf(columns, lines), kept = columns.map((_, it) => it).filter(it => columns[it].length);
  return { boxes: boxes.map(it => ({ ...it, column: kept.indexOf(it.column) })), lines, heads: kept.map(it => heads[it]) };
}

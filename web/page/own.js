// A plan of one's own: pieces moved, split, and put as early as they can. Whether it goes, and what it costs, the program says.
import { compare, fraction, greatest, minus, over, plus, times, ZERO } from '../fractions.js';
import { lengthOf } from './schedule.js';

/** @typedef {import('../fractions.js').Fraction} Fraction */
/** @typedef {import('./schedule.js').Piece} Piece */
/** @typedef {import('./instance.js').Built} Built */
/** @typedef {import('./instance.js').Job} Job */

/**
 * How long an operation of a job takes on a machine, in units of the list; 0 where it has none there.
 * @param {Job} job
 * @param {number} op from 1
 * @param {number} machine from 1
 * @param {Built} built
 * @returns {Fraction}
 */
export function timeOn(job, op, machine, built) {
  const kind = built.name[0];
  if (kind === 'J' && !hasShared(built)) return job.route[op - 1] ? job.route[op - 1][1] : ZERO;
  if (hasShared(built)) return kind === 'Q' ? over(built.shared, speedOf(machine, built)) : built.shared;
  if (kind === 'Q') return over(job.p[0], speedOf(machine, built));
  return job.p['OF'.includes(kind) ? op - 1 : kind === 'R' ? machine - 1 : 0] || ZERO;
}

/** @param {Built} built */
function hasShared(built) { return /p=[1p]/.test(built.name); }

/**
 * @param {number} machine
 * @param {Built} built
 */
function speedOf(machine, built) { return fraction(built.speeds[machine - 1] || 1n); }

/**
 * Whether a piece may go to another machine at all.
 * @param {Built} built
 */
export function hasChoice(built) { return 'PQR'.includes(built.name[0]); }

/**
 * The pieces with one of them at another moment and on another machine, where it takes the part of its time that it had.
 * @param {Piece[]} pieces
 * @param {number} at
 * @param {Fraction} from
 * @param {number} machine
 * @param {Built} built
 * @returns {Piece[]}
 */
export function moved(pieces, at, from, machine, built) {
  const piece = pieces[at], job = built.jobs.find(it => it.row.id === piece.row), begin = greatest(ZERO, from);
  const to = hasChoice(built) && machine >= 1 && machine <= built.machines ? machine : piece.machine;
  const [before, after] = job ? [timeOn(job, piece.op, piece.machine, built), timeOn(job, piece.op, to, built)] : [ZERO, ZERO];
  const length = before.n > 0n && after.n > 0n ? over(times(lengthOf(piece), after), before) : lengthOf(piece);
  return pieces.map((it, place) => place === at ? { ...it, machine: to, from: begin, to: plus(begin, length) } : it);
}

/**
 * The pieces with one of them in two halves.
 * @param {Piece[]} pieces
 * @param {number} at
 * @returns {Piece[]}
 */
export function split(pieces, at) {
  const piece = pieces[at], middle = over(plus(piece.from, piece.to), fraction(2));
  return [...pieces.slice(0, at), { ...piece, to: middle }, { ...piece, from: middle }, ...pieces.slice(at + 1)];
}

/**
 * Neighbours on one machine of one operation as one piece.
 * @param {Piece[]} pieces
 * @returns {Piece[]}
 */
export function joined(pieces) {
  /** @type {Piece[]} */
  const found = [];
  for (const it of [...pieces].sort((one, other) => one.machine - other.machine || compare(one.from, other.from))) {
    const last = found[found.length - 1], same = last && last.row === it.row && last.op === it.op && last.machine === it.machine;
    if (same && compare(last.to, it.from) === 0) found[found.length - 1] = { ...last, to: it.to };
    else found.push(it);
  }
  return found;
}

/**
 * The pieces, each as early as those before it on its machine and of its job allow, its release date, and the jobs for which it waits. Each
 * keeps its machine and its length, and none becomes later.
 * @param {Piece[]} pieces
 * @param {Built} built
 * @returns {Piece[]}
 */
export function early(pieces, built) {
  const jobs = new Map(built.jobs.map(it => [it.row.id, it.r])), machines = new Map();
  /** @type {Map<number, number[]>} */
  const before = new Map();
  for (const [first, then] of built.arcs) {
    const row = built.jobs[then].row.id;
    before.set(row, [...before.get(row) || [], built.jobs[first].row.id]);
  }
  const order = pieces.map((it, at) => ({ it, at })).sort((one, other) => compare(one.it.from, other.it.from) || compare(one.it.to, other.it.to));
  const found = pieces.slice();
  for (const { it, at } of order) {
    const waits = (before.get(it.row) || []).map(row => jobs.get(row) || ZERO);
    const from = greatest(machines.get(it.machine) || ZERO, jobs.get(it.row) || ZERO, ...waits), to = plus(from, minus(it.to, it.from));
    machines.set(it.machine, to);
    jobs.set(it.row, to);
    found[at] = { ...it, from, to };
  }
  return found;
}

/**
 * The moment of a place in the chart: an end or a begin of another piece, or a release date, that is near, else a whole one of the instance.
 * @param {number} moment in units of the list
 * @param {number} reach
 * @param {Piece[]} pieces
 * @param {number} at
 * @param {Built} built
 * @returns {Fraction}
 */
export function snapped(moment, reach, pieces, at, built) {
  const length = lengthOf(pieces[at]), own = built.jobs.filter(it => it.row.id === pieces[at].row).map(it => it.r);
  const others = pieces.filter((_, place) => place !== at).flatMap(it => [it.to, minus(it.from, length)]);
  let best = null, least = reach;
  for (const it of [ZERO, ...own, ...others]) {
    const far = Math.abs(Number(it.n) / Number(it.d) - moment);
    if (it.n >= 0n && far < least) [best, least] = [it, far];
  }
  const scale = Number(built.scale);
  return best || fraction(Math.max(0, Math.round(moment * scale)), built.scale);
}

// What two plans differ in: when jobs end, which are late, on which machine they run, which are there.
import { compare, minus } from '../fractions.js';
import { endsOf } from './schedule.js';

/** @typedef {import('../fractions.js').Fraction} Fraction */
/** @typedef {import('./instance.js').Built} Built */
/** @typedef {import('./instance.js').Job} Job */
/** @typedef {import('./instance.js').Problem} Problem */
/** @typedef {import('./schedule.js').Piece} Piece */
/** @typedef {{problem: Problem, built: Built, pieces: Piece[], machineName: (machine: number) => string}} Side a plan with its problem */
/**
 * What differs: rows of jobs of the plan now, and where they are gone, of the plan before.
 * @typedef {object} Difference
 * @property {{row: number, by: Fraction}[]} later those that end later, the latest first
 * @property {{row: number, by: Fraction}[]} earlier
 * @property {number} same how many end as before
 * @property {number[]} late those that are late now, and were not
 * @property {number[]} inTime those that were late, and are not
 * @property {{row: number, from: string, to: string}[]} moved those that run on other machines
 * @property {{row: number, end: Fraction}[]} come
 * @property {number[]} gone
 */

/**
 * Whether moments of two problems mean the same.
 * @param {Problem} one
 * @param {Problem} other
 */
export function countAlike(one, other) {
  const keys = /** @type {('unit' | 'start' | 'shifts' | 'holidays')[]} */ (['unit', 'start', 'shifts', 'holidays']);
  return keys.every(it => one[it].trim() === other[it].trim());
}

/**
 * Which job of one side each job of the other is: that of the same row and name, else that of the same name.
 * @param {Built} before
 * @param {Built} now
 * @returns {Map<Job, Job>} from those before to those now
 */
function pairs(before, now) {
  const found = new Map(), left = new Set(now.jobs), nameOf = (/** @type {Job} */ it) => it.row.name.trim();
  const take = (/** @type {Job} */ job, /** @type {(other: Job) => boolean} */ fits) => {
    const other = found.has(job) ? undefined : [...left].find(fits);
    if (!other) return;
    found.set(job, other);
    left.delete(other);
  };
  for (const job of before.jobs) take(job, it => it.row.id === job.row.id && nameOf(it) === nameOf(job));
  for (const job of before.jobs) if (nameOf(job)) take(job, it => nameOf(it) === nameOf(job));
  return found;
}

/**
 * The machines on which a job runs, in words.
 * @param {Side} side
 * @param {number} row
 */
function machinesOf({ pieces, machineName }, row) {
  const those = new Set(pieces.filter(it => it.row === row).map(it => it.machine));
  return [...those].sort((one, other) => one - other).map(machineName).join(' + ');
}

/**
 * @param {Job} job
 * @param {Fraction} end
 */
function isLate({ d }, end) { return d !== null && compare(end, d) > 0; }

/**
 * @param {Difference} found
 * @param {number} row
 * @param {Fraction} was
 * @param {Fraction} end
 */
function noteEnds(found, row, was, end) {
  const far = compare(end, was);
  if (far > 0) found.later.push({ row, by: minus(end, was) });
  else if (far < 0) found.earlier.push({ row, by: minus(was, end) });
  else found.same++;
}

/**
 * What differs between a plan before and one now.
 * @param {Side} before
 * @param {Side} now
 * @returns {Difference}
 */
export function differenceOf(before, now) {
  const both = pairs(before.built, now.built), ends = [endsOf(before.pieces), endsOf(now.pieces)], those = new Set(both.values());
  /** @type {Difference} */
  const found = { later: [], earlier: [], same: 0, late: [], inTime: [], moved: [], come: [], gone: [] };
  for (const [old, job] of both) {
    const { id } = job.row, was = ends[0].get(old.row.id), end = ends[1].get(id), [from, to] = [machinesOf(before, old.row.id), machinesOf(now, id)];
    if (!was || !end) continue;
    noteEnds(found, id, was, end);
    if (isLate(job, end) !== isLate(old, was)) (isLate(job, end) ? found.late : found.inTime).push(id);
    if (from !== to) found.moved.push({ row: id, from, to });
  }
  for (const { row } of now.built.jobs.filter(it => !those.has(it))) {
    const end = ends[1].get(row.id);
    if (end) found.come.push({ row: row.id, end });
  }
  found.gone = before.built.jobs.filter(it => !both.has(it)).map(it => it.row.id);
  for (const list of [found.later, found.earlier]) list.sort((one, other) => compare(other.by, one.by));
  return found;
}

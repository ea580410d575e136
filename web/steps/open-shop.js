// Gonzalez and Sahni: open shops of two machines.
import { compare, greatest, plus, ZERO } from '../fractions.js';
import { allOf, count, timeOf } from './jobs.js';
import { listed, said, Telling } from './telling.js';

/** @typedef {import('./types.js').Instance} Instance */
/** @typedef {import('./types.js').Piece} Piece */

/** Which job turns round, on which machine the others begin, and in which order.
 * @typedef {{turns: number, near: number, order: number[]}} Plan */

/**
 * The group of a job: 1 where it takes no longer on machine 1 than on machine 2.
 * @param {Instance} instance
 * @param {number} job
 */
function groupOf(instance, job) { return compare(timeOf(instance, job, 1), timeOf(instance, job, 2)) <= 0 ? 1 : 2; }

/**
 * The lesser time of a job: on the machine of its group.
 * @param {Instance} instance
 * @param {number} job
 */
function lesser(instance, job) { return timeOf(instance, job, groupOf(instance, job)); }

/**
 * @param {Instance} instance
 * @returns {Plan}
 */
function planOf(instance) {
  const jobs = allOf(instance), turns = jobs.reduce((best, it) => compare(lesser(instance, it), lesser(instance, best)) > 0 ? it : best);
  const near = groupOf(instance, turns), others = jobs.filter(it => it !== turns);
  const isNear = (/** @type {number} */ it) => groupOf(instance, it) === near;
  return { turns, near, order: [...others.filter(isNear), ...others.filter(it => !isNear(it))] };
}

/**
 * The pieces of a plan: the others on the near machine first, in their order; the one that turns round on the far one first.
 * @param {Instance} instance
 * @param {Plan} plan
 * @returns {Piece[]}
 */
function timed(instance, { turns, near, order }) {
  const far = 3 - near, ends = instance.jobs.map(() => ZERO), free = [ZERO, ZERO, ZERO];
  /** @type {Piece[]} */
  const pieces = [];
  const put = (/** @type {number} */ job, /** @type {number} */ machine) => {
    const from = greatest(free[machine], ends[job]), to = plus(from, timeOf(instance, job, machine));
    free[machine] = ends[job] = to;
    pieces.push({ job, op: machine, machine, from, to });
  };
  put(turns, far);
  for (const job of order) put(job, near);
  for (const job of order) put(job, far);
  put(turns, near);
  return pieces.filter(it => compare(it.from, it.to) < 0).sort((one, other) => compare(one.from, other.from) || one.machine - other.machine);
}

/**
 * @param {Instance} instance
 * @returns {import('./types.js').Step[]}
 */
export function steps(instance) {
  const telling = new Telling(said('job'), said('timeOn', { machine: 1 }), said('timeOn', { machine: 2 }), said('lesser'), said('group'));
  for (const job of allOf(instance)) {
    const group = groupOf(instance, job);
    telling.row({ job }, timeOf(instance, job, 1), timeOf(instance, job, 2), lesser(instance, job), count(group));
    telling.last(said(`open group ${group}`, { job }), 4);
  }
  const plan = planOf(instance), { turns, near, order } = plan, far = 3 - near;
  telling.tell(said('open turns', { job: turns }, lesser(instance, turns), { machine: far }, { machine: near }),
    { row: turns, column: -1, kind: 'now' }, { row: turns, column: 3, kind: 'chosen' });
  telling.table(said('machine'), said('job'), said('from'), said('to'));
  telling.tell(said('open near', { machine: near }, listed([...order, turns])));
  telling.tell(said('open near', { machine: far }, listed([turns, ...order])));
  for (const piece of timed(instance, plan)) {
    const { job, machine, from, to } = piece;
    telling.row({ machine }, { job }, from, to);
    telling.put(piece);
    telling.last(said('runs on', { job }, { machine }, from, to));
  }
  return telling.steps;
}

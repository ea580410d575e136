// Jackson: two machines, each job on one of them, or on both in its own order.
import { compare, greatest, plus, ZERO } from '../fractions.js';
import { allOf } from './jobs.js';
import { groupsOf } from './johnson.js';
import { listed, said, Telling } from './telling.js';

/** @typedef {import('./types.js').Instance} Instance */
/** @typedef {import('./types.js').Piece} Piece */
/** @typedef {import('../fractions.js').Fraction} Fraction */

/**
 * The route of a job as a word: its machines.
 * @param {Instance} instance
 * @param {number} job
 */
function wayOf(instance, job) { return instance.jobs[job].route.map(it => it[0]).join(''); }

/**
 * The time of an operation.
 * @param {Instance} instance
 * @param {number} job
 * @param {number} op from 1
 */
function timeOfOp(instance, job, op) {
  return /p=[1p]/.test(instance.name) ? instance.shared : instance.jobs[job].route[op - 1][1];
}

/**
 * The jobs of a way from one machine to the other, by Johnson's rule.
 * @param {Instance} instance
 * @param {string} way
 */
function inJohnson(instance, way) {
  const jobs = allOf(instance).filter(it => wayOf(instance, it) === way);
  return groupsOf(jobs, it => timeOfOp(instance, it, 1), it => timeOfOp(instance, it, 2)).flat();
}

/**
 * The pieces of two orders, each operation as early as it can be: those that come first of their job, and then those that wait for one.
 * @param {Instance} instance
 * @param {number[][]} orders
 * @returns {Piece[]}
 */
function timed(instance, orders) {
  const ends = instance.jobs.map(() => ZERO), free = [ZERO, ZERO];
  /** @type {Piece[]} */
  const pieces = [];
  for (const round of [1, 2]) {
    orders.forEach((order, machine) => order.forEach(job => {
      const op = wayOf(instance, job).indexOf(String(machine + 1)) + 1;
      if (op !== round) return;
      const from = greatest(free[machine], ends[job]), to = plus(from, timeOfOp(instance, job, op));
      free[machine] = ends[job] = to;
      pieces.push({ job, op, machine: machine + 1, from, to });
    }));
  }
  return pieces.sort((one, other) => compare(one.from, other.from) || one.machine - other.machine);
}

/**
 * @param {Telling} telling
 * @param {Instance} instance
 */
function tellWays(telling, instance) {
  for (const job of allOf(instance)) {
    const route = instance.jobs[job].route, way = wayOf(instance, job);
    telling.row({ job }, ...[1, 2].map(op => route[op - 1] ? said('onFor', { machine: route[op - 1][0] }, timeOfOp(instance, job, op)) : null),
      said(`way ${way}`));
    telling.last(said('jackson sorts', { job }, said(`way ${way}`)), 3);
  }
}

/**
 * @param {Instance} instance
 * @returns {import('./types.js').Step[]}
 */
export function steps(instance) {
  const telling = new Telling(said('job'), said('operation', { n: 1n, d: 1n }), said('operation', { n: 2n, d: 1n }), said('way'));
  tellWays(telling, instance);
  const alone = (/** @type {string} */ way) => allOf(instance).filter(it => wayOf(instance, it) === way);
  const there = inJohnson(instance, '12'), back = inJohnson(instance, '21');
  const orders = [[...there, ...alone('1'), ...back], [...back, ...alone('2'), ...there]];
  telling.tell(said('jackson way', said('way 12'), listed(there)));
  telling.tell(said('jackson way', said('way 21'), listed(back)));
  telling.table(said('machine'), said('job'), said('from'), said('to'));
  telling.tell(said('jackson order', { machine: 1 }, listed(orders[0])));
  telling.tell(said('jackson order', { machine: 2 }, listed(orders[1])));
  for (const piece of timed(instance, orders)) {
    const { job, machine, from, to } = piece;
    telling.row({ machine }, { job }, from, to);
    telling.put(piece);
    telling.last(said('runs on', { job }, { machine }, from, to));
  }
  return telling.steps;
}

// What rules ask of jobs: times, costs, neighbours, orders.
import { compare, fraction, minus, plus, times, ZERO } from '../fractions.js';

/** @typedef {import('./types.js').Instance} Instance */
/** @typedef {import('./types.js').Piece} Piece */
/** @typedef {import('../fractions.js').Fraction} Fraction */

/**
 * The time of a job, on a machine where each machine has its own.
 * @param {Instance} instance
 * @param {number} job
 * @param {number} [machine] from 1
 */
export function timeOf(instance, job, machine = 1) {
  return /p=[1p]/.test(instance.name) ? instance.shared : instance.jobs[job].p[machine - 1] || ZERO;
}

/**
 * The times of all these jobs together.
 * @param {Instance} instance
 * @param {number[]} jobs
 */
export function workOf(instance, jobs) { return jobs.reduce((sum, it) => plus(sum, timeOf(instance, it)), ZERO); }

/**
 * The due date of a job.
 * @param {Instance} instance
 * @param {number} job
 */
export function dueOf(instance, job) { return instance.jobs[job].d || ZERO; }

/**
 * What Lawler's rule compares of a job that ends at a moment: its lateness, or its cost by its curve.
 * @param {Instance} instance
 * @param {number} job
 * @param {Fraction} end
 */
export function costAt(instance, job, end) {
  if (!instance.name.endsWith('fmax')) return minus(end, dueOf(instance, job));
  const [slope, base, ...steps] = instance.jobs[job].curve;
  let cost = plus(times(slope, end), base);
  for (let at = 0; at + 1 < steps.length; at += 2) if (compare(end, steps[at]) > 0) cost = plus(cost, steps[at + 1]);
  return cost;
}

/**
 * The places of all jobs.
 * @param {Instance} instance
 */
export function allOf(instance) { return instance.jobs.map((_, at) => at); }

/**
 * Jobs by a rising value; equal ones stay as they are.
 * @param {number[]} jobs
 * @param {(job: number) => Fraction} value
 */
export function rising(jobs, value) { return jobs.slice().sort((one, other) => compare(value(one), value(other))); }

/**
 * Jobs by a falling value; equal ones stay as they are.
 * @param {number[]} jobs
 * @param {(job: number) => Fraction} value
 */
export function falling(jobs, value) { return jobs.slice().sort((one, other) => compare(value(other), value(one))); }

/**
 * The first job of the least value; -1 where there are no jobs.
 * @param {number[]} jobs
 * @param {(job: number) => Fraction} value
 */
export function least(jobs, value) {
  return jobs.length ? jobs.reduce((best, it) => compare(value(it), value(best)) < 0 ? it : best) : -1;
}

/**
 * For each job those for which it waits.
 * @param {Instance} instance
 */
export function beforeOf(instance) { return sides(instance, 1); }

/**
 * For each job those that wait for it.
 * @param {Instance} instance
 */
export function afterOf(instance) { return sides(instance, 0); }

/**
 * @param {Instance} instance
 * @param {0 | 1} side
 */
function sides(instance, side) {
  /** @type {number[][]} */
  const found = instance.jobs.map(() => []);
  for (const arc of instance.arcs) found[arc[side]].push(arc[1 - side]);
  return found;
}

/**
 * The pieces of jobs one behind another on one machine.
 * @param {Instance} instance
 * @param {number[]} order
 * @param {Fraction} [begin]
 * @returns {Piece[]}
 */
export function inLine(instance, order, begin = ZERO) {
  let now = begin;
  return order.map(job => {
    const from = now;
    now = plus(now, timeOf(instance, job));
    return { job, op: 1, machine: 1, from, to: now };
  });
}

/** @param {number} it a place, a level or another count */
export function count(it) { return fraction(it); }

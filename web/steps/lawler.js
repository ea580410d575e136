// Lawler: the least greatest cost, from the last place on.
import { minus, plus } from '../fractions.js';
import { afterOf, allOf, costAt, count, least, timeOf, workOf } from './jobs.js';
import { said, Telling, valued } from './telling.js';

/** @typedef {import('./types.js').Instance} Instance */

/**
 * @param {Instance} instance
 * @returns {import('./types.js').Step[]}
 */
export function steps(instance) {
  const compared = instance.name.endsWith('Lmax') ? 'lateness' : 'costs', after = afterOf(instance);
  const telling = new Telling(said('place'), said('ends'), said('mayStand', said(compared)), said('chosen'));
  let rest = allOf(instance), end = workOf(instance, rest);
  while (rest.length) {
    const there = new Set(rest), candidates = rest.filter(it => !after[it].some(other => there.has(other)));
    const moment = end, cost = (/** @type {number} */ it) => costAt(instance, it, moment), job = least(candidates, cost);
    if (job < 0) break;
    const begin = minus(end, timeOf(instance, job));
    telling.row(count(rest.length), end, valued(candidates, cost), { job });
    telling.pieces = [{ job, op: 1, machine: 1, from: begin, to: plus(begin, timeOf(instance, job)) }, ...telling.pieces];
    telling.last(said('lawler takes', count(rest.length), end, { job }, cost(job)), 3);
    rest = rest.filter(it => it !== job);
    end = begin;
  }
  return telling.steps;
}

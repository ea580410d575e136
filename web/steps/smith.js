// Smith: the sum of the ends, each with its weight, is least by rising ratios of time to weight.
import { over, times, ZERO } from '../fractions.js';
import { allOf, count, inLine, rising, timeOf } from './jobs.js';
import { said, Telling } from './telling.js';

/** @typedef {import('./types.js').Instance} Instance */

/**
 * Without weights the time decides.
 * @param {Instance} instance
 * @returns {import('./types.js').Step[]}
 */
export function steps(instance) {
  const weighted = instance.name.endsWith('sumwC'), weight = (/** @type {number} */ job) => instance.jobs[job].w;
  const ratio = (/** @type {number} */ job) => weighted ? over(timeOf(instance, job), weight(job)) : timeOf(instance, job);
  const middle = weighted ? [said('weight'), said('ratio')] : [], telling = new Telling(said('place'), said('job'), said('time'), ...middle,
    said('ends'), ...weighted ? [said('weightedEnd')] : []);
  const order = rising(allOf(instance), ratio), pieces = inLine(instance, order);
  order.forEach((job, at) => {
    const end = pieces[at].to, time = timeOf(instance, job);
    if (weighted) telling.row(count(at + 1), { job }, time, weight(job), ratio(job), end, times(weight(job), end));
    else telling.row(count(at + 1), { job }, time, end);
    telling.put(pieces[at]);
    telling.last(said(weighted ? 'smith takes' : 'shortest takes', count(at + 1), { job }, ratio(job) || ZERO), weighted ? 4 : 2);
  });
  return telling.steps;
}

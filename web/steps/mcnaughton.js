// McNaughton: identical machines, jobs that may be cut: one machine after another is filled up to the bound.
import { compare, fraction, greatest, minus, over, plus, ZERO } from '../fractions.js';
import { allOf, timeOf, workOf } from './jobs.js';
import { said, Telling } from './telling.js';

/** @typedef {import('./types.js').Instance} Instance */

/**
 * @param {Instance} instance
 * @returns {import('./types.js').Step[]}
 */
export function steps(instance) {
  const jobs = allOf(instance), work = workOf(instance, jobs), share = over(work, fraction(instance.machines));
  const longest = greatest(ZERO, ...jobs.map(it => timeOf(instance, it))), bound = greatest(share, longest);
  const telling = new Telling(said('machine'), said('job'), said('from'), said('to'), said('cut'));
  telling.tell(said('wrap bound', longest, work, share, bound));
  let machine = 1, now = ZERO;
  for (const job of jobs) {
    for (let rest = timeOf(instance, job); rest.n > 0n;) {
      const end = compare(plus(now, rest), bound) > 0 ? bound : plus(now, rest), from = now, on = machine;
      rest = minus(rest, minus(end, from));
      telling.row({ machine: on }, { job }, from, end, rest.n > 0n ? said('left', rest, { machine: on + 1 }) : null);
      telling.put({ job, op: 1, machine: on, from, to: end });
      if (rest.n > 0n) telling.last(said('wrap cuts', { job }, bound, rest, { machine: on + 1 }), 4, 'dropped');
      else telling.last(said('wrap puts', { job }, { machine: on }, from, end));
      [machine, now] = compare(end, bound) < 0 ? [on, end] : [on + 1, ZERO];
    }
  }
  return telling.steps;
}

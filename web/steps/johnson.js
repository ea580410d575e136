// Johnson: two machines, all jobs on the first and then on the second.
import { compare, greatest, plus, ZERO } from '../fractions.js';
import { allOf, count, falling, rising, timeOf } from './jobs.js';
import { listed, said, Telling } from './telling.js';

/** @typedef {import('./types.js').Instance} Instance */
/** @typedef {import('../fractions.js').Fraction} Fraction */

/**
 * The two groups: jobs that take no longer at first than at last, by rising first times; then the others, by falling last times.
 * @param {number[]} jobs
 * @param {(job: number) => Fraction} first
 * @param {(job: number) => Fraction} last
 * @returns {[number[], number[]]}
 */
export function groupsOf(jobs, first, last) {
  const isFirst = (/** @type {number} */ it) => compare(first(it), last(it)) <= 0;
  return [rising(jobs.filter(isFirst), first), falling(jobs.filter(it => !isFirst(it)), last)];
}

/**
 * @param {Instance} instance
 * @returns {import('./types.js').Step[]}
 */
export function steps(instance) {
  const first = (/** @type {number} */ it) => timeOf(instance, it, 1), last = (/** @type {number} */ it) => timeOf(instance, it, 2);
  const groups = groupsOf(allOf(instance), first, last);
  const telling = new Telling(said('place'), said('job'), said('timeOn', { machine: 1 }), said('timeOn', { machine: 2 }), said('group'));
  telling.tell(said('johnson one', listed(groups[0])));
  telling.tell(said('johnson two', listed(groups[1])));
  let [one, two] = [ZERO, ZERO];
  groups.flat().forEach((job, at) => {
    const group = at < groups[0].length ? 1 : 2, begin = greatest(plus(one, first(job)), two);
    telling.row(count(at + 1), { job }, first(job), last(job), count(group));
    const ends = [plus(one, first(job)), plus(begin, last(job))];
    telling.put({ job, op: 1, machine: 1, from: one, to: ends[0] }, { job, op: 2, machine: 2, from: begin, to: ends[1] });
    [one, two] = ends;
    telling.last(said(`johnson takes ${group}`, count(at + 1), { job }), group + 1);
  });
  return telling.steps;
}

// Moore and Hodgson: the fewest late jobs, by due dates; where one ends late, the longest so far is dropped.
import { compare } from '../fractions.js';
import { allOf, dueOf, inLine, rising, timeOf, workOf } from './jobs.js';
import { listed, said, Telling } from './telling.js';

/** @typedef {import('./types.js').Instance} Instance */

/**
 * @param {Instance} instance
 * @returns {import('./types.js').Step[]}
 */
export function steps(instance) {
  const telling = new Telling(said('taken'), said('due'), said('ends'), said('onTime'), said('dropped'), said('kept'));
  /** @type {number[]} */
  let kept = [];
  /** @type {number[]} */
  const late = [];
  for (const job of rising(allOf(instance), it => dueOf(instance, it))) {
    kept = [...kept, job];
    const end = workOf(instance, kept), due = dueOf(instance, job), isLate = compare(end, due) > 0;
    const dropped = isLate ? kept.reduce((most, it) => compare(timeOf(instance, it), timeOf(instance, most)) > 0 ? it : most) : -1;
    if (isLate) {
      kept = kept.filter(it => it !== dropped);
      late.push(dropped);
    }
    telling.row({ job }, due, end, said(isLate ? 'no' : 'yes'), isLate ? { job: dropped } : null, listed(kept));
    telling.pieces = inLine(instance, kept);
    if (isLate) telling.last(said('moore drops', { job }, end, due, { job: dropped }), 4, 'dropped');
    else telling.last(said('moore keeps', { job }, end, due), 3);
  }
  telling.pieces = inLine(instance, [...kept, ...late]);
  telling.tell(said(late.length ? 'moore ends' : 'moore all', listed(kept), listed(late)));
  return telling.steps;
}

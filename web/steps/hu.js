// Hu: jobs of one unit of time in trees, on identical machines: the greatest levels first.
import { afterOf, allOf, count } from './jobs.js';
import { tellSlots } from './slots.js';
import { listed, said, Telling } from './telling.js';

/** @typedef {import('./types.js').Instance} Instance */

/**
 * The level of each job: how many jobs are on the longest path from it to an end, itself included.
 * @param {Instance} instance
 * @returns {number[]}
 */
export function levelsOf(instance) {
  const after = afterOf(instance), levels = after.map(() => 0);
  for (let level = 1, rest = allOf(instance); rest.length; level++) {
    const those = rest.filter(it => after[it].every(other => levels[other] > 0 && levels[other] < level));
    if (!those.length) break;
    for (const it of those) levels[it] = level;
    rest = rest.filter(it => !levels[it]);
  }
  return levels;
}

/**
 * @param {Instance} instance
 * @returns {import('./types.js').Step[]}
 */
export function steps(instance) {
  const levels = levelsOf(instance), telling = new Telling(said('level'), said('jobs')), most = Math.max(...levels);
  for (let level = 1; level <= most; level++) {
    const those = listed(allOf(instance).filter(it => levels[it] === level));
    telling.above(count(level), those);
    telling.tell(said(level === 1 ? 'levels begin' : 'levels go', those, count(level)), { row: 0, column: -1, kind: 'now' });
  }
  tellSlots(telling, instance, levels, 'levels');
  return telling.steps;
}

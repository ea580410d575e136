// Jobs of one unit of time on identical machines: in each unit the free jobs of the greatest ranks.
import { beforeOf, count, falling } from './jobs.js';
import { listed, said, valued } from './telling.js';

/** @typedef {import('./types.js').Instance} Instance */

/**
 * Tells slot by slot which jobs run.
 * @param {import('./telling.js').Telling} telling
 * @param {Instance} instance
 * @param {number[]} ranks
 * @param {string} key of the words for ranks
 */
export function tellSlots(telling, instance, ranks, key) {
  const before = beforeOf(instance), done = new Set(), rank = (/** @type {number} */ job) => count(ranks[job]);
  telling.table(said('from'), said('to'), said('free', said(key)), said('run'));
  for (let now = 0; done.size < instance.jobs.length; now++) {
    const open = instance.jobs.map((_, job) => job).filter(it => !done.has(it) && before[it].every(other => done.has(other)));
    const free = falling(open, rank), running = free.slice(0, instance.machines);
    if (!running.length) break;
    telling.row(count(now), count(now + 1), valued(free, rank), listed(running));
    telling.put(...running.map((job, at) => ({ job, op: 1, machine: at + 1, from: count(now), to: count(now + 1) })));
    telling.last(said(free.length > running.length ? `${key} chooses` : 'slot takes', count(now), listed(running)), 3);
    for (const it of running) done.add(it);
  }
}

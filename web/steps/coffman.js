// Coffman and Graham: jobs of one unit of time on two machines, any precedence: labels by the labels of the successors.
import { afterOf, allOf, count } from './jobs.js';
import { tellSlots } from './slots.js';
import { said, Telling, valued } from './telling.js';

/** @typedef {import('./types.js').Instance} Instance */

/**
 * For each job those that wait for it directly: no arc that a path makes needless.
 * @param {Instance} instance
 */
function directOf(instance) {
  const after = afterOf(instance), reached = after.map(() => /** @type {Set<number> | null} */ (null));
  const reach = (/** @type {number} */ job) => {
    const known = reached[job];
    if (known) return known;
    /** @type {Set<number>} */
    const found = new Set();
    reached[job] = found;
    for (const it of after[job]) for (const far of [it, ...reach(it)]) found.add(far);
    return found;
  };
  return after.map(those => those.filter(it => !those.some(other => other !== it && reach(other).has(it))));
}

/**
 * Below 0 where a list comes before another as words do in a dictionary.
 * @param {number[]} one
 * @param {number[]} other
 */
function inWords(one, other) {
  const at = one.findIndex((it, place) => it !== other[place]);
  return at < 0 || at >= other.length ? one.length - other.length : one[at] - other[at];
}

/**
 * @param {Instance} instance
 * @returns {import('./types.js').Step[]}
 */
export function steps(instance) {
  const after = directOf(instance), labels = after.map(() => 0), telling = new Telling(said('label'), said('job'), said('successorLabels'));
  const list = (/** @type {number} */ job) => after[job].map(it => labels[it]).sort((one, other) => other - one);
  for (let label = 1; label <= labels.length; label++) {
    const ready = allOf(instance).filter(it => !labels[it] && after[it].every(other => labels[other]));
    if (!ready.length) break;
    const job = ready.reduce((best, it) => inWords(list(it), list(best)) < 0 ? it : best), behind = after[job].slice();
    behind.sort((one, other) => labels[other] - labels[one]);
    telling.row(count(label), { job }, valued(behind, it => count(labels[it])));
    telling.last(said(behind.length ? 'label behind' : 'label none', { job }, count(label)), 0);
    labels[job] = label;
  }
  tellSlots(telling, instance, labels, 'labels');
  return telling.steps;
}

// What is searched where something runs: all but that, with when machines and jobs are free of it; companions/msp_tools/replanning.py has the same.
import { hasSpeeds, kindOf } from './columns.js';
import { compare, fraction, over, plus, ZERO } from '../fractions.js';
import { operations } from './loosening.js';
import { timedOf } from './plain.js';

/** @typedef {import('../fractions.js').Fraction} Fraction */
/** @typedef {import('./leftover.js').Leftover} Leftover */
/** @typedef {import('./leftover.js').Running} Running */
/** @typedef {import('./leftover.js').Span} Span */
/** @typedef {import('./plain.js').Plain} Plain */
/** @typedef {import('./plain.js').PlainJob} PlainJob */
/** @typedef {import('./plain.js').Timed} Timed */
/** @typedef {import('./timing.js').Next} Next */
/** @typedef {import('./timing.js').Placed} Placed */
/**
 * What is searched: its instance for timing, or null where its numbers are too great; the places of its jobs in the whole; by how many
 * operations their routes are shorter; the pieces of what runs, and the old order of the rest. Moments are those of the instance.
 * @typedef {{timed: Timed | null, places: number[], shorter: number[], running: Span[], order: Next[]}} Rest
 */

/**
 * A job with its times told one by one, also where all share one.
 * @param {PlainJob} job
 * @param {Plain} plain
 * @returns {PlainJob}
 */
function general(job, plain) {
  const { parts, machines, shared } = plain, kind = kindOf(parts);
  if (!parts.times) return job;
  if (kind === 'J') return { ...job, route: operations(job, plain) };
  return { ...job, p: '1PQ'.includes(kind) ? [shared] : Array.from({ length: machines }, () => shared) };
}

/**
 * A job of a shop without the operation that runs.
 * @param {PlainJob} job
 * @param {Running} running
 * @param {boolean} routed
 * @returns {PlainJob}
 */
function without(job, { number }, routed) {
  return routed ? { ...job, route: job.route.slice(1) } : { ...job, p: job.p.map((time, at) => at === number - 1 ? 0n : time) };
}

/**
 * What is searched of what is left.
 * @param {Leftover} left
 * @returns {Rest}
 */
export function restOf({ plain, origin, running, order }) {
  const { parts, machines, speeds } = plain, kind = kindOf(parts), routed = kind === 'J', base = parts.release ? fraction(origin) : ZERO;
  const ends = running.map(it => plus(base, over(fraction(it.left), fraction(hasSpeeds(parts) ? speeds[it.machine] : 1n))));
  const begins = Array.from({ length: machines }, (_, at) => ends[running.findIndex(it => it.machine === at)] || base);
  const of = (/** @type {number} */ job) => running.findIndex(it => it.job === job);
  const jobs = plain.jobs.map((it, at) => of(at) < 0 ? general(it, plain) : without(general(it, plain), running[of(at)], routed));
  const isOver = (/** @type {PlainJob} */ it) => !'OFJ'.includes(kind) || ![...it.p, ...it.route.map(step => step[1])].some(Boolean);
  const ended = (/** @type {number} */ job) => of(job) >= 0 && isOver(jobs[job]);
  const places = jobs.map((_, at) => at).filter(at => !ended(at)), to = new Map(places.map((it, at) => [it, at]));
  const place = (/** @type {number} */ it) => to.get(it) || 0;
  /** @type {Map<number, Fraction>} */
  const later = new Map();
  const wait = (/** @type {number} */ job, /** @type {Fraction} */ end) => {
    const before = later.get(place(job));
    if (to.has(job) && (!before || compare(before, end) < 0)) later.set(place(job), end);
  };
  running.forEach(({ job }, at) => {
    if (to.has(job)) wait(job, ends[at]);
    else for (const [one, other] of plain.arcs) if (one === job) wait(other, ends[at]);
  });
  const arcs = plain.arcs.filter(it => it.every(job => to.has(job))).map(it => /** @type {[number, number]} */ (it.map(place)));
  const shorter = places.map(it => Number(routed && of(it) >= 0));
  const rest = { ...plain, parts: { ...parts, times: '' }, jobs: places.map(it => jobs[it]), arcs };
  return { timed: timedOf(rest, { begins, later }), places, shorter,
    running: running.map((it, at) => ({ job: it.job, number: 'OF'.includes(kind) ? it.number : 1, machine: it.machine, start: base, end: ends[at] })),
    order: order.map(it => ({ ...it, job: place(it.job), number: it.number - shorter[place(it.job)] })) };
}

/**
 * The whole plan: what runs, and what was searched.
 * @param {Rest} rest
 * @param {Placed[]} placed
 * @returns {Span[]}
 */
export function whole({ timed, places, shorter, running }, placed) {
  const parts = timed ? timed.parts : 1;
  return [...running, ...placed.map(({ job, number, machine, start, end }) => ({ job: places[job], number: number + shorter[job], machine,
    start: fraction(start, parts), end: fraction(end, parts) }))];
}

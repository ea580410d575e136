// An instance in whole numbers, as rules, search and bounds see it, and its text. Jobs, machines and places count from 0.
import { fixedMachines, hasDue, hasSpeeds, hasWeight, kindOf } from './columns.js';
import { fraction, gcd, greatest, lcm, times } from '../fractions.js';
import { nameOf } from '../names.js';

/** @typedef {import('../names.js').Parts} Parts */
/** @typedef {import('./instance.js').Built} Built */
/** @typedef {import('../fractions.js').Fraction} Fraction */
/**
 * A job: `p` has its time (on one, identical and uniform machines), or those on each machine; a route has machines and times.
 * @typedef {{name: string, r: bigint, d: bigint, w: bigint, p: bigint[], route: [number, bigint][], curve: bigint[]}} PlainJob
 */
/**
 * @typedef {object} Plain
 * @property {Parts} parts
 * @property {number} machines
 * @property {bigint[]} speeds
 * @property {bigint} shared
 * @property {PlainJob[]} jobs
 * @property {[number, number][]} arcs
 */

/**
 * The instance of a list that was read, in the numbers of its text.
 * @param {Built} built
 * @param {Parts} parts
 * @returns {Plain}
 */
export function plainOf(built, parts) {
  const whole = (/** @type {Fraction} */ value, /** @type {bigint} */ scale) => times(value, fraction(scale)).n, { scale, weights } = built;
  const step = (/** @type {[number, Fraction]} */ [machine, time]) => /** @type {[number, bigint]} */ ([machine - 1, whole(time, scale)]);
  const jobs = built.jobs.map(it => ({ name: it.name, r: whole(it.r, scale), d: it.d ? whole(it.d, scale) : 0n,
    w: hasWeight(parts) ? whole(it.w, weights) : 1n, p: it.p.map(time => whole(time, scale)), route: it.route.map(step),
    curve: it.curve.map((value, at) => at ? whole(value, scale) : value.n) }));
  return { parts, machines: built.machines, speeds: built.speeds, shared: whole(built.shared, scale), jobs, arcs: built.arcs };
}

/**
 * The lines of a job.
 * @param {PlainJob} job
 * @param {Parts} parts
 */
function jobLines(job, parts) {
  const kind = kindOf(parts), general = !parts.times;
  const fields = [general && '1PQ'.includes(kind) ? `p=${job.p[0]}` : '', parts.release ? `r=${job.r}` : '', hasDue(parts) ? `d=${job.d}` : '',
    hasWeight(parts) ? `w=${job.w}` : ''].filter(Boolean);
  const lines = [['job', job.name, ...fields].join(' ')];
  if (general && 'ROF'.includes(kind)) lines.push(`times ${job.p.join(' ')}`);
  if (kind === 'J') lines.push(`route ${job.route.map(([machine, time]) => general ? `${machine + 1} ${time}` : machine + 1).join(' ')}`);
  if (parts.criterion === 'fmax') lines.push(`curve ${job.curve.join(' ')}`);
  return lines;
}

/**
 * The text of an instance.
 * @param {Plain} plain
 */
export function plainText({ parts, machines, speeds, shared, jobs, arcs }) {
  return ['msp 1', `class ${nameOf(parts)}`, ...(fixedMachines(parts) ? [] : [`machines ${machines}`]),
    ...(hasSpeeds(parts) ? [`speeds ${speeds.join(' ')}`] : []), ...(parts.times === 'p=p' ? [`time ${shared}`] : []),
    ...jobs.flatMap(it => jobLines(it, parts)), ...(parts.order ? arcs.map(([one, other]) => `arc ${jobs[one].name} ${jobs[other].name}`) : []),
    'end', ''].join('\n');
}

// For timing

/** @typedef {{number: number, machine: number, time: number}} Step an operation of a shop's job: its number from 1, its machine, its time */
/**
 * What timing needs, in parts of the instance's unit so small that all times are whole.
 * @typedef {object} Timed
 * @property {number} parts
 * @property {number} machines
 * @property {boolean} shop
 * @property {boolean} open
 * @property {boolean} alike
 * @property {string} criterion
 * @property {number[][]} times of each job on each machine, but in shops
 * @property {Step[][]} steps
 * @property {number[]} begins when each machine is free first
 * @property {number[]} release
 * @property {number[]} due
 * @property {number[]} weight
 * @property {number[][]} curve
 * @property {number[][]} before
 * @property {number[][]} after
 */

/**
 * Into how many parts a unit is divided.
 * @param {Plain} plain
 */
function partsOf({ parts, speeds, jobs, shared }) {
  if (kindOf(parts) !== 'Q') return 1n;
  const works = new Set(parts.times ? [shared] : jobs.map(it => it.p[0])), needed = [...works].flatMap(work => speeds.map(it => it / gcd(it, work)));
  return needed.reduce((all, it) => all / gcd(all, it) * it, 1n);
}

/**
 * The operations of a job of a shop that have work, with their times in parts.
 * @param {PlainJob} job
 * @param {Plain} plain
 * @param {bigint} factor
 * @returns {Step[]}
 */
function stepsOf(job, { parts, machines, shared }, factor) {
  const route = kindOf(parts) === 'J' ? job.route.map(([machine, time]) => /** @type {[number, bigint]} */ ([machine, parts.times ? shared : time]))
    : Array.from({ length: machines }, (_, at) => /** @type {[number, bigint]} */ ([at, parts.times ? shared : job.p[at]]));
  return route.map(([machine, time], at) => ({ number: at + 1, machine, time: Number(time * factor) })).filter(it => it.time > 0);
}

/**
 * The time of a job on a machine, in parts.
 * @param {PlainJob} job
 * @param {number} machine
 * @param {Plain} plain
 * @param {bigint} factor
 */
function timeOn(job, machine, { parts, speeds, shared }, factor) {
  const work = parts.times ? shared : job.p[kindOf(parts) === 'R' ? machine : 0];
  return Number(work * factor / (speeds[machine] || 1n));
}

/**
 * When machines are free first, where some are not from the beginning, and when jobs may begin that may not at their release dates.
 * @typedef {{begins: Fraction[], later: Map<number, Fraction>}} Held
 */

/**
 * An instance for timing; null where its numbers are so great that they are not exact here.
 * @param {Plain} plain
 * @param {Held} held
 * @returns {Timed | null}
 */
export function timedOf(plain, held = { begins: [], later: new Map() }) {
  const { parts, jobs, machines, arcs } = plain, kind = kindOf(parts), shop = 'OFJ'.includes(kind);
  const factor = [...held.begins, ...held.later.values()].reduce((all, it) => lcm(all, it.d), partsOf(plain));
  const inParts = (/** @type {Fraction} */ it) => Number(times(it, fraction(factor)).n), none = fraction(0);
  const releaseOf = (/** @type {PlainJob} */ job, /** @type {number} */ at) => inParts(greatest(fraction(job.r), held.later.get(at) || none));
  const timesOf = (/** @type {PlainJob} */ job) => Array.from({ length: machines }, (_, at) => timeOn(job, at, plain, factor));
  /** @type {Timed} */
  const timed = { parts: Number(factor), machines, shop, open: kind === 'O', alike: '1P'.includes(kind), criterion: parts.criterion,
    times: shop ? [] : jobs.map(timesOf), steps: shop ? jobs.map(it => stepsOf(it, plain, factor)) : [],
    begins: Array.from({ length: machines }, (_, at) => inParts(held.begins[at] || none)), release: jobs.map(releaseOf),
    due: jobs.map(it => Number(it.d * factor)), weight: jobs.map(it => Number(it.w)), curve: jobs.map(it => it.curve.map(Number)),
    before: jobs.map(() => []), after: jobs.map(() => []) };
  for (const [one, other] of arcs) {
    timed.before[other].push(one);
    timed.after[one].push(other);
  }
  const total = timed.times.flat().reduce((sum, it) => sum + it, 0) + timed.steps.flat().reduce((sum, it) => sum + it.time, 0);
  return total + Math.max(0, ...timed.release, ...timed.begins) < Number.MAX_SAFE_INTEGER ? timed : null;
}

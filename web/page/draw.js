// Instances that a seed draws: the one that `msp trial` solves and does not print. companions/msp_tools/draws.py has the same generator.
import { fixedMachines, hasDue, hasSpeeds, hasWeight, kindOf, MOST } from './columns.js';
import { nameOf } from '../names.js';

/** @typedef {import('../names.js').Parts} Parts */

/** What jobs and seeds go from and to. */
export const DRAWN = { jobs: { least: 1, most: MOST.jobs }, seed: { least: 0, most: 2 ** 31 - 1 } };
/** How many machines there are where the environment leaves it open. */
const MACHINES = 4;

/** Numbers that follow from a seed: a linear congruence modulo 2^31, of which the upper fifteen bits are drawn. */
class Draws {
  /** @param {number} seed */
  constructor(seed) { this.seed = seed; }

  /** @param {number} count */
  below(count) {
    this.seed = Math.imul(1103515245, this.seed) + 12345 & 2 ** 31 - 1;
    return (this.seed >>> 16) % count;
  }

  /** @param {number} most */
  fromOne(most) { return 1 + this.below(most); }
}

/**
 * The fields of a route: no two neighbours are on one machine.
 * @param {Draws} draws
 * @param {Parts} parts
 * @param {number} machines
 */
function route(draws, { short, times }, machines) {
  const fields = [], count = draws.fromOne(short ? 2 : 4);
  for (let at = 0, machine = 0; at < count; at++) {
    machine = at ? (machine + 1 + draws.below(machines - 1)) % machines : draws.below(machines);
    fields.push(machine + 1, ...times ? [] : [draws.fromOne(100)]);
  }
  return fields;
}

/**
 * The fields of a cost curve.
 * @param {Draws} draws
 */
function curve(draws) {
  const fields = [draws.below(10), draws.below(1000) - 500];
  for (let steps = draws.below(3); steps > 0; steps--) fields.push(draws.below(2000), draws.below(100));
  return fields;
}

/**
 * The lines of a job.
 * @param {Draws} draws
 * @param {Parts} parts
 * @param {string} name
 * @param {number} machines
 */
function job(draws, parts, name, machines) {
  const kind = kindOf(parts), general = !parts.times, fields = [`job ${name}`], lines = [];
  if (general && '1PQ'.includes(kind)) fields.push(`p=${draws.fromOne(100)}`);
  else if (kind === 'J') lines.push(['route', ...route(draws, parts, machines)]);
  else if (general) {
    // (an operation of a shop may take no time, but for the first)
    lines.push(['times', ...Array.from({ length: machines }, (_, at) => at && kind !== 'R' ? draws.below(101) : draws.fromOne(100))]);
  }
  if (parts.release) fields.push(`r=${draws.below(1000)}`);
  if (hasDue(parts)) fields.push(`d=${draws.below(1000)}`);
  if (hasWeight(parts)) fields.push(`w=${draws.fromOne(100)}`);
  if (parts.criterion === 'fmax') lines.push(['curve', ...curve(draws)]);
  return [fields, ...lines].map(it => it.join(' '));
}

/**
 * The arcs, as pairs of jobs from 1: in `prec` two are drawn into each job, else two times out of three one.
 * @param {Draws} draws
 * @param {string} order
 * @param {number} jobs
 */
function arcs(draws, order, jobs) {
  const before = (/** @type {number} */ it) => it - 1 - draws.below(Math.min(it - 1, 5));
  const behind = (/** @type {number} */ it) => it + 1 + draws.below(Math.min(jobs - it, 5));
  /** @type {Object<string, (turn: number) => [number, number]>} */
  const ways = { chains: it => [it, it + 1], intree: it => [it, behind(it)], outtree: it => [before(it + 1), it + 1],
    prec: it => [before(it + 1), it + 1] };
  /** @type {Map<string, string>} */
  const found = new Map();
  for (let turn = 1; order && turn < jobs; turn++) {
    for (let times = order === 'prec' ? 2 : 1; times > 0; times--) {
      if (order !== 'prec' && !draws.below(3)) continue;
      const [one, other] = ways[order](turn);
      found.set(`${one} ${other}`, `arc j${one} j${other}`);
    }
  }
  return Array.from(found.values());
}

/**
 * The text of the instance of a class that `msp trial` draws.
 * @param {Parts} parts
 * @param {number} jobs
 * @param {number} seed
 */
export function drawn(parts, jobs, seed) {
  const draws = new Draws(seed), machines = fixedMachines(parts) || MACHINES, lines = ['msp 1', `class ${nameOf(parts)}`];
  if (!fixedMachines(parts)) lines.push(`machines ${machines}`);
  if (hasSpeeds(parts)) lines.push(`speeds ${Array.from({ length: machines }, () => draws.fromOne(4)).join(' ')}`);
  if (parts.times === 'p=p') lines.push(`time ${draws.fromOne(100)}`);
  for (let at = 1; at <= jobs; at++) lines.push(...job(draws, parts, `j${at}`, machines));
  return [...lines, ...arcs(draws, parts.order, jobs), 'end', ''].join('\n');
}

// Lower bounds where there is no solver: chains of steps to classes whose best cost, which the program proves, bounds that of each plan here.
import { kindOf } from './columns.js';
import { nameOf } from '../names.js';
import { alone, isWhole, made, operations } from './loosening.js';
import { lateness, oneJob, oneOfShop, stepNamed } from './loosenings.js';

/** @typedef {import('../names.js').Parts} Parts */
/** @typedef {import('./loosening.js').Loosening} Loosening */
/** @typedef {import('./plain.js').Plain} Plain */
/** @typedef {import('../fractions.js').Fraction} Fraction */
/** @typedef {{steps: Loosening[], instances: Plain[]}} Chain steps that were made, and the instances: the given one, and that behind each step */
/**
 * What chains are for: which classes have a solver, and whether it took the last instance of the chain that came last, which whoever asks says.
 * @typedef {{solved: (name: string) => boolean, taken: boolean}} Asked
 */

/** Of so many machines of a shop, those with most work, bounds are asked. */
const MOST_MACHINES = 8;
/** What is left out, in the order in which the steps are made; of each place one further is looser. */
const LEFT_OUT = [['', 'no-due'], ['', 'no-precedence'], ['', 'no-release'], ['', 'equal', 'equal unit'], ['', 'cut', 'one-machine']];
/** The steps to other criteria.
 * @type {Object<string, string[]>} */
const CRITERIA = { sumwC: ['least-weight'], sumU: ['greatest'], sumwU: ['least-weight', 'greatest', 'least-weight greatest'],
  sumT: ['late-by-one', 'greatest'], sumwT: ['least-weight', 'late-by-one', 'least-weight late-by-one', 'greatest', 'least-weight greatest'] };

/** @param {Chain} chain */
function lastOf({ instances }) { return instances[instances.length - 1]; }

/**
 * A chain with a step more; null where it can't be made.
 * @param {Chain | null} chain
 * @param {Loosening} step
 * @returns {Chain | null}
 */
function further(chain, step) {
  const found = chain && made(step, lastOf(chain));
  return chain && found && { steps: [...chain.steps, step], instances: [...chain.instances, found] };
}

/**
 * The same by names of steps.
 * @param {Chain} chain
 * @param {string} names
 */
function byNames(chain, names) {
  return names.split(' ').filter(Boolean).reduce((found, it) => further(found, stepNamed(it)), /** @type {Chain | null} */ (chain));
}

/**
 * The chain itself, and those with steps more, as far as they can be made.
 * @param {Chain} chain
 * @param {string[]} several
 * @returns {Chain[]}
 */
function ways(chain, several) { return [chain, ...several.flatMap(names => byNames(chain, names) || [])]; }

/**
 * All choices of one from each list.
 * @param {string[][]} several
 * @returns {number[][]}
 */
function choices(several) {
  return several.reduce((found, those) => found.flatMap(it => those.map((_, at) => [...it, at])), /** @type {number[][]} */ ([[]]));
}

/**
 * Whether what is left out at places is looser than at others. One fast machine says more of sums of ends without release dates.
 * @param {number[]} places
 * @param {number[]} others
 * @param {Parts} parts
 */
function isLooser(places, others, { criterion }) {
  const last = places.length - 1;
  if (/^sumw?C$/.test(criterion) && places[last] === 2 && others[last] === 2) return false;
  return places.every((it, at) => it >= others[at]);
}

/**
 * The chains to classes with a solver that leave out least; more where the instance is beyond a limit of that solver.
 * @param {Chain} chain
 * @param {Asked} asked
 * @returns {Generator<Chain>}
 */
function* leftOut(chain, asked) {
  const { parts } = lastOf(chain), several = parts.times ? LEFT_OUT.map(it => it[1] === 'equal' ? ['', 'unit'] : it) : LEFT_OUT;
  const sum = (/** @type {number[]} */ those) => those.reduce((all, it) => all + it, 0);
  const order = choices(several).sort((one, other) => sum(one) - sum(other) || (String(one) < String(other) ? -1 : 1));
  /** @type {number[][]} */
  const found = [];
  for (const places of order) {
    const names = places.map((at, place) => several[place][at]).join(' ');
    const kind = names.split(' ').filter(Boolean).reduce((it, name) => it && stepNamed(name).to(it), /** @type {Parts | null} */ (parts));
    if (!kind || found.some(it => isLooser(places, it, kind)) || !asked.solved(nameOf(kind))) continue;
    const those = byNames(chain, names);
    if (!those) continue;
    asked.taken = true;
    yield those;
    if (asked.taken) found.push(places);
  }
}

/**
 * The chains to sums of completion times for tardiness, but in shops.
 * @param {Chain} chain
 * @returns {Chain[]}
 */
function byLateness(chain) {
  const last = lastOf(chain), found = '1PQR'.includes(kindOf(last.parts)) ? further(chain, lateness(last)) : null;
  return found ? ways(found, ['least-weight']) : [];
}

/**
 * The chains to the machines of a shop with most work, and on to the lateness there.
 * @param {Chain} chain
 * @returns {Chain[]}
 */
function inShop(chain) {
  const last = lastOf(chain), work = new Array(last.machines).fill(0n);
  if (!'OFJ'.includes(kindOf(last.parts))) return [];
  for (const job of last.jobs) for (const [machine, time] of operations(job, last)) work[machine] += time;
  const machines = work.map((_, at) => at).sort((one, other) => work[one] === work[other] ? one - other : work[one] > work[other] ? -1 : 1);
  return machines.slice(0, MOST_MACHINES).flatMap(it => further(chain, oneOfShop(it)) || []).flatMap(it => [it, ...byLateness(it)]);
}

/**
 * The chain with release dates raised and due dates lowered along the arcs, as far as that can be.
 * @param {Chain} chain
 */
function withDates(chain) { return ['heads', 'tails'].reduce((found, it) => byNames(found, it) || found, chain); }

/**
 * The chain to the job that costs most at its earliest end.
 * @param {Chain} first
 * @returns {Chain[]}
 */
function toOneJob(first) {
  const chain = withDates(byNames(first, 'fastest') || first), last = lastOf(chain);
  if (kindOf(last.parts) === 'Q') return [];
  const costs = last.jobs.map(it => alone(it, last)), at = costs.reduce((best, it, place) => it > costs[best] ? place : best, 0);
  const found = further(chain, oneJob(at, last.jobs[at].name));
  return found ? [found] : [];
}

/**
 * The chains from an instance to classes with a solver: of a class without one, or beyond the limit of its own. Each is made when it is asked
 * for, since what comes behind it depends on whether its solver takes it.
 * @param {Plain} plain
 * @param {Asked} asked
 * @returns {Generator<Chain>}
 */
export function* chains(plain, asked) {
  const first = { steps: [], instances: [plain] };
  if (asked.solved(nameOf(plain.parts))) return;
  yield* toOneJob(first);
  for (const one of [...ways(first, CRITERIA[plain.parts.criterion] || []), ...byLateness(first)]) {
    for (const two of ways(one, [...(plain.parts.order ? ['fastest'] : []), 'least-times'])) {
      const dated = withDates(two), those = dated.steps.length > two.steps.length ? [two, dated] : [two];
      for (const three of [...those, ...inShop(dated)]) yield* leftOut(three, asked);
    }
  }
}

/**
 * What the least cost of the last instance of a chain says of the given one.
 * @param {Chain} chain
 * @param {Fraction} cost
 */
function valueOf({ steps, instances }, cost) {
  return steps.reduceRight((value, step, at) => step.value(value, instances[at]), cost);
}

/**
 * A bound, and the steps that show it: where it is no whole number and the least cost is one, it is rounded up.
 * @param {Chain} chain
 * @param {Fraction} cost the least one of its last instance
 */
export function boundOf(chain, cost) {
  const value = valueOf(chain, cost), [given] = chain.instances;
  if (value.d === 1n || !isWhole(given.parts)) return { value, chain };
  const rounded = { steps: [stepNamed('whole'), ...chain.steps], instances: [given, ...chain.instances] };
  return { value: valueOf(rounded, cost), chain: rounded };
}

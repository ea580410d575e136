// The steps to easier problems, by their names in docs/bounds.md.
import { compare, fraction, greatest, minus, over, plus, ZERO } from '../fractions.js';
import { kindOf } from './columns.js';
import { alone, divided, each, isGreatest, isOfEnds, isWhole, kept, later, leastTime, loosening, many, multiplied, operations } from './loosening.js';

/** @typedef {import('../names.js').Parts} Parts */
/** @typedef {import('../fractions.js').Fraction} Fraction */
/** @typedef {import('./loosening.js').Loosening} Loosening */
/** @typedef {import('./plain.js').Plain} Plain */
/** @typedef {import('./plain.js').PlainJob} PlainJob */

const MOST_EQUAL = 10n ** 6n;

/** @param {bigint[]} those */
function least(those) { return those.reduce((found, it) => it < found ? it : found, those[0]); }

/** @param {bigint[]} those */
function most(those) { return those.reduce((found, it) => it > found ? it : found, those[0]); }

/** @param {bigint[]} those */
function sum(those) { return those.reduce((all, it) => all + it, 0n); }

/**
 * Whole parts of a number, rounded down.
 * @param {bigint} it
 * @param {bigint} by
 */
function parted(it, by) { return it >= 0n ? it / by : -((by - 1n - it) / by); }

/**
 * The class with another criterion, by pairs.
 * @param {Object<string, string>} pairs
 * @returns {(parts: Parts) => Parts | null}
 */
function other(pairs) { return parts => pairs[parts.criterion] ? { ...parts, criterion: pairs[parts.criterion] } : null; }

// What is left out

/** @param {Plain} plain */
function firstRelease(plain) { return least(plain.jobs.map(it => it.r)); }

/**
 * @param {Fraction} cost
 * @param {Plain} plain
 */
function afterFirst(cost, plain) {
  const { parts, jobs } = plain, weight = sum(jobs.map(it => it.w));
  const counted = parts.criterion === 'Cmax' ? 1n : isOfEnds(parts) ? weight : 0n;
  return plus(cost, fraction(counted * firstRelease(plain)));
}

const LEFT_OUT = [
  loosening('cut', parts => parts.cut ? null : { ...parts, cut: 'pmtn' }),
  loosening('no-precedence', parts => parts.order ? { ...parts, order: '' } : null, { edit: it => ({ ...it, arcs: [] }) }),
  loosening('no-due', other({ Lmax: 'Cmax' }), { value: (cost, { jobs }) => minus(cost, fraction(most(jobs.map(it => it.d)))) }),
  loosening('no-release', parts => parts.release ? { ...parts, release: '' } : null,
    { edit: plain => each(plain, it => ({ ...later(it, firstRelease(plain)), r: 0n })), value: afterFirst }),
];

// Times

/** @param {Plain} plain */
function allTimes(plain) {
  return plain.jobs.flatMap(it => kindOf(plain.parts) === 'R' && !plain.parts.times ? it.p : operations(it, plain).map(step => step[1]));
}

/** @param {Plain} plain */
function inUnits(plain) {
  const { shared } = plain, up = (/** @type {bigint} */ it) => -parted(-it, shared);
  const curveOf = (/** @type {bigint[]} */ [slope, base, ...steps]) => [slope * shared, base, ...steps.map((it, at) => at % 2 ? it : up(it))];
  return { ...each(plain, ({ r, d, curve }) => ({ r: parted(r, shared), d: up(d), curve: curve.length ? curveOf(curve) : [] })), shared: 1n };
}

const TIMES = [
  loosening('equal', parts => parts.times ? null : { ...parts, times: 'p=p' },
    { edit: it => ({ ...it, shared: least([...allTimes(it), MOST_EQUAL]) }), fits: it => least(allTimes(it)) > 0n }),
  loosening('unit', parts => parts.times === 'p=p' ? { ...parts, times: 'p=1' } : null,
    { edit: inUnits, value: (cost, { parts, shared }) => /U$|^fmax$/.test(parts.criterion) ? cost : many(cost, shared) }),
];

// Machines

/** @param {Plain} plain */
function sharesOf({ parts, speeds, machines }) { return kindOf(parts) === 'Q' ? speeds : new Array(machines).fill(1n); }

/**
 * What one machine as fast as all of them says more of sums of ends: each job takes longer on its own machine.
 * @param {Plain} plain
 */
function gainsOf(plain) {
  const total = sum(sharesOf(plain)), speed = kindOf(plain.parts) === 'Q' ? most(plain.speeds) : 1n;
  return plain.jobs.map(it => {
    const time = leastTime(it, plain);
    return over(many(minus(fraction(time, speed), fraction(time, total)), it.w), fraction(2));
  }).reduce(plus, ZERO);
}

/**
 * @param {Fraction} cost
 * @param {Plain} plain
 */
function byFast(cost, plain) {
  const bound = divided(cost, plain, sum(sharesOf(plain))), { parts } = plain;
  return isOfEnds(parts) && !parts.order && !parts.release ? plus(bound, gainsOf(plain)) : bound;
}

/** @param {Plain} plain */
function onFast(plain) {
  const timed = kindOf(plain.parts) === 'R' ? each(plain, it => ({ p: [leastTime(it, plain)] })) : plain;
  return { ...multiplied(timed, sum(sharesOf(plain))), machines: 1, speeds: [] };
}

/**
 * Identical machines for others of a kind.
 * @param {string} kind
 * @returns {Loosening['to']}
 */
function identical(kind) { return parts => kindOf(parts) === kind ? { ...parts, environment: `P${parts.environment.slice(1)}` } : null; }

const MACHINES = [
  loosening('one-machine', parts => 'PQ'.includes(kindOf(parts)) || kindOf(parts) === 'R' && !parts.times
    ? { ...parts, environment: '1', cut: 'pmtn' } : null, { edit: onFast, value: byFast }),
  loosening('fastest', identical('Q'), { edit: it => ({ ...multiplied(it, most(it.speeds)), speeds: [] }),
    value: (cost, plain) => divided(cost, plain, most(plain.speeds)) }),
  loosening('least-times', identical('R'), { edit: plain => plain.parts.times ? plain : each(plain, it => ({ p: [least(it.p)] })) }),
];

// Precedence

/**
 * For each job those that wait for it.
 * @param {Plain} plain
 */
function afterOf({ jobs, arcs }) {
  /** @type {number[][]} */
  const after = jobs.map(() => []);
  for (const [one, then] of arcs) after[one].push(then);
  return after;
}

/**
 * The jobs, each behind those before it; jobs on a cycle are left out.
 * @param {number[][]} after for each job those that wait for it
 */
function along(after) {
  const waits = after.map(() => 0);
  for (const then of after.flat()) waits[then]++;
  const found = waits.flatMap((it, at) => it ? [] : [at]);
  for (const job of found) for (const then of after[job]) if (!--waits[then]) found.push(then);
  return found;
}

/** @param {Plain} plain */
function withHeads(plain) {
  const r = plain.jobs.map(it => it.r), after = afterOf(plain);
  for (const job of along(after)) {
    const end = r[job] + leastTime(plain.jobs[job], plain);
    for (const then of after[job]) if (r[then] < end) r[then] = end;
  }
  return { ...plain, jobs: plain.jobs.map((it, at) => ({ ...it, r: r[at] })) };
}

/** @param {Plain} plain */
function asLateness(plain) { return plain.parts.criterion === 'Cmax' ? each(plain, () => ({ d: 0n })) : plain; }

/** @param {Plain} plain */
function withTails(plain) {
  const given = asLateness(plain), d = given.jobs.map(it => it.d), after = afterOf(plain);
  for (const job of along(after).reverse()) {
    for (const then of after[job]) {
      const end = d[then] - leastTime(plain.jobs[then], plain);
      if (d[job] > end) d[job] = end;
    }
  }
  return { ...given, jobs: given.jobs.map((it, at) => ({ ...it, d: d[at] })) };
}

/** @param {Plain} plain */
function hasArcs(plain) { return plain.arcs.length > 0; }

const DATES = [
  loosening('heads', parts => parts.order && kindOf(parts) !== 'Q' ? { ...parts, release: 'r' } : null, { edit: withHeads, fits: hasArcs }),
  loosening('tails', parts => parts.order && kindOf(parts) !== 'Q' && /^[CL]max$/.test(parts.criterion) ? { ...parts, criterion: 'Lmax' } : null,
    { edit: withTails, fits: hasArcs }),
];

// One machine of a shop, and one job

/** @type {Parts} */
const ONE = { environment: '1', cut: 'pmtn', order: '', release: 'r', times: '', short: '', criterion: 'fmax' };

/**
 * What a job does on a machine of a shop: the earliest begin, the time there, and the least time behind it; null where it does nothing there.
 * @param {PlainJob} job
 * @param {Plain} plain
 * @param {number} machine
 */
function stayOf(job, plain, machine) {
  const steps = operations(job, plain).filter(it => it[1] > 0n), there = steps.flatMap((it, at) => it[0] === machine ? [at] : []);
  if (!there.length) return null;
  const time = sum(there.map(it => steps[it][1])), work = (/** @type {[number, bigint][]} */ those) => sum(those.map(it => it[1]));
  if (kindOf(plain.parts) === 'O') return { head: job.r, time, tail: 0n };
  return { head: job.r + work(steps.slice(0, there[0])), time, tail: work(steps.slice(there[there.length - 1] + 1)) };
}

/**
 * The step to one machine of a shop.
 * @param {number} machine from 0
 */
export function oneOfShop(machine) {
  /** @type {Loosening['edit']} */
  const edit = plain => {
    const given = asLateness(plain), stays = plain.jobs.map(it => stayOf(it, plain, machine));
    const jobs = given.jobs.map((it, at) => {
      const stay = stays[at];
      return stay ? { ...it, ...later(it, stay.tail), p: [stay.time], r: stay.head, route: [] } : it;
    });
    return { ...kept({ ...given, jobs }, at => stays[at] !== null), machines: 1 };
  };
  /** @type {Loosening['value']} */
  const value = (cost, plain) => {
    const stays = plain.jobs.map(it => stayOf(it, plain, machine)), rest = plain.jobs.filter((_, at) => !stays[at]).map(it => alone(it, plain));
    if (isGreatest(plain.parts)) return greatest(cost, ...rest.map(it => fraction(it)));
    const tails = plain.jobs.map((it, at) => it.w * (stays[at] || { tail: 0n }).tail);
    return plus(cost, fraction(sum(rest) + (isOfEnds(plain.parts) ? sum(tails) : 0n)));
  };
  return loosening(`machine:${machine + 1}`, parts => 'OFJ'.includes(kindOf(parts)) ? { ...ONE, order: parts.order ? 'prec' : '',
    criterion: parts.criterion === 'Cmax' ? 'Lmax' : parts.criterion } : null, { edit, value });
}

/**
 * The cost of a job as a curve; where it is tardiness, its lateness times the weight.
 * @param {PlainJob} job
 * @param {Parts} parts
 */
function curveOf({ d, w, curve }, { criterion }) {
  if (criterion === 'fmax') return curve;
  if (/U$/.test(criterion)) return d >= 0n ? [0n, 0n, d, w] : [0n, w];
  return [w, /C$|^Cmax$/.test(criterion) ? 0n : -w * d];
}

/**
 * The step to one job alone.
 * @param {number} at
 * @param {string} name
 */
export function oneJob(at, name) {
  return loosening(`job:${name}`, parts => kindOf(parts) === 'Q' ? null : ONE, {
    edit: plain => ({ ...plain, machines: 1, speeds: [], arcs: [], jobs: [{ ...plain.jobs[at], p: [leastTime(plain.jobs[at], plain)],
      route: [], curve: curveOf(plain.jobs[at], plain.parts) }] }),
    value: (cost, plain) => isGreatest(plain.parts) ? cost
      : plus(greatest(cost, ZERO), fraction(sum(plain.jobs.filter((_, place) => place !== at).map(it => alone(it, plain))))),
  });
}

// Criteria

/** @param {Plain} plain */
function withCurves(plain) {
  return /^sum[TU]$/.test(plain.parts.criterion) ? plain : each(plain, it => ({ curve: curveOf(it, plain.parts) }));
}

/**
 * @param {Fraction} cost
 * @param {Plain} plain
 */
function byGreatest(cost, { parts }) {
  return parts.criterion === 'sumU' ? fraction(compare(cost, ZERO) > 0 ? 1 : 0) : greatest(cost, ZERO);
}

/**
 * The step from tardiness to lateness, each job with its weight.
 * @param {Plain} plain
 */
export function lateness(plain) {
  const factors = plain.jobs.map(it => it.w);
  return loosening(`lateness:${factors.join(',')}/1`, other({ sumT: 'sumwC', sumwT: 'sumwC' }),
    { value: (cost, { jobs }) => greatest(minus(cost, fraction(sum(jobs.map(it => it.w * it.d)))), ZERO) });
}

const CRITERIA = [
  loosening('least-weight', other({ sumwC: 'sumC', sumwU: 'sumU', sumwT: 'sumT' }),
    { value: (cost, { jobs }) => many(cost, least(jobs.map(it => it.w))) }),
  loosening('late-by-one', parts => isWhole(parts) ? other({ sumT: 'sumU', sumwT: 'sumwU' })(parts) : null),
  loosening('greatest', other({ sumU: 'Lmax', sumT: 'Lmax', sumwU: 'fmax', sumwT: 'fmax' }), { edit: withCurves, value: byGreatest }),
  loosening('whole', parts => isWhole(parts) ? parts : null, { value: ({ n, d }) => fraction(-parted(-n, d)) }),
];

/** The steps that need no number.
 * @type {Map<string, Loosening>} */
export const STEPS = new Map([...LEFT_OUT, ...TIMES, ...MACHINES, ...DATES, ...CRITERIA].map(it => [it.name, it]));

/**
 * @param {string} name
 * @returns {Loosening}
 */
export function stepNamed(name) {
  const found = STEPS.get(name);
  if (!found) throw new Error(`there is no step ${name}`);
  return found;
}

// What steps to easier problems ask of classes, jobs and instances: companions/msp_tools/loosenings.py has the same steps.
import { fraction, over, times } from '../fractions.js';
import { hasDue, hasWeight, kindOf } from './columns.js';

/** @typedef {import('../names.js').Parts} Parts */
/** @typedef {import('../fractions.js').Fraction} Fraction */
/** @typedef {import('./plain.js').Plain} Plain */
/** @typedef {import('./plain.js').PlainJob} PlainJob */
/**
 * A step: its name, with a machine or a job behind a colon; the class to which it leads, or null; the edit of the instance; and what the least
 * cost there says of the instance here. docs/bounds.md proves each.
 * @typedef {object} Loosening
 * @property {string} name
 * @property {(parts: Parts) => Parts | null} to
 * @property {(plain: Plain) => Plain} edit
 * @property {(cost: Fraction, plain: Plain) => Fraction} value
 * @property {(plain: Plain) => boolean} fits
 */

/** What leaves it makes a step impossible: times, dates, weights and costs of instance texts. */
const GREATEST = 10n ** 9n;

/**
 * @param {string} name
 * @param {Loosening['to']} to
 * @param {Partial<Loosening>} [more]
 * @returns {Loosening}
 */
export function loosening(name, to, more = {}) { return { name, to, edit: it => it, value: it => it, fits: () => true, ...more }; }

/**
 * An instance with fields of its jobs changed.
 * @param {Plain} plain
 * @param {(job: PlainJob) => Partial<PlainJob>} change
 * @returns {Plain}
 */
export function each(plain, change) { return { ...plain, jobs: plain.jobs.map(it => ({ ...it, ...change(it) })) }; }

/**
 * An instance with some of its jobs, and the arcs between them.
 * @param {Plain} plain
 * @param {(job: number) => boolean} stays
 * @returns {Plain}
 */
export function kept(plain, stays) {
  const places = plain.jobs.map((_, at) => at).filter(stays), to = new Map(places.map((it, at) => [it, at]));
  const arcs = plain.arcs.filter(it => it.every(job => to.has(job))).map(([one, other]) =>
    /** @type {[number, number]} */ ([to.get(one) || 0, to.get(other) || 0]));
  return { ...plain, jobs: places.map(it => plain.jobs[it]), arcs };
}

/**
 * The instance of a step; null where the class or the instance has no such step, or numbers leave the limits of texts.
 * @param {Loosening} step
 * @param {Plain} plain
 * @returns {Plain | null}
 */
export function made({ to, edit, fits }, plain) {
  const parts = to(plain.parts);
  if (!parts || !fits(plain)) return null;
  const changed = { ...edit(plain), parts };
  const found = each(changed, it => ({ r: parts.release ? it.r : 0n, d: hasDue(parts) ? it.d : 0n, w: hasWeight(parts) ? it.w : 1n,
    curve: parts.criterion === 'fmax' ? it.curve : [] }));
  return found.jobs.length && !found.jobs.some(isBeyond) ? found : null;
}

/** @param {PlainJob} job */
function isBeyond({ r, d, w, p, route, curve }) {
  return [r, d, w, ...p, ...route.map(it => it[1]), ...curve].some(it => it > GREATEST || it < -GREATEST);
}

/**
 * The operations of a job, each with its machine from 0 and its time; on unrelated machines the least one.
 * @param {PlainJob} job
 * @param {Plain} plain
 * @returns {[number, bigint][]}
 */
export function operations(job, { parts, machines, shared }) {
  const kind = kindOf(parts), { p, route } = job;
  if (kind === 'J') return route.map(([machine, time]) => [machine, parts.times ? shared : time]);
  if ('OF'.includes(kind)) return Array.from({ length: machines }, (_, at) => [at, parts.times ? shared : p[at]]);
  return [[0, parts.times ? shared : p.reduce((least, it) => it < least ? it : least, p[0])]];
}

/**
 * The least time from a job's begin to its end, on machines without speeds.
 * @param {PlainJob} job
 * @param {Plain} plain
 */
export function leastTime(job, plain) { return operations(job, plain).reduce((sum, it) => sum + it[1], 0n); }

/**
 * What a job costs that ends at a moment.
 * @param {PlainJob} job
 * @param {bigint} end
 * @param {Plain} plain
 */
function costAt({ d, w, curve }, end, { parts: { criterion } }) {
  if (criterion === 'fmax') {
    const [slope, base, ...steps] = curve;
    return steps.reduce((sum, above, at) => at % 2 === 0 && end > above ? sum + steps[at + 1] : sum, slope * end + base);
  }
  const late = end - d;
  switch (criterion[criterion.length - 1]) {
  case 'U': return late > 0n ? w : 0n;
  case 'T': return late > 0n ? w * late : 0n;
  case 'C': return w * end;
  default: return criterion === 'Lmax' ? late : end;
  }
}

/**
 * What a job costs at its earliest end.
 * @param {PlainJob} job
 * @param {Plain} plain
 */
export function alone(job, plain) { return costAt(job, job.r + leastTime(job, plain), plain); }

/**
 * The fields of a job whose cost at a moment is that of the given one so much later, but for sums of completion times.
 * @param {PlainJob} job
 * @param {bigint} shift
 * @returns {Partial<PlainJob>}
 */
export function later({ d, curve }, shift) {
  if (!curve.length) return { d: d - shift };
  const [slope, base, ...steps] = curve;
  /** @type {bigint[]} */
  const stay = [];
  let past = 0n;
  for (let at = 0; at + 1 < steps.length; at += 2) {
    if (steps[at] - shift < 0n) past += steps[at + 1];
    else stay.push(steps[at] - shift, steps[at + 1]);
  }
  return { d: d - shift, curve: [slope, base + slope * shift + past, ...stay] };
}

/**
 * The instance with its moments and, by curves, its costs multiplied; times of jobs stay.
 * @param {Plain} plain
 * @param {bigint} factor
 */
export function multiplied(plain, factor) {
  return each(plain, ({ r, d, curve }) => ({ r: r * factor, d: d * factor, curve: curve.map((it, at) => at ? it * factor : it) }));
}

/**
 * A cost where moments were multiplied.
 * @param {Fraction} cost
 * @param {Plain} plain
 * @param {bigint} factor
 */
export function divided(cost, { parts }, factor) { return /U$/.test(parts.criterion) ? cost : over(cost, fraction(factor)); }

/**
 * A cost so many times.
 * @param {Fraction} cost
 * @param {bigint} factor
 */
export function many(cost, factor) { return times(cost, fraction(factor)); }

/** @param {Parts} parts */
export function isGreatest({ criterion }) { return ['Cmax', 'Lmax', 'fmax'].includes(criterion); }

/** @param {Parts} parts */
export function isOfEnds({ criterion }) { return /^sumw?C$/.test(criterion); }

/**
 * Whether some best schedule of each instance has whole moments alone.
 * @param {Parts} parts
 */
export function isWhole(parts) { return !parts.cut && kindOf(parts) !== 'Q'; }

// Costs in words, with their units; and what each job adds, which is shown where it gives the cost of the program.
import { compare, fraction, greatest, minus, plus, shown, times, ZERO } from '../fractions.js';

/** @typedef {import('../fractions.js').Fraction} Fraction */
/** @typedef {import('./instance.js').Job} Job */
/** @typedef {import('../words.js').Words} Words */

/** @type {Object<string, string>} */
const UNITS = { min: 'min', h: 'h', d: 'd' };

/**
 * A length of time with its unit.
 * @param {Fraction} value
 * @param {string} unit
 * @param {Words} words
 */
export function lengthText(value, unit, words) {
  const number = shown(value, words.mark);
  return UNITS[unit] ? `${number} ${UNITS[unit]}` : number;
}

/**
 * A cost with its unit.
 * @param {Fraction} value
 * @param {string} criterion
 * @param {string} unit
 * @param {Words} words
 */
export function costText(value, criterion, unit, words) {
  if (/^sumw?U$|^fmax$/.test(criterion) || !UNITS[unit]) return shown(value, words.mark);
  return criterion.startsWith('sumw') ? `${shown(value, words.mark)} \u00b7${UNITS[unit]}` : lengthText(value, unit, words);
}

/**
 * What a job costs that ends at a moment.
 * @param {Job} job
 * @param {Fraction} end
 * @param {string} criterion
 * @returns {Fraction}
 */
export function added(job, end, criterion) {
  const late = job.d ? minus(end, job.d) : ZERO, weight = criterion.startsWith('sumw') ? job.w : fraction(1);
  if (criterion === 'Cmax') return end;
  if (criterion === 'Lmax') return late;
  if (criterion === 'fmax') return curveAt(job.curve, end);
  if (criterion.endsWith('C')) return times(weight, end);
  if (criterion.endsWith('T')) return times(weight, greatest(ZERO, late));
  return late.n > 0n ? weight : ZERO;
}

/**
 * The cost of a curve at a moment: the slope, the base, and the adds of the thresholds before it.
 * @param {Fraction[]} curve
 * @param {Fraction} end
 */
function curveAt(curve, end) {
  let cost = plus(times(curve[0] || ZERO, end), curve[1] || ZERO);
  for (let at = 2; at + 1 < curve.length; at += 2) if (compare(curve[at], end) < 0) cost = plus(cost, curve[at + 1]);
  return cost;
}

/**
 * What all jobs add, as one cost.
 * @param {Fraction[]} parts
 * @param {string} criterion
 */
export function together(parts, criterion) {
  if (!parts.length) return ZERO;
  return criterion.startsWith('sum') ? parts.reduce(plus, ZERO) : greatest(parts[0], ...parts.slice(1));
}

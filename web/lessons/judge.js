// Whether an answer solves a lesson. What a plan costs and whether evidence holds the program says; here both are compared with the goal.
import { compare, fraction, print, printed } from '../fractions.js';
import { instanceText, planText } from './lessons.js';

/** @typedef {import('./lessons.js').Lesson} Lesson */
/** @typedef {import('../fractions.js').Fraction} Fraction */
/**
 * What `check` said of a plan: the cost of a feasible one, or the kind and the words of the first condition that is broken.
 * @typedef {{feasible: boolean, cost: Fraction | null, kind: string, words: string[]}} Verdict
 */
/** @typedef {{accepted: boolean, kind: string, bound: Fraction}} Evidence what `accept` said of a certificate */
/**
 * An answer: the text of the instance of which the program spoke; what it said of the plan, with the text of the schedule; and what it said of
 * the evidence, where a bound is asked.
 * @typedef {{instance: string, verdict?: Verdict | null, schedule?: string, evidence?: Evidence | null}} Answer
 */
/**
 * What is said of an answer: `solved`; `changed`, the instance is another one; `broken`, the plan breaks a condition; `dearer`, it costs more than
 * is asked; `moved`, more bars were moved; `refused`, the evidence does not hold; `kind`, it is of another kind; `less`, its bound is less than is
 * asked; `none`, there is no verdict. `values` are what the words of words.js have gaps for: costs, bounds and numbers of bars.
 * @typedef {{outcome: 'solved' | 'changed' | 'broken' | 'dearer' | 'moved' | 'refused' | 'kind' | 'less' | 'none', values: string[]}} Judged
 */

/**
 * The pieces of a schedule text, each with its moments as fractions.
 * @param {string} text
 */
function piecesOf(text) {
  const unit = BigInt((text.match(/^unit ([1-9]\d{0,19})$/m) || ['', '1'])[1]);
  const pieces = Array.from(text.matchAll(/^piece (\S+) (\d{1,3}) (\d{1,3}) (\d{1,30}) (\d{1,30})$/gm));
  return pieces.map(([, name, op, machine, from, to]) => [name, op, machine, ...[from, to].map(it => print(fraction(BigInt(it), unit)))].join(' '));
}

/**
 * How many pieces of a plan do not stand in another one.
 * @param {string} before schedule text
 * @param {string} after schedule text
 */
export function moved(before, after) {
  const stood = new Set(piecesOf(before));
  return piecesOf(after).filter(it => !stood.has(it)).length;
}

/**
 * @param {Lesson} lesson
 * @param {Answer} answer
 * @returns {Judged}
 */
function judgePlan(lesson, { verdict, schedule = '' }) {
  const { goal } = lesson, wanted = printed(goal.cost);
  if (verdict && !verdict.feasible) return { outcome: 'broken', values: [[verdict.kind, ...verdict.words].join(' ')] };
  if (!verdict || !verdict.cost || !wanted) return { outcome: 'none', values: [] };
  if (compare(verdict.cost, wanted) > 0) return { outcome: 'dearer', values: [print(verdict.cost), goal.cost] };
  const bars = goal.kind === 'move' ? moved(planText(lesson), schedule) : 0;
  if (goal.kind === 'move' && bars > goal.bars) return { outcome: 'moved', values: [String(bars), String(goal.bars)] };
  return { outcome: 'solved', values: [print(verdict.cost)] };
}

/**
 * @param {{cost: string, evidence: string}} goal
 * @param {Answer} answer
 * @returns {Judged}
 */
function judgeBound(goal, { evidence }) {
  const wanted = printed(goal.cost);
  if (!evidence || !wanted) return { outcome: 'none', values: [] };
  const bound = print(evidence.bound);
  if (evidence.kind !== goal.evidence) return { outcome: 'kind', values: [] };
  if (!evidence.accepted) return { outcome: 'refused', values: [bound] };
  return compare(evidence.bound, wanted) < 0 ? { outcome: 'less', values: [bound, goal.cost] } : { outcome: 'solved', values: [bound] };
}

/**
 * Whether an answer solves a lesson, and if not what is missing.
 * @param {Lesson} lesson
 * @param {Answer} answer
 * @returns {Judged}
 */
export function judge(lesson, answer) {
  if (answer.instance !== instanceText(lesson)) return { outcome: 'changed', values: [] };
  return lesson.goal.kind === 'bound' ? judgeBound(lesson.goal, answer) : judgePlan(lesson, answer);
}

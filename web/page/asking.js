// What if: a machine more or less, an order gone, a rush order, cutting allowed, a due date moved, the plan until now kept. Each question makes
// another list, a plan to begin with, and where time has gone by what is left of both. What a class cannot say is told.
import { hasDue, hasSpeeds, isShop, kindOf, MOST } from './columns.js';
import { clockOf } from './clock.js';
import { compare, fraction, greatest, lcm, minus, over, times, ZERO } from '../fractions.js';
import { built } from './instance.js';
import { calledAt } from './jobs.js';
import { leftOf, onMachines } from './leftover.js';
import { restOf, whole } from './pinned.js';
import { plainOf } from './plain.js';
import { relisted } from './relisted.js';
import { newRow, withCell } from './table-view.js';
import { carriedOn } from './timing.js';

/** @typedef {import('../fractions.js').Fraction} Fraction */
/** @typedef {import('./instance.js').Built} Built */
/** @typedef {import('./instance.js').Fault} Fault */
/** @typedef {import('./instance.js').Problem} Problem */
/** @typedef {import('./instance.js').Row} Row */
/** @typedef {import('./leftover.js').Leftover} Leftover */
/** @typedef {import('./leftover.js').Span} Span */
/** @typedef {import('./leftover.js').Told} Told */
/** @typedef {import('./pinned.js').Rest} Rest */
/** @typedef {import('./schedule.js').Piece} Piece */
/** @typedef {import('./timing.js').Placed} Placed */
/** @typedef {'more' | 'less' | 'gone' | 'rush' | 'cut' | 'due' | 'time'} Kind */
/**
 * A question: its kind; the machine (from 1) that a further one is like, or that is missing; the row of the job that is gone or moved; its new
 * due date as it is typed; the rush order; and the moment until which the plan is kept, 0 for none of it.
 * @typedef {{kind: Kind, machine: number, row: number, due: string, rush: {name: string, cells: Object<string, string>}, now: Fraction}} Question
 */
/**
 * An answer: the list as it is then, the pieces of a plan to begin with and whether they are as they stood (else placed anew), what is
 * searched, the plan before in the same terms, and what is to be known.
 * @typedef {object} Answer
 * @property {Problem} problem
 * @property {Built} made its instance
 * @property {Piece[]} pieces
 * @property {Placed[] | null} given the pieces for the search, where they were placed anew
 * @property {Span[]} spans the same pieces, in numbers of the search
 * @property {Rest} rest
 * @property {bigint} unit numbers of the search to a unit of the list
 * @property {{problem: Problem, pieces: Piece[], rest: Rest | null}} before its own search, where time has gone by
 * @property {Told[]} told
 * @property {Built} asked the instance of the question, whose jobs `told` counts
 */
/** Why a question has no answer: a code of words.json with its values, and the fault of a cell, if there is one. */
export class Refused extends Error {
  /**
   * @param {string} code
   * @param {...string} values
   */
  constructor(code, ...values) {
    super(code);
    this.code = code;
    this.values = values;
    /** @type {Fault | null} */
    this.fault = null;
  }
}

const GREATEST = 10n ** 9n;

/**
 * Why a kind of question cannot be asked of a class: a code of words.json; empty where it can.
 * @param {Kind} kind
 * @param {Problem} problem
 * @param {number} machines
 */
export function impossible(kind, { parts }, machines) {
  if (kind === 'more' || kind === 'less') {
    if (isShop(parts)) return kind === 'more' ? 'ifShopMore' : 'ifShopLess';
    if (kind === 'less' && machines < 2) return 'ifLastMachine';
    return kind === 'more' && machines >= MOST.machines ? 'limit machines' : '';
  }
  return kind === 'due' && !hasDue(parts) ? 'ifNoDue' : '';
}

/**
 * A list with a machine more, which is like another one.
 * @param {Problem} problem
 * @param {number} like from 1
 * @param {number} count
 * @returns {Problem}
 */
function withMachine(problem, like, count) {
  const parts = onMachines(problem.parts, count + 1), speeds = problem.speeds.trim().split(/[\s;,]+/);
  const copied = (/** @type {Row} */ row) => ({ ...row, cells: { ...row.cells, [`p${count + 1}`]: row.cells[`p${like}`] || '' } });
  return { ...problem, parts, machines: String(count + 1), speeds: hasSpeeds(parts) ? [...speeds, speeds[like - 1]].join(' ') : problem.speeds,
    rows: kindOf(parts) === 'R' && !parts.times ? problem.rows.map(copied) : problem.rows };
}

/**
 * A list without a job. The others keep their names, and no longer wait for it.
 * @param {Problem} problem
 * @param {number} id
 * @param {Built} made the instance of the list
 * @returns {Problem}
 */
function without(problem, id, made) {
  const rows = made.jobs.map(it => it.row), names = rows.map(calledAt), gone = rows.findIndex(it => it.id === id);
  const after = (/** @type {number} */ at) => made.arcs.filter(it => it[1] === at && it[0] !== gone).map(([one]) => names[one]).join(' | ');
  const waited = (/** @type {number} */ at) => made.arcs.some(it => it[1] === at && it[0] === gone);
  const found = rows.map((row, at) => ({ ...row, name: names[at], cells: waited(at) ? { ...row.cells, after: after(at) } : row.cells }));
  return { ...problem, rows: found.filter(it => it.id !== id) };
}

/**
 * The list of a question, without what time brings.
 * @param {Question} question
 * @param {Problem} problem
 * @param {Built} made
 * @returns {Problem}
 */
function changedBy({ kind, machine, row, due, rush }, problem, made) {
  const { parts, rows } = problem;
  switch (kind) {
  case 'more': return withMachine(problem, machine, made.machines);
  case 'gone': return without(problem, row, made);
  case 'rush': return { ...problem, rows: [...rows, { ...newRow(rows), ...rush }] };
  case 'cut': return { ...problem, parts: { ...parts, cut: parts.cut ? '' : 'pmtn' } };
  case 'due': return { ...problem, rows: withCell(rows, row, 'd', due) };
  default: return problem;
  }
}

/**
 * The instance of a list; refused where a cell has a fault.
 * @param {Problem} problem
 */
function soundly(problem) {
  const clock = clockOf(problem), made = built(problem, clock), [fault] = [...clock.faults, ...made.faults];
  if (!fault) return made;
  const refused = new Refused(fault.code, ...fault.values);
  refused.fault = fault;
  throw refused;
}

/**
 * The pieces of a plan, in numbers of which so many are a unit of the list.
 * @param {Piece[]} pieces
 * @param {Built} made
 * @param {bigint} unit
 * @returns {Span[]}
 */
function spansOf(pieces, made, unit) {
  const places = new Map(made.jobs.map((it, at) => [it.row.id, at])), inUnits = (/** @type {Fraction} */ it) => times(it, fraction(unit));
  return pieces.flatMap(({ row, op, machine, from, to }) => {
    const job = places.get(row);
    return job === undefined ? [] : [{ job, number: op, machine: machine - 1, start: inUnits(from), end: inUnits(to) }];
  });
}

/**
 * The other way round.
 * @param {Span[]} spans
 * @param {Built} made
 * @param {bigint} unit
 * @returns {Piece[]}
 */
export function piecesOf(spans, made, unit) {
  const inUnits = (/** @type {Fraction} */ it) => over(it, fraction(unit));
  return spans.map(({ job, number, machine, start, end }) => ({ row: made.jobs[job].row.id, op: number, machine: machine + 1, from: inUnits(start),
    to: inUnits(end) }));
}

/**
 * The pieces of a plan from now on, as they stand.
 * @param {Leftover} left
 * @param {Span[]} spans
 * @returns {Span[]}
 */
function clipped({ plain, places, origin, machines, running, order }, spans) {
  const to = new Map(places.map((it, at) => [it, at])), now = fraction(origin), shift = plain.parts.release ? ZERO : now;
  const routed = kindOf(plain.parts) === 'J', open = new Set([...order, ...running].map(it => it.job));
  const last = new Map(spans.map(it => /** @type {[number, number]} */ ([it.job, 0])));
  for (const it of spans) last.set(it.job, Math.max(last.get(it.job) || 0, it.number));
  return spans.flatMap(it => {
    const job = to.get(it.job), machine = machines.get(it.machine);
    if (job === undefined || machine === undefined || !open.has(job) || compare(it.end, now) <= 0) return [];
    const number = routed ? it.number - ((last.get(it.job) || 0) - plain.jobs[job].route.length) : it.number;
    return [{ job, number, machine, start: minus(compare(it.start, now) < 0 ? now : it.start, shift), end: minus(it.end, shift) }];
  });
}

/**
 * How many numbers a unit of the list has, so that what has begun is whole; refused where they would be too great.
 * @param {Built[]} instances
 * @param {Piece[]} pieces
 * @param {Fraction} now
 */
function unitOf(instances, pieces, now) {
  const begun = new Set(pieces.filter(it => compare(it.from, now) < 0).map(it => it.row)), those = pieces.filter(it => begun.has(it.row));
  const all = [...instances.map(it => it.scale), now.d, ...(now.n ? those.flatMap(it => [it.from.d, it.to.d]) : [])].reduce(lcm, 1n);
  const most = instances.flatMap(it => it.jobs.flatMap(job => [...job.p, ...job.route.map(step => step[1]), job.r, ...(job.d ? [job.d] : [])]));
  if (most.some(it => it.n * all > GREATEST * it.d)) throw new Refused('ifTooFine');
  return all;
}

/**
 * What is left of both plans, in the same terms: where one machine would wait in one of them alone, what runs is kept in both.
 * @param {Built[]} instances before, and of the question
 * @param {Problem[]} lists
 * @param {Span[][]} spans
 * @param {bigint} now
 * @param {number[]} failed
 * @param {bigint} unit
 * @param {Piece[]} known pieces of what runs already
 * @returns {Leftover[]}
 */
function leftOfBoth(instances, lists, spans, now, failed, unit, known) {
  const plains = instances.map((it, at) => plainOf({ ...it, scale: unit }, lists[at].parts)), runs = instances.map(it => spansOf(known, it, unit));
  const lefts = (/** @type {boolean} */ pins) => plains.map((plain, at) =>
    leftOf(plain, spans[at], { now, failed: at ? failed : [], pins, runs: runs[at] }));
  const found = lefts(false), [before, after] = found.some(it => it && found[0] && it.origin !== found[0].origin) ? lefts(true) : found;
  if (!before || !after) throw new Refused('ifNothingLeft');
  return [before, after];
}

/**
 * The plan with which the search begins: where work may be cut and all stands in the old plan that as it stands, else its order carried on.
 * @param {Leftover} left
 * @param {Span[]} spans
 * @param {Rest} rest
 * @param {boolean} stands
 * @returns {{spans: Span[], given: Placed[] | null}}
 */
function goingOn(left, spans, rest, stands) {
  if (!rest.timed) throw new Refused('tooGreat');
  const planned = new Set(spans.map(it => it.job));
  if (left.plain.parts.cut && stands && left.places.every(it => planned.has(it))) return { spans: clipped(left, spans), given: null };
  const given = carriedOn(rest.timed, rest.order);
  return { spans: whole(rest, given), given };
}

/**
 * The answer to a question on a list and its plan; refused where the class has none, or a cell has a fault.
 * @param {Question} question
 * @param {Problem} problem
 * @param {Piece[]} pieces
 * @param {boolean} german
 * @param {Piece[]} [runs] pieces of what runs already
 * @returns {Answer}
 */
export function answered(question, problem, pieces, german, runs = []) {
  const old = soundly(problem), why = impossible(question.kind, problem, old.machines), now = greatest(question.now, ...runs.map(it => it.from));
  if (why) throw new Refused(why);
  if (question.now.n < 0n) throw new Refused('ifBefore');
  const changed = changedBy(question, problem, old), asked = soundly(changed), failed = question.kind === 'less' ? [question.machine - 1] : [];
  const unit = unitOf([old, asked], pieces, now), moment = times(now, fraction(unit)).n, lists = [problem, changed];
  const spans = [old, asked].map(it => spansOf(pieces, it, unit)), lefts = leftOfBoth([old, asked], lists, spans, moment, failed, unit, runs);
  const [before, after] = lefts, goes = moment > 0n || runs.length > 0, moves = goes || failed.length > 0, rest = restOf(after);
  const list = (/** @type {number} */ at) => relisted(lefts[at], unit, lists[at], [old, asked][at], german);
  const went = moves ? list(1) : changed, made = soundly(went), begin = goingOn(after, spans[1], rest, !failed.length);
  const was = goes ? list(0) : problem, beforePieces = goes ? piecesOf(clipped(before, spans[0]), soundly(was), unit) : pieces;
  return { problem: went, made, pieces: piecesOf(begin.spans, made, unit), spans: begin.spans, given: begin.given, rest,
    unit, before: { problem: was, pieces: beforePieces, rest: goes ? restOf(before) : null }, told: after.told, asked };
}

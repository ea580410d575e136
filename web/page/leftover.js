// What is left of a plan at a moment, as companions/msp_tools/leftover.py has it: the instance of the jobs that are not done, and what runs on.
// Where jobs have release dates moments stay what they are, and no release date is before now. Else moments count from now: due dates and
// curves are moved. What a class cannot say is told. Moments are those of the instance; jobs and machines count from 0, operations from 1.
import { fixedMachines, hasDue, kindOf } from './columns.js';
import { compare, fraction, minus, over, plus, times, ZERO } from '../fractions.js';
import { later, operations } from './loosening.js';
import { ENVIRONMENTS, nameOf } from '../names.js';

/** @typedef {import('../names.js').Parts} Parts */
/** @typedef {import('../fractions.js').Fraction} Fraction */
/** @typedef {import('./plain.js').Plain} Plain */
/** @typedef {import('./plain.js').PlainJob} PlainJob */
/** @typedef {import('./timing.js').Next} Next */
/** @typedef {{job: number, number: number, machine: number, start: Fraction, end: Fraction}} Span a piece of the plan, by the place of its job */
/**
 * What happened: the moment, the machines that are out of order, and whether what runs on one machine is kept there as elsewhere; else all
 * that is left begins when it ends. Operations that begin now may be known to run already.
 * @typedef {{now: bigint, failed: number[], pins: boolean, runs?: {job: number, number: number}[]}} Happened
 */
/** @typedef {{job: number, number: number, machine: number, left: bigint}} Running an operation that has begun, and what is left of its time */
/**
 * What is to be known: a job or a machine of -1 is none.
 * @typedef {{code: string, job: number, machine: number, values: (Fraction | string)[]}} Told
 */
/**
 * What is left: the instance; the places that its jobs had; the moment from which it counts; what runs on and stays where it is; the operations
 * behind it in the old order; the machines as they are counted now, by their old places; and what is to be known. Jobs are places of `plain`,
 * but those of `told` are places of the given instance.
 * @typedef {object} Leftover
 * @property {Plain} plain
 * @property {number[]} places
 * @property {bigint} origin
 * @property {Running[]} running
 * @property {Next[]} order
 * @property {Map<number, number>} machines
 * @property {Told[]} told
 */

/**
 * An operation as a key.
 * @param {number} job
 * @param {number} number
 */
function keyOf(job, number) { return `${job} ${number}`; }

/**
 * The least whole number that is as great.
 * @param {Fraction} it
 */
function ceiling({ n, d }) { return n > 0n ? (n + d - 1n) / d : n / d; }

/**
 * The class of so many of the machines of another one.
 * @param {Parts} parts
 * @param {number} count
 * @returns {Parts}
 */
export function onMachines(parts, count) {
  if (!fixedMachines(parts)) return parts;
  const kind = kindOf(parts) === '1' ? 'P' : kindOf(parts), named = `${kind}${count}`;
  return { ...parts, environment: count === 1 && kind === 'P' ? '1' : ENVIRONMENTS.includes(named) ? named : kind };
}

/** Takes stock of a plan. */
class Taker {
  /**
   * @param {Plain} given
   * @param {Span[]} pieces
   * @param {Happened} happened
   */
  constructor(given, pieces, happened) {
    this.given = given;
    this.happened = happened;
    /** @type {Map<string, Span[]>} */
    this.pieces = new Map();
    for (const it of [...pieces].sort((one, other) => compare(one.start, other.start) || compare(one.end, other.end))) {
      const key = keyOf(it.job, it.number);
      this.pieces.set(key, [...this.pieces.get(key) || [], it]);
    }
    const nameOfJob = (/** @type {Span} */ it) => given.jobs[it.job].name;
    /** The first piece of each operation, in the order of the plan. */
    this.firsts = Array.from(this.pieces.values(), ([first]) => first).sort((one, other) => compare(one.start, other.start)
      || (nameOfJob(one) < nameOfJob(other) ? -1 : nameOfJob(one) > nameOfJob(other) ? 1 : one.number - other.number));
    /** @type {Set<string>} */
    this.done = new Set();
    /** @type {Running[]} */
    this.running = [];
    /** What is left of operations that have begun.
     * @type {Map<string, bigint>} */
    this.rest = new Map();
    /** @type {Told[]} */
    this.told = [];
    for (const it of this.firsts) this.take(it);
  }

  /**
   * @param {string} code
   * @param {number} job
   * @param {number} machine
   * @param {...(Fraction | string)} values
   */
  tell(code, job, machine, ...values) { this.told.push({ code, job, machine, values }); }

  /**
   * The operations of a job that have work to do.
   * @param {number} job
   */
  operations(job) { return operations(this.given.jobs[job], this.given).flatMap(([, time], at) => time > 0n ? [at + 1] : []); }

  /**
   * The time of an operation on a machine; on uniform machines its work.
   * @param {number} job
   * @param {number} number
   * @param {number} machine
   */
  work(job, number, machine) {
    const { given } = this, { p } = given.jobs[job];
    return kindOf(given.parts) === 'R' && !given.parts.times ? p[machine] : operations(given.jobs[job], given)[number - 1][1];
  }

  /**
   * Finds whether an operation is done, or runs.
   * @param {Span} first
   */
  take(first) {
    const { job, number, machine, start } = first, pieces = this.pieces.get(keyOf(job, number)) || [], now = fraction(this.happened.now);
    if (this.waits(job, number)) return;
    if (pieces.every(it => compare(it.end, now) <= 0)) this.done.add(keyOf(job, number));
    else if (!this.hasBegun(job, number, start)) return;
    else if (this.given.parts.cut) this.cut(first, pieces);
    else if (!this.running.some(it => it.machine === machine)) this.begun(first, pieces);
  }

  /**
   * @param {number} job
   * @param {number} number
   * @param {Fraction} start
   */
  hasBegun(job, number, start) {
    const { now, runs = [] } = this.happened, far = compare(start, fraction(now));
    return far < 0 || far === 0 && runs.some(it => it.job === job && it.number === number);
  }

  /**
   * Whether something is not done that comes before an operation: then it cannot have begun.
   * @param {number} job
   * @param {number} number
   */
  waits(job, number) {
    const { given, done } = this, own = 'FJ'.includes(kindOf(given.parts)) ? this.operations(job).filter(it => it < number) : [];
    return own.some(it => !done.has(keyOf(job, it)))
      || given.arcs.some(([one, other]) => other === job && this.operations(one).some(it => !done.has(keyOf(one, it))));
  }

  /**
   * An operation has begun that may be cut: what is left of it goes on anywhere.
   * @param {Span} first
   * @param {Span[]} pieces
   */
  cut({ job, number, machine }, pieces) {
    const { given, happened } = this, now = fraction(happened.now), work = fraction(this.work(job, number, machine));
    const rate = (/** @type {number} */ at) => kindOf(given.parts) === 'R' ? over(work, fraction(this.work(job, number, at)))
      : fraction(given.speeds[at] || 1n);
    const spent = pieces.filter(it => compare(it.start, now) < 0)
      .map(it => times(minus(compare(it.end, now) < 0 ? it.end : now, it.start), rate(it.machine))).reduce(plus, ZERO);
    this.rest.set(keyOf(job, number), this.whole(job, minus(work, spent)));
  }

  /**
   * An operation has begun, and runs on.
   * @param {Span} first
   * @param {Span[]} pieces
   */
  begun({ job, number, machine }, pieces) {
    const { given, happened } = this;
    if (happened.failed.includes(machine)) {
      this.tell('leftAgain', job, machine);
      return;
    }
    const span = minus(pieces[pieces.length - 1].end, fraction(happened.now));
    const left = this.whole(job, times(span, fraction(given.speeds[machine] || 1n)));
    this.rest.set(keyOf(job, number), left);
    this.running.push({ job, number, machine, left });
  }

  /**
   * What is left, as a whole number of at least 1.
   * @param {number} job
   * @param {Fraction} value
   */
  whole(job, value) {
    const up = ceiling(value), found = up > 1n ? up : 1n;
    if (compare(value, fraction(found)) !== 0) this.tell('leftRounded', job, -1, value, fraction(found));
    return found;
  }
}

/** Builds the instance of what is left. */
class Builder {
  /** @param {Taker} taker */
  constructor(taker) {
    this.taker = taker;
    this.given = taker.given;
    this.failed = taker.happened.failed;
    this.origin = taker.happened.now;
    this.running = taker.running;
    if (kindOf(this.given.parts) === '1' && this.running.length && !taker.happened.pins) this.wait(this.running[0]);
    this.dated = this.given.parts.release !== '';
    this.shift = this.dated ? 0n : this.origin;
  }

  /**
   * One machine: what runs ends, and all else comes behind it.
   * @param {Running} only
   */
  wait({ job, number, left }) {
    this.origin += left;
    this.taker.tell('leftUntil', job, -1, fraction(this.origin));
    this.taker.done.add(keyOf(job, number));
    this.running = [];
  }

  /**
   * What is left of an operation, or all of its time.
   * @param {number} job
   * @param {number} number
   * @param {bigint} time
   */
  rest(job, number, time) {
    const left = this.taker.rest.get(keyOf(job, number));
    return left === undefined ? time : left;
  }

  /**
   * The operations of a job that are not done.
   * @param {number} job
   */
  open(job) { return this.taker.operations(job).filter(it => !this.taker.done.has(keyOf(job, it))); }

  /**
   * The times of a job without what is done.
   * @param {number} job
   * @returns {Partial<PlainJob>}
   */
  times(job) {
    const { given } = this, kind = kindOf(given.parts), steps = operations(given.jobs[job], given), open = this.open(job);
    const stepsLeft = steps.map(([machine, time], at) => /** @type {[number, bigint]} */ ([machine, this.rest(job, at + 1, time)]));
    if (kind === 'J') return { route: open.map(it => stepsLeft[it - 1]) };
    if ('OF'.includes(kind)) return { p: stepsLeft.map(([, time], at) => open.includes(at + 1) ? time : 0n) };
    return { p: kind === 'R' ? this.apart(job) : [stepsLeft[0][1]] };
  }

  /**
   * The times of a job on unrelated machines: on each the same share of its time.
   * @param {number} job
   */
  apart(job) {
    const { given, taker, failed } = this, left = taker.rest.get(keyOf(job, 1)), [first] = taker.pieces.get(keyOf(job, 1)) || [];
    const all = Array.from({ length: given.machines }, (_, at) => taker.work(job, 1, at));
    const share = (/** @type {bigint} */ time) => {
      const found = ceiling(over(fraction((left || 0n) * time), fraction(all[first.machine])));
      return found > 1n ? found : 1n;
    };
    return (left === undefined ? all : all.map(share)).filter((_, at) => !failed.includes(at));
  }

  /**
   * A job that is not done, with its dates as they count now.
   * @param {number} job
   * @returns {PlainJob}
   */
  job(job) {
    const { dated, shift, origin, given } = this, before = given.jobs[job], { r } = before;
    const moved = later(before, shift), d = hasDue(given.parts) ? moved.d || 0n : before.d;
    return { ...before, ...moved, d, ...this.times(job), r: dated && r < origin ? origin : r };
  }

  /**
   * The class: another one where a job does not keep the time that all share, or a machine is out of order.
   * @param {PlainJob[]} jobs
   */
  parts(jobs) {
    const { given: { parts, shared, machines }, failed, taker } = this, left = machines - failed.length;
    const keeps = jobs.every(it => [...it.p, ...it.route.map(step => step[1])].every(time => time === shared));
    const general = parts.times && !keeps ? { ...parts, times: '' } : parts, found = failed.length ? onMachines(general, left) : general;
    if (general !== parts) taker.tell('leftShared', -1, -1, nameOf(general));
    if (found !== general) taker.tell('leftFewer', -1, -1, fraction(left), nameOf(found));
    return found;
  }

  /** The machines as they are counted now, by their old places. */
  machines() {
    const left = Array.from({ length: this.given.machines }, (_, at) => at).filter(it => !this.failed.includes(it));
    left.forEach((old, now) => { if (old !== now) this.taker.tell('leftCounted', -1, old, fraction(now + 1)); });
    return new Map(left.map((old, now) => [old, now]));
  }

  /**
   * Says what the class cannot: that what has begun stays on its machine, and goes on at once.
   * @param {Parts} parts
   */
  sayPinned(parts) {
    for (const { job, machine, left } of this.running) {
      const until = plus(fraction(this.taker.happened.now), over(fraction(left), fraction(this.given.speeds[machine] || 1n)));
      const where = 'PQ'.includes(kindOf(parts)) ? nameOf({ ...parts, environment: 'R' }) : '';
      this.taker.tell('leftPinned', job, machine, until, nameOf(parts), where);
    }
  }

  /** @returns {Leftover | null} */
  leftover() {
    const { given, taker, origin } = this, places = given.jobs.map((_, at) => at).filter(it => this.open(it).length);
    if (!places.length) return null;
    const jobs = places.map(it => this.job(it)), to = new Map(places.map((it, at) => [it, at]));
    const place = (/** @type {number} */ it) => to.get(it) || 0;
    const arcs = given.arcs.filter(it => it.every(job => to.has(job))).map(([one, other]) =>
      /** @type {[number, number]} */ ([place(one), place(other)]));
    const parts = this.parts(jobs), machines = this.machines(), speeds = given.speeds.filter((_, at) => machines.has(at));
    const costs = /^Cmax$|^sumw?C$/.test(given.parts.criterion);
    this.sayPinned(parts);
    if (!this.dated && origin) taker.tell(costs ? 'leftFromCosts' : 'leftFrom', -1, -1, fraction(origin));
    const plain = { parts, machines: machines.size, speeds, shared: given.shared, arcs,
      jobs: parts.times ? jobs.map((it, at) => ({ ...it, p: given.jobs[places[at]].p })) : jobs };
    const running = this.running.map(it => ({ ...it, job: place(it.job), machine: machines.get(it.machine) || 0 }));
    return { plain, places, origin, running, order: this.order(machines, to), machines, told: taker.told };
  }

  /**
   * What is left and does not run, in the old order; what the plan does not have comes last.
   * @param {Map<number, number>} machines
   * @param {Map<number, number>} to
   * @returns {Next[]}
   */
  order(machines, to) {
    const { taker, running } = this, isNext = (/** @type {number} */ job, /** @type {number} */ number) => to.has(job)
      && this.open(job).includes(number) && !running.some(it => it.job === job && it.number === number);
    const routed = kindOf(this.given.parts) === 'J', next = (/** @type {number} */ job, /** @type {number} */ number, machine = -1) => ({
      job: to.get(job) || 0, number: routed ? this.open(job).indexOf(number) + 1 : number, machine: machine < 0 ? null : machine });
    const planned = taker.firsts.filter(it => isNext(it.job, it.number)).map(it => next(it.job, it.number, machines.get(it.machine)));
    const isNew = (/** @type {number} */ job) => (/** @type {number} */ number) => !taker.pieces.has(keyOf(job, number));
    return [...planned, ...[...to.keys()].flatMap(job => this.open(job).filter(isNew(job)).map(it => next(job, it)))];
  }
}

/**
 * What is left of a plan; null where nothing is.
 * @param {Plain} given
 * @param {Span[]} pieces
 * @param {Happened} happened
 * @returns {Leftover | null}
 */
export function leftOf(given, pieces, happened) { return new Builder(new Taker(given, pieces, happened)).leftover(); }

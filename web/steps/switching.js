// One machine, release dates, jobs that may be cut: at each release date and each end the best of the jobs that are there.
import { compare, minus, plus, ZERO } from '../fractions.js';
import { allOf, dueOf, timeOf } from './jobs.js';
import { said, Telling, valued } from './telling.js';

/** @typedef {import('./types.js').Instance} Instance */
/** @typedef {import('./types.js').Step} Step */
/** @typedef {import('../fractions.js').Fraction} Fraction */
/** @typedef {{from: Fraction, to: Fraction, there: number[], running: number, cut: number}} Stretch `cut` is -1 where no job is cut */

/** What runs, stretch by stretch. */
class Machine {
  /**
   * @param {Instance} instance
   * @param {(job: number, rest: Fraction) => Fraction} compared
   */
  constructor(instance, compared) {
    this.instance = instance;
    this.compared = compared;
    this.rest = instance.jobs.map((_, job) => timeOf(instance, job));
    this.last = -1;
    this.now = instance.jobs.map(it => it.r).reduce((first, it) => compare(it, first) < 0 ? it : first);
  }

  /** @param {number} job */
  value(job) { return this.compared(job, this.rest[job]); }

  /**
   * Of the jobs that are there the first of the least value; the one that runs stays where equal.
   * @param {number[]} there
   */
  best(there) {
    return there.reduce((best, it) => {
      const difference = compare(this.value(it), this.value(best));
      return difference < 0 || difference === 0 && it === this.last ? it : best;
    });
  }

  /** The next release date, or null. */
  coming() {
    return this.instance.jobs.map(it => it.r).filter(it => compare(it, this.now) > 0)
      .reduce((/** @type {Fraction | null} */ first, it) => first && compare(first, it) <= 0 ? first : it, null);
  }

  /**
   * What runs until the next end or release date; null where nothing is there until then.
   * @returns {Stretch | null}
   */
  next() {
    const there = allOf(this.instance).filter(it => this.rest[it].n > 0n && compare(this.instance.jobs[it].r, this.now) <= 0);
    const coming = this.coming();
    if (!there.length) {
      this.now = coming || this.now;
      return null;
    }
    const running = this.best(there), end = plus(this.now, this.rest[running]), to = coming && compare(coming, end) < 0 ? coming : end;
    return { from: this.now, to, there, running, cut: this.last >= 0 && this.last !== running && this.rest[this.last].n > 0n ? this.last : -1 };
  }

  /** @param {Stretch} stretch */
  pass({ from, to, running }) {
    this.rest[running] = minus(this.rest[running], minus(to, from));
    this.now = to;
    this.last = running;
  }
}

/**
 * @param {Telling} telling
 * @param {Stretch} stretch
 */
function put(telling, { from, to, running }) {
  const { pieces } = telling, last = pieces[pieces.length - 1];
  if (last && last.job === running && compare(last.to, from) === 0) telling.pieces = [...pieces.slice(0, -1), { ...last, to }];
  else telling.put({ job: running, op: 1, machine: 1, from, to });
}

/**
 * @param {Instance} instance
 * @param {(job: number, rest: Fraction) => Fraction} compared
 * @param {string} key
 * @returns {Step[]}
 */
function switching(instance, compared, key) {
  const telling = new Telling(said('from'), said('to'), said('there', said(key)), said('runs'), said('cut'));
  const machine = new Machine(instance, compared);
  while (machine.rest.some(it => it.n > 0n)) {
    const stretch = machine.next();
    if (!stretch) continue;
    const { from, to, there, running, cut } = stretch, value = machine.value(running);
    telling.row(from, to, valued(there, it => machine.value(it)), { job: running }, cut >= 0 ? { job: cut } : null);
    put(telling, stretch);
    if (cut >= 0) telling.last(said(`${key} cuts`, from, { job: running }, value, { job: cut }), 4, 'dropped');
    else telling.last(said(`${key} runs`, from, { job: running }, value), 3);
    machine.pass(stretch);
  }
  return telling.steps;
}

/**
 * The sum of the ends: shortest remaining time first.
 * @param {Instance} instance
 */
export function steps(instance) { return switching(instance, (_, rest) => rest || ZERO, 'remaining'); }

/**
 * The greatest lateness: earliest due date first.
 * @param {Instance} instance
 */
export function dueSteps(instance) { return switching(instance, job => dueOf(instance, job), 'dues'); }

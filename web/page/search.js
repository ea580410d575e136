// Plans where there is no solver: orders by rules, bettered by insertions. Whether a plan goes, and what it costs, the program says.
import { active, allowed, costOf, serial, serialShop } from './timing.js';

/** @typedef {import('./plain.js').Timed} Timed */
/** @typedef {import('./timing.js').Placed} Placed */
/** @typedef {{rule: string, cost: number, placed: Placed[]}} Tried */

const MOST_OUT = 4, WARMTH = 0.4, MOST_PLACES = 150, SOME_PLACES = 60;

/**
 * The order of jobs by a number, the least first.
 * @param {number} count
 * @param {(job: number) => number} key
 */
function byNumber(count, key) { return Array.from({ length: count }, (_, job) => job).sort((one, other) => key(one) - key(other) || one - other); }

/**
 * The orders of the named rules.
 * @param {Timed} timed
 * @returns {Object<string, number[]>}
 */
export function orders(timed) {
  const count = timed.release.length, { due, weight, release } = timed;
  const workOf = (/** @type {number} */ job) => timed.shop ? timed.steps[job].reduce((sum, it) => sum + it.time, 0) : Math.min(...timed.times[job]);
  const work = release.map((_, job) => workOf(job));
  /** @type {Object<string, number[]>} */
  const found = { listed: byNumber(count, job => job), shortest: byNumber(count, job => work[job]), longest: byNumber(count, job => -work[job]) };
  if (due.some(Boolean)) {
    found.dueDate = byNumber(count, job => due[job]);
    found.slack = byNumber(count, job => due[job] - work[job]);
  }
  if (weight.some(it => it !== 1)) found.weighted = byNumber(count, job => work[job] / weight[job]);
  if (release.some(Boolean)) found.release = byNumber(count, job => release[job]);
  return found;
}

/**
 * The plans of all rules, each by `serial` and in shops by `active` too, the cheapest first.
 * @param {Timed} timed
 * @returns {Tried[]}
 */
export function byRules(timed) {
  const found = Object.entries(orders(timed)).flatMap(([rule, order]) => [serial(timed, order), ...(timed.shop ? [active(timed, order)] : [])]
    .map((placed, at) => ({ rule: at ? `active ${rule}` : rule, cost: costOf(timed, placed), placed })));
  return found.sort((one, other) => one.cost - other.cost);
}

/**
 * Numbers from 0 to 1 from a seed.
 * @param {number} seed
 */
export function numbers(seed) {
  let state = seed >>> 0;
  return () => {
    state = state + 0x6d2b79f5 >>> 0;
    let it = Math.imul(state ^ state >>> 15, state | 1);
    it ^= it + Math.imul(it ^ it >>> 7, it | 61);
    return ((it ^ it >>> 14) >>> 0) / 4294967296;
  };
}

/** A search that takes some places out of an order, and puts each back where the plan costs least. */
export class Search {
  /**
   * @param {Timed} timed
   * @param {number} seed
   * @param {Placed[] | null} given a plan to begin with, where no rule has a better one
   */
  constructor(timed, seed, given = null) {
    this.timed = timed;
    this.random = numbers(seed);
    this.tried = 0;
    const old = given ? [{ rule: 'going on', cost: costOf(timed, given), placed: given }] : [];
    const [first] = [...old, ...byRules(timed)].sort((one, other) => one.cost - other.cost);
    this.best = first;
    this.order = this.tokens(first.placed);
    this.cost = this.costOf(this.order);
    this.note(this.order, this.cost);
  }

  /**
   * The order of a plan, by the begins of its pieces.
   * @param {Placed[]} placed
   */
  tokens(placed) {
    const order = placed.slice().sort((one, other) => one.start - other.start || one.machine - other.machine).map(it => it.job);
    return this.timed.shop ? order : allowed(this.timed, order);
  }

  /** @param {number[]} order */
  plan(order) { return this.timed.shop ? serialShop(this.timed, order) : serial(this.timed, order); }

  /** @param {number[]} order */
  costOf(order) {
    this.tried++;
    return costOf(this.timed, this.plan(order));
  }

  /**
   * Keeps an order that costs less than all before it.
   * @param {number[]} order
   * @param {number} cost
   */
  note(order, cost) {
    if (cost >= this.best.cost) return false;
    this.best = { rule: 'insertions', cost, placed: this.plan(order) };
    return true;
  }

  /**
   * The places that are tried: all, or some by chance where there are many.
   * @param {number} count
   */
  places(count) {
    if (count <= MOST_PLACES) return Array.from({ length: count }, (_, at) => at);
    return Array.from({ length: SOME_PLACES }, () => Math.floor(this.random() * count));
  }

  /**
   * An order with a job put where it costs least, of equal places one by chance.
   * @param {number[]} order
   * @param {number} job
   */
  inserted(order, job) {
    let best = Infinity, found = order, equal = 0;
    for (const at of this.places(order.length + 1)) {
      const other = [...order.slice(0, at), job, ...order.slice(at)], cost = this.costOf(other);
      if (cost > best) continue;
      equal = cost < best ? 1 : equal + 1;
      if (equal === 1 || this.random() * equal < 1) found = other;
      best = cost;
    }
    return { order: found, cost: best };
  }

  /** One step; whether it found a plan that costs less than all before it. */
  step() {
    const out = [], count = Math.min(this.order.length, 1 + Math.floor(this.random() * MOST_OUT));
    let order = this.order.slice(), cost = this.cost;
    for (let at = 0; at < count; at++) out.push(...order.splice(Math.floor(this.random() * order.length), 1));
    for (const job of out) ({ order, cost } = this.inserted(order, job));
    const worse = cost - this.cost, warmth = WARMTH * Math.abs(this.cost) / Math.max(1, this.order.length) / 4;
    if (worse <= 0 || this.random() < Math.exp(-worse / Math.max(warmth, 1e-9))) [this.order, this.cost] = [order, cost];
    return this.note(order, cost);
  }
}

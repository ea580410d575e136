// Horn: the weighted sum of the ends, where each job waits for at most one other, or is waited for by at most one: blocks by Smith's ratios.
import { compare, minus, over, plus, ZERO } from '../fractions.js';
import { afterOf, allOf, beforeOf, count, inLine, timeOf, workOf } from './jobs.js';
import { listed, said, Telling } from './telling.js';

/** @typedef {import('./types.js').Instance} Instance */
/** @typedef {import('../fractions.js').Fraction} Fraction */
/** @typedef {{jobs: number[], time: Fraction, weight: Fraction}} Block jobs that run one behind another */

/** @param {Block} it */
function ratio(it) { return over(it.time, it.weight); }

/**
 * Two blocks as one.
 * @param {Block} one
 * @param {Block} other
 * @returns {Block}
 */
function joined(one, other) {
  return { jobs: [...one.jobs, ...other.jobs], time: plus(one.time, other.time), weight: plus(one.weight, other.weight) };
}

/** Blocks that wait for at most one other each, from the first one on; or, mirrored, from the last one on. */
class Blocks {
  /** @param {Instance} instance */
  constructor(instance) {
    const weighted = instance.name.endsWith('sumwC');
    this.instance = instance;
    this.mirrored = instance.name.includes('intree');
    this.near = this.mirrored ? afterOf(instance) : beforeOf(instance);
    /** @type {Block[]} */
    this.rest = instance.jobs.map((it, job) => ({ jobs: [job], time: timeOf(instance, job), weight: weighted ? it.w : count(1) }));
    /** @type {number[]} */
    this.order = [];
  }

  /** The block whose turn it is: of the least ratio, or mirrored of the greatest. */
  best() {
    const sign = this.mirrored ? -1 : 1;
    return this.rest.reduce((best, it) => sign * compare(ratio(it), ratio(best)) < 0 ? it : best);
  }

  /**
   * Takes a block away: into the order, or to the block next to which it has to be, which is told.
   * @param {Block} block
   */
  take(block) {
    const [next] = this.near[block.jobs[this.mirrored ? block.jobs.length - 1 : 0]], parent = this.rest.find(it => it.jobs.includes(next));
    this.rest = this.rest.filter(it => it !== block);
    if (!parent) this.order = this.mirrored ? [...block.jobs, ...this.order] : [...this.order, ...block.jobs];
    else this.rest = this.rest.map(it => it !== parent ? it : this.mirrored ? joined(block, parent) : joined(parent, block));
    return parent || null;
  }

  /** The pieces of the order: at the front, or mirrored at the end. */
  pieces() {
    const begin = this.mirrored ? minus(workOf(this.instance, allOf(this.instance)), workOf(this.instance, this.order)) : ZERO;
    return inLine(this.instance, this.order, begin);
  }
}

/**
 * Of all blocks the one of the least ratio comes next: at once where it waits for none, else right behind the block for which it waits.
 * @param {Instance} instance
 * @returns {import('./types.js').Step[]}
 */
export function steps(instance) {
  const telling = new Telling(said('step'), said('block'), said('time'), said('weight'), said('ratio'), said('then'));
  const blocks = new Blocks(instance), [behind, next, mark] = blocks.mirrored ? ['front', 'last', 'mirrored '] : ['behind', 'next', ''];
  for (let step = 1; blocks.rest.length; step++) {
    const block = blocks.best(), parent = blocks.take(block), jobs = listed(block.jobs);
    telling.row(count(step), jobs, block.time, block.weight, ratio(block), parent ? said(behind, listed(parent.jobs)) : said(next));
    telling.pieces = blocks.pieces();
    if (parent) telling.last(said(`horn ${mark}joins`, jobs, ratio(block), listed(parent.jobs)), 5);
    else telling.last(said(`horn ${mark}takes`, jobs, ratio(block)), 5);
  }
  return telling.steps;
}

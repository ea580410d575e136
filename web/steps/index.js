// The rules that are told step by step, and which of them fit a class.
import { partsOf, rankOf } from '../names.js';
import * as assignment from './assignment.js';
import * as coffman from './coffman.js';
import * as horn from './horn.js';
import * as hu from './hu.js';
import * as jackson from './jackson.js';
import * as johnson from './johnson.js';
import * as lawler from './lawler.js';
import * as mcnaughton from './mcnaughton.js';
import * as moore from './moore.js';
import * as openShop from './open-shop.js';
import * as smith from './smith.js';
import * as switching from './switching.js';

/** @typedef {import('../names.js').Parts} Parts */
/** @typedef {import('./types.js').Instance} Instance */
/** @typedef {import('./types.js').Step} Step */
/**
 * A rule: its key, whose words are `name KEY` and `rule KEY` of words.js; the classes that it fits; its steps of an instance that the program
 * solves.
 * @typedef {{key: string, fits: (parts: Parts) => boolean, steps: (instance: Instance) => Step[]}} Rule
 */

const IDENTICAL = ['P2', 'P3', 'P'], TREES = ['chains', 'intree', 'outtree'];

/**
 * A test of a class by its words: environments, preemption, orders, release dates, times and criteria.
 * @param {string[]} environments
 * @param {string} cut
 * @param {string[]} orders
 * @param {string} release
 * @param {string[]} times
 * @param {string[]} criteria
 * @returns {(parts: Parts) => boolean}
 */
function those(environments, cut, orders, release, times, criteria) {
  return parts => environments.includes(parts.environment) && parts.cut === cut && orders.includes(parts.order) && parts.release === release
    && times.includes(parts.times) && criteria.includes(parts.criterion) && (parts.short !== '') === environments[0].startsWith('J');
}

const ANY = ['', 'p=1', 'p=p'], UNIT = ['p=1'], NONE = [''];

/** @type {Rule[]} */
export const RULES = [
  { key: 'smith', fits: those(['1'], '', NONE, '', ANY, ['sumC', 'sumwC']), steps: smith.steps },
  { key: 'lawler', fits: those(['1'], '', ['', ...TREES, 'prec'], '', ANY, ['Lmax', 'fmax']), steps: lawler.steps },
  { key: 'moore', fits: those(['1'], '', NONE, '', ANY, ['sumU']), steps: moore.steps },
  { key: 'horn', fits: those(['1'], '', TREES, '', ANY, ['sumC', 'sumwC']), steps: horn.steps },
  { key: 'hu', fits: those(IDENTICAL, '', TREES, '', UNIT, ['Cmax']), steps: hu.steps },
  { key: 'coffman', fits: those(['P2'], '', [...TREES, 'prec'], '', UNIT, ['Cmax']), steps: coffman.steps },
  { key: 'mcnaughton', fits: those(IDENTICAL, 'pmtn', NONE, '', ANY, ['Cmax']), steps: mcnaughton.steps },
  { key: 'remaining', fits: those(['1'], 'pmtn', NONE, 'r', ANY, ['sumC']), steps: switching.steps },
  { key: 'dues', fits: those(['1'], 'pmtn', NONE, 'r', ANY, ['Lmax']), steps: switching.dueSteps },
  { key: 'johnson', fits: those(['F2'], '', NONE, '', ANY, ['Cmax']), steps: johnson.steps },
  { key: 'jackson', fits: those(['J2'], '', NONE, '', ANY, ['Cmax']), steps: jackson.steps },
  { key: 'open', fits: those(['O2'], '', NONE, '', ANY, ['Cmax']), steps: openShop.steps },
  { key: 'assignment', fits: those(['R2', 'R'], '', NONE, '', ANY, ['sumC']), steps: assignment.steps },
];

/**
 * The rules that fit a class, by its canonical name.
 * @param {string} name
 * @returns {Rule[]}
 */
export function rulesOf(name) {
  const rank = rankOf(name);
  return rank < 0 ? [] : RULES.filter(it => it.fits(partsOf(rank)));
}

/**
 * The rule of a key, or null.
 * @param {string} key
 */
export function ruleOf(key) { return RULES.find(it => it.key === key) || null; }

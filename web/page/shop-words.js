// A shop's words: its unit of time, its shifts, its free days, the names of its machines; kept in the browser's store where the person says so.
import { list, record, text } from './state.js';

/** @typedef {import('./instance.js').Problem} Problem */
/** @typedef {Pick<Problem, 'unit' | 'shifts' | 'holidays' | 'machineNames'>} Shop */
/**
 * What the store says: the words that are kept, or null; and whether it let itself be read.
 * @typedef {{shop: Shop | null, open: boolean}} Kept
 */

/** The name under which the words are kept, and how their text begins. */
export const PLACE = 'msp-shop';
const VERSION = 'msp-shop 1', MOST_MACHINES = 64;

/**
 * The words of the shop in a problem.
 * @param {Problem} problem
 * @returns {Shop}
 */
export function shopOf({ unit, shifts, holidays, machineNames }) {
  return { unit, shifts, holidays, machineNames: machineNames.some(it => it.trim()) ? machineNames : [] };
}

/**
 * Whether there is something to keep.
 * @param {Shop} shop
 */
export function hasWords({ unit, shifts, holidays, machineNames }) { return Boolean(unit || shifts || holidays || machineNames.length); }

/**
 * The words as the store has them.
 * @param {Shop} shop
 */
export function shopText(shop) { return JSON.stringify({ is: VERSION, ...shop }); }

/**
 * The words in a text; null where it has none.
 * @param {string} said
 * @returns {Shop | null}
 */
export function shopIn(said) {
  let value;
  try {
    value = record(JSON.parse(said));
  } catch (fault) {
    return null;
  }
  const shop = shopOf(/** @type {Problem} */ ({ unit: text(value.unit), shifts: text(value.shifts), holidays: text(value.holidays),
    machineNames: list(value.machineNames).slice(0, MOST_MACHINES).map(text) }));
  return value.is === VERSION && hasWords(shop) ? shop : null;
}

/** The words that are kept. A store that refuses, or is not there, is no fault. */
export class Shelf {
  /** @param {() => Storage | null | undefined} storage which may throw where the browser keeps nothing */
  constructor(storage) { this.storage = storage; }

  /** @returns {Storage} */
  get store() {
    const found = this.storage();
    if (!found) throw new Error('there is no store');
    return found;
  }

  /** What is kept.
   * @returns {Kept} */
  get kept() {
    try {
      const said = this.store.getItem(PLACE);
      return { shop: said === null ? null : shopIn(said), open: true };
    } catch (fault) {
      return { shop: null, open: false };
    }
  }

  /**
   * Keeps words, and says whether the store has them now.
   * @param {Shop} shop
   */
  keep(shop) {
    try {
      this.store.setItem(PLACE, shopText(shop));
      return this.store.getItem(PLACE) === shopText(shop);
    } catch (fault) {
      return false;
    }
  }

  /** Deletes what is kept, and says whether nothing is kept now. */
  drop() {
    try {
      this.store.removeItem(PLACE);
      return this.store.getItem(PLACE) === null;
    } catch (fault) {
      return false;
    }
  }
}

// What is known of each class: labels, rows to harder and easier classes, solvers, the frontier.
import { chainOf, KINDS } from './chains.js';
import { nameOf, NAMES, partsOf, rankOf } from './names.js';

/** @typedef {import('./chains.js').Step} Step */
/** @typedef {import('./chains.js').Kind} Kind */
/** @typedef {import('./chains.js').Chain} Chain */
/** @typedef {import('./names.js').Parts} Parts */
/** @typedef {import('./reading.js').Fixed} Fixed */
/** @typedef {[number, string, string]} Entry an entry of the results: its class, what it claims, and its source */
/**
 * Labels, chains and frontier under one file of results.
 * @typedef {{labels: string, chains: Record<Kind, string>, frontier: Object<string, number[]>}} Told
 */
/**
 * What companions/atlas puts into the page.
 * @typedef {Object} Facts
 * @property {string[]} label_names
 * @property {Object<string, string>} rows
 * @property {[number, number][]} pairs
 * @property {string} steps
 * @property {Object<string, Entry>} entries
 * @property {Object<string, string[]>} references
 * @property {Object<string, [string, string]>} texts
 * @property {Object<string, [string, string]>} finds
 * @property {Object<string, string>} proofs
 * @property {Object<string, [string, string]>} open
 * @property {Object<string, [string, number, Step[] | null]> | null} solvers
 * @property {number[][]} problems
 * @property {number} asked
 * @property {[string, number, Step[]][]} clashes
 * @property {Told} [published] what follows from the published results alone
 * @property {number[]} [own] the entries that rest on a proof that no journal has seen
 * @property {Object<string, [string, string, string]>} [facts] time, problem outside of the table, and their source, by entry
 * @property {Object<string, string>} [sections] the text of each proof by its heading
 * @property {Object<string, string[]>} [chapters] the headings of each chapter of the proofs
 * @property {{version: string, title: string, author: string, released: string}} [citation]
 */
/** @typedef {Facts & Told} Data */

/** The lists of the frontier. */
export const FRONTIER = ['maximal easy', 'minimal hard', 'minimal open', 'maximal open'];

/** What is known under one file of results. */
class Knowledge {
  /**
   * @param {string[]} names the names of labels
   * @param {Told} told
   * @param {Knowledge | null} other whose chains are those for which `=` stands
   */
  constructor(names, told, other) {
    this.labels = told.labels.split('').map(it => names[Number(it)]);
    this.frontier = told.frontier;
    this.packed = told.chains;
    this.other = other;
    /** @type {Map<Kind, string[]>} */
    this.words = new Map();
  }

  /**
   * The packed chain of a class, where `=` stands for that of the other results. The words of a kind are split when they are first asked for.
   * @param {Kind} kind
   * @param {number} at
   * @returns {string}
   */
  wordOf(kind, at) {
    let words = this.words.get(kind);
    if (!words) this.words.set(kind, words = this.packed[kind].split(','));
    return words[at] === '=' && this.other ? this.other.wordOf(kind, at) : words[at];
  }

  /**
   * The chains behind a label, by their kinds.
   * @param {number} at
   * @returns {[Kind, Chain][]}
   */
  chainsOf(at) {
    /** @type {[Kind, Chain][]} */
    const found = [];
    for (const kind of KINDS) {
      const chain = chainOf(it => this.wordOf(kind, it), kind, at);
      if (chain) found.push([kind, chain]);
    }
    return found;
  }

  /** How many classes have each label. */
  counts() {
    /** @type {Object<string, number>} */
    const found = {};
    for (const it of this.labels) found[it] = (found[it] || 0) + 1;
    return found;
  }
}

/** The table of all classes. */
export class Atlas {
  /** @param {Data} data */
  constructor(data) {
    this.data = data;
    this.all = new Knowledge(data.label_names, data, null);
    this.published = data.published ? new Knowledge(data.label_names, data.published, this.all) : null;
    /** @type {Map<number, number[]>} */
    this.problems = new Map();
    for (const those of data.problems) for (const at of those) this.problems.set(at, those);
    /** @type {string[]} */
    this.words = [];
    /** @type {Map<number, Step[]>} */
    this.steps = new Map();
    /** How far behind a class those stand to which rows lead, the farthest first. */
    this.distances = Array.from(new Set(data.pairs.map(([, far]) => far))).sort((one, other) => other - one);
  }

  /**
   * The rows that apply to a class, each with the class to which it leads: at least as hard. They are unpacked when they are first asked for:
   * numbers of pairs of a row and the distance to the class to which it leads.
   * @param {number} at
   * @returns {Step[]}
   */
  above(at) {
    const known = this.steps.get(at);
    if (known) return known;
    if (!this.words.length) this.words = this.data.steps.split(',');
    /** @type {Step[]} */
    const found = this.words[at] ? this.words[at].split(' ').map(it => this.data.pairs[Number(it)]).map(([row, far]) => [row, at + far]) : [];
    this.steps.set(at, found);
    return found;
  }

  /**
   * The rows that lead to a class, each with the class from which it leads: at most as hard.
   * @param {number} at
   * @returns {Step[]}
   */
  below(at) {
    /** @type {Step[]} */
    const found = [];
    for (const from of this.distances.map(far => at - far).filter(it => it >= 0 && it < NAMES.length)) {
      for (const [row, to] of this.above(from)) if (to === at) found.push([row, from]);
    }
    return found;
  }

  /**
   * The classes that lead to each other with this one, itself among them.
   * @param {number} at
   * @returns {number[]}
   */
  problem(at) { return this.problems.get(at) || [at]; }

  /**
   * The solver of a class, the rows of its chain and the chain itself where it is at hand; null where there is no solver.
   * @param {number} at
   */
  solver(at) { return this.data.solvers && this.data.solvers[at] || null; }

  /**
   * All classes to which chains lead from a class, itself among them.
   * @param {number} at
   * @returns {Set<number>}
   */
  reached(at) {
    const seen = new Set([at]), waiting = [at];
    for (let here = waiting.pop(); here !== undefined; here = waiting.pop()) {
      for (const [, to] of this.above(here)) if (!seen.has(to)) { seen.add(to); waiting.push(to); }
    }
    return seen;
  }
}

/**
 * What is known for a fixed number of machines above those that have names: a word, and the class that decides (-1 for none).
 * @param {string[]} labels
 * @param {Parts} parts the parts of the name, whatever its environment
 * @param {string} kind P, Q, R, O, F or J
 * @returns {{verdict: 'easy' | 'hard' | 'strong' | 'unknown', by: number}}
 */
export function manyMachines(labels, parts, kind) {
  const wide = rankOf(nameOf({ ...parts, environment: kind }));
  if (labels[wide] === 'easy') return { verdict: 'easy', by: wide };
  const small = kind === 'J' ? 'J2' : (kind === 'F' || kind === 'O') && !parts.times ? `${kind}3` : '';
  const by = small ? rankOf(nameOf({ ...parts, environment: small })) : -1;
  if (by < 0 || !['strong', 'hard', 'weak'].includes(labels[by])) return { verdict: 'unknown', by: -1 };
  return { verdict: labels[by] === 'strong' ? 'strong' : 'hard', by };
}

/**
 * The class with p=p that the books mean by p=1 on uniform machines of any speeds, where its label is another; else -1.
 * @param {string[]} labels
 * @param {number} at
 */
export function withAnySpeeds(labels, at) {
  const parts = partsOf(at);
  if (parts.environment[0] !== 'Q' || parts.times !== 'p=1') return -1;
  const other = rankOf(nameOf({ ...parts, times: 'p=p' }));
  return labels[other] === labels[at] ? -1 : other;
}

/**
 * The hardest or the easiest classes with some labels among classes that are given, one of each problem. The labels are such that a class
 * between two of them has one of them too: easy, or hard, or open.
 * @param {Atlas} atlas
 * @param {string[]} labels
 * @param {number[]} among
 * @param {string[]} wanted
 * @param {boolean} hardest whether the hardest are asked for, and not the easiest
 * @returns {number[]}
 */
export function ends(atlas, labels, among, wanted, hardest) {
  const inside = new Set(among.filter(at => wanted.includes(labels[at])));
  return Array.from(inside).filter(at => {
    const problem = atlas.problem(at).filter(it => inside.has(it));
    return problem[0] === at && problem.every(it => (hardest ? atlas.above(it) : atlas.below(it)).every(([, to]) => problem.includes(to)
      || !inside.has(to)));
  });
}

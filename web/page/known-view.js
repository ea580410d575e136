// What is known of the class of the instance: its label and why, step by step in words, its sources, its solver, and neighbours with one.
import { openRemark, ownRemark } from '../atlas/class.js';
import { badge, classLink, readings, sourceLink, speedsRemark } from '../atlas/parts.js';
import { WORDS } from '../atlas/words.js';
import { leadsToEntry } from '../chains.js';
import { element } from '../elements.js';
import { changed, NAMES, partsOf, PARTS, rankOf, VALUES } from '../names.js';
import { Words } from '../words.js';
import { button, folded } from './controls.js';

/** @typedef {import('../atlas/parts.js').View} View */
/** @typedef {import('../chains.js').Chain} Chain */
/** @typedef {import('../chains.js').Kind} Kind */
/** @typedef {import('../classes.js').Atlas} Atlas */
/** @typedef {import('../names.js').Part} Part */
/** @typedef {import('./app.js').App} App */
/** @typedef {'same' | 'easier' | 'harder' | ''} Relation how a neighbour stands to a class by rows: a special case is easier */
/** @typedef {{rank: number, which: Part, word: string}} Neighbour a class that differs in one part, which has the word there */

/** Rows that turn time round, and those that keep all costs without being special cases. */
const TURNED = [45, 46, 47, 48, 51, 52], ANSWERED = [15, 16, 49, 50, 54];

/**
 * Whether rows lead from a class to another over classes that differ from both in one part alone.
 * @param {Atlas} atlas
 * @param {number} from
 * @param {number} to
 * @param {Part} which
 */
function leads(atlas, from, to, which) {
  const free = which === 'environment' ? ['environment', 'short'] : [which], parts = partsOf(from), seen = new Set([from]), waiting = [from];
  const between = (/** @type {number} */ it) => PARTS.every(part => free.includes(part) || partsOf(it)[part] === parts[part]);
  for (let at = waiting.pop(); at !== undefined && at !== to; at = waiting.pop()) {
    const next = atlas.above(at).map(([, it]) => it).filter(it => !seen.has(it) && between(it));
    next.forEach(it => seen.add(it));
    waiting.push(...next);
  }
  return seen.has(to);
}

/**
 * How a neighbour stands to a class: what leads there and back is the same problem.
 * @param {Atlas} atlas
 * @param {number} at
 * @param {Neighbour} neighbour
 * @returns {Relation}
 */
export function relation(atlas, at, { rank, which }) {
  const up = leads(atlas, at, rank, which), down = leads(atlas, rank, at, which);
  return up && down ? 'same' : up ? 'harder' : down ? 'easier' : '';
}

/**
 * The classes with a solver that differ from a class in one part alone.
 * @param {Atlas} atlas
 * @param {number} at
 * @returns {Neighbour[]}
 */
export function solvedNeighbours(atlas, at) {
  const parts = partsOf(at);
  return PARTS.flatMap(which => VALUES[which].filter(it => it !== parts[which])
    .map(word => ({ rank: changed(parts, which, word), which, word })).filter(({ rank }) => rank >= 0 && atlas.solver(rank) !== null));
}

/**
 * One step of a chain, as a sentence: what the row does to an instance.
 * @param {View} view
 * @param {number} from
 * @param {import('../chains.js').Step} step
 * @returns {HTMLElement}
 */
function stepLine(view, from, [row, to]) {
  const { words } = view, kind = TURNED.includes(row) ? 'stepTurned' : ANSWERED.includes(row) ? 'stepBy' : 'stepCase';
  return element('li', { 'data-row': String(row) },
    ...words.parts(kind, classLink(view, from), classLink(view, to), words.say(`how ${row}`)));
}

/**
 * The steps of a chain.
 * @param {View} view
 * @param {number} start
 * @param {import('../chains.js').Step[]} rows
 * @returns {HTMLElement[]}
 */
function stepLines(view, start, rows) { return rows.map((it, at) => stepLine(view, at ? rows[at - 1][1] : start, it)); }

/** What is known of the class of the instance, to unfold below its name. */
export class KnownView {
  /**
   * @param {App} app
   * @param {(rank: number) => void} take takes a class
   */
  constructor(app, take) {
    this.app = app;
    this.take = take;
    /** What is unfolded: it stays so when the class becomes another one. */
    this.open = { known: false, near: false };
  }

  /**
   * @param {string} key
   * @param {...(string | number)} values
   */
  say(key, ...values) { return this.app.words.say(key, ...values); }

  /**
   * The atlas as its own views have it, with links into the part of all classes.
   * @param {Atlas} atlas
   * @returns {View}
   */
  view(atlas) {
    return { atlas, published: false, solved: false, current: rankOf(this.app.name), selection: [], prefix: 'classes/',
      words: new Words(WORDS, this.app.words.language) };
  }

  /**
   * Why a class has its label, by one chain: in steps from the class to the entry that is easier to see, or from one that is hard to it.
   * @param {View} view
   * @param {Kind} kind
   * @param {Chain} chain
   * @param {number} at
   */
  reason(view, kind, { record, start, rows }, at) {
    const [entry, verdict] = view.atlas.data.entries[record], { words } = view, steps = stepLines(view, start, rows);
    const listed = element('li', { class: 'listed' }, ...this.app.words.parts('knownListed', classLink(view, entry), words.say(`listed ${verdict}`),
      element('b', {}, ...sourceLink(view, record))), ...readings(view, record));
    const so = entry === at ? [] : [element('li', {}, this.say(leadsToEntry(kind) ? 'knownSoEasy' : 'knownSoHard', NAMES[at]))];
    const lines = leadsToEntry(kind) ? [...steps, listed, ...so] : [listed, ...steps, ...so];
    return [element('h3', {}, words.say(`why ${kind}`)), element('ol', { class: 'told-chain', 'data-kind': kind }, ...lines)];
  }

  /**
   * The solver of the class, and the steps over which its plans come.
   * @param {View} view
   * @param {number} at
   */
  solver(view, at) {
    const solver = view.atlas.solver(at), head = element('h3', {}, view.words.say('solverHead'));
    if (!solver) return [head, element('p', {}, this.say('knownNoSolver'))];
    const [name, rows, chain] = solver;
    if (!rows || !chain) return [head, element('p', {}, ...this.app.words.parts('knownSolver', element('b', {}, name)))];
    return [head, element('p', {}, ...this.app.words.parts('knownSolverOver', element('b', {}, name), NAMES[chain[chain.length - 1][1]])),
      element('ol', { class: 'told-chain', 'data-kind': 'solver' }, ...stepLines(view, at, chain))];
  }

  /** All that is known, but for the neighbours. */
  told() {
    const { app: { atlas, name } } = this, box = element('div', { class: 'known-class' });
    if (!atlas) return box;
    const view = this.view(atlas), at = rankOf(name), label = atlas.all.labels[at], own = ownRemark(view, at), reasons = new Map();
    for (const [kind, chain] of atlas.all.chainsOf(at)) {
      const same = JSON.stringify(chain);
      if (!reasons.has(same)) reasons.set(same, this.reason(view, kind, chain, at));
    }
    box.append(element('p', {}, view.words.say(`meaning ${label}`)), ...openRemark(view, at), ...speedsRemark(view, at),
      ...(own ? [element('p', { class: 'warned' }, own)] : []), ...Array.from(reasons.values()).flat(), ...this.solver(view, at),
      element('p', {}, element('a', { class: 'text', href: `#classes/${encodeURIComponent(name)}` }, this.say('knownAll'))));
    return box;
  }

  /**
   * A class with a solver that differs in one answer, which a click takes.
   * @param {Neighbour} neighbour
   * @param {(which: Part, word: string) => string} said
   */
  neighbour(neighbour, said) {
    const { rank, which, word } = neighbour, { atlas, name } = this.app;
    const answer = `${this.say(which === 'short' ? 'shortAsks' : which)} ${said(which, word)}`;
    const how = atlas ? relation(atlas, rankOf(name), neighbour) : '';
    return element('li', {}, button(NAMES[rank], () => this.take(rank), { class: 'near' }), ' ', answer,
      ...(how ? [element('span', { class: 'quiet' }, ` \u2013 ${this.say(`near ${how}`)}`)] : []));
  }

  /**
   * The classes with a solver that differ in one answer.
   * @param {(which: Part, word: string) => string} said what a word of a part means
   */
  near(said) {
    const { app: { atlas, name } } = this, found = atlas ? solvedNeighbours(atlas, rankOf(name)) : [];
    if (!found.length) return '';
    return this.fold('near', this.say('nearSolved', found.length), () =>
      element('ul', { class: 'near-solved' }, ...found.map(it => this.neighbour(it, said))));
  }

  /**
   * A part to unfold that is made when it is opened, and stays open.
   * @param {'known' | 'near'} which
   * @param {string} title
   * @param {() => HTMLElement} make
   */
  fold(which, title, make) {
    const made = folded(title), fill = () => { if (made.open && made.childElementCount === 1) made.append(make()); };
    made.id = `class-${which}`;
    made.open = this.open[which];
    fill();
    made.addEventListener('toggle', () => {
      this.open[which] = made.open;
      fill();
    });
    return made;
  }

  /** The label and the solver in one line; empty while the atlas is not there. */
  line() {
    const { app: { atlas, name } } = this, line = element('p', { class: 'known' });
    if (!atlas) return line;
    const at = rankOf(name), view = this.view(atlas), label = atlas.all.labels[at], solver = atlas.solver(at);
    line.append(badge(view, label), ' ', solver ? this.say('solverIs', solver[0]) : this.say('noSolver'));
    return line;
  }

  /**
   * All of it.
   * @param {(which: Part, word: string) => string} said what a word of a part means
   */
  nodes(said) {
    return this.app.atlas ? [this.line(), this.fold('known', this.say('knownHead'), () => this.told()), this.near(said)] : [this.line()];
  }
}

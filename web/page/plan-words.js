// What is said of a plan: its faults, its cost, what is known of its being best.
import { element } from '../elements.js';
import { costText } from './costs.js';
import { compare, minus } from '../fractions.js';
import { brokenText } from './sentences.js';

/** @typedef {import('./app.js').App} App */
/** @typedef {import('../fractions.js').Fraction} Fraction */
/**
 * A search beside a plan: whether it runs, how far it is, its bound, and whether what is said has names in the page.
 * @typedef {{running: boolean, said: string, bound: import('./searching.js').Bound | null, isNamed: boolean}} Searching
 */

const MOST_FAULTS = 8;

/**
 * @param {App} app
 * @param {Fraction} value
 */
function costOf(app, value) { return costText(value, app.problem.parts.criterion, app.problem.unit, app.words); }

/**
 * The cost beside the best.
 * @param {App} app
 * @param {Fraction} cost
 * @param {boolean} shows whether a better cost is told
 * @returns {string}
 */
function beside(app, cost, shows) {
  const { words, bestCost, state: { plan } } = app, name = words.say(app.problem.parts.criterion), said = costOf(app, cost);
  if (!bestCost || !shows && compare(cost, bestCost) > 0) return words.say('isFeasible', name, said);
  if (compare(cost, bestCost) > 0) return words.say('isWorse', name, said, costOf(app, bestCost), costOf(app, minus(cost, bestCost)));
  const solver = app.answer && app.answer.solved ? app.answer.solved.solver : '';
  return plan && plan.from === 'best' ? words.say('isBest', name, said, solver) : words.say('isBestToo', name, said);
}

/**
 * Whether a plan is best: proved by the program, argued by a bound, or open; empty where nothing is to be said.
 * @param {App} app
 * @param {Fraction} cost
 * @param {Searching | null} searching
 */
function wordOf(app, cost, searching) {
  if (app.isBest) return 'proved';
  if (app.hasSolver !== false || !searching) return '';
  return searching.bound && compare(cost, searching.bound.value) <= 0 ? 'argued' : 'open';
}

/**
 * What a step of a bound does.
 * @param {string} name with a machine or a job behind its colon
 * @param {App} app
 */
function stepWords(name, app) {
  const [kind, value = ''] = name.split(/:(.*)/s), job = kind === 'job' ? app.built.jobs.find(it => it.name === value) : undefined;
  return app.words.say(`step ${kind}`, job ? app.jobName(job.row.id) : value);
}

/**
 * The bound beside the cost, where there is no solver.
 * @param {App} app
 * @param {Fraction} cost
 * @param {Searching | null} searching
 */
function boundLines(app, cost, searching) {
  const { words } = app, bound = searching && searching.bound;
  if (!bound || app.hasSolver) return [];
  const gap = minus(cost, bound.value), steps = bound.steps.map(it => stepWords(it, app)).join('; ');
  const said = words.say('boundWords', costOf(app, bound.value), bound.name, steps);
  return [element('p', { id: searching && searching.isNamed ? 'bound' : null }, said, ' ',
    compare(cost, bound.value) <= 0 ? words.say('closed') : words.say('gap', costOf(app, gap)))];
}

/**
 * The cost of the plan, and what is known of its being best.
 * @param {App} app
 * @param {Searching | null} searching
 * @param {boolean} shows
 */
function costLine(app, searching, shows) {
  const { cost, words } = app;
  if (!cost) return [];
  const word = wordOf(app, cost, searching), fine = word === 'proved' || word === 'argued';
  const said = word ? [element('span', { class: `word is-${word}`, title: words.say(`${word}Says`) }, words.say(word)), ' '] : [];
  const id = searching && searching.isNamed ? 'cost' : null;
  return [element('p', { class: `cost${fine ? ' fine' : ''}`, id }, ...said, beside(app, cost, shows)),
    ...boundLines(app, cost, searching)];
}

/**
 * Why a plan was not judged.
 * @param {App} app
 */
function noteLine({ judged, faults, words, state: { plan } }) {
  if (!judged || !judged.note || faults.length || !plan) return [];
  const note = /no check/.test(judged.note) ? words.say('noCheck') : words.say('line', judged.note.replace('msp: ', '').trim());
  return [element('p', { class: 'quiet' }, note)];
}

/**
 * All faults of the problem in words.
 * @param {App} app
 */
function faultList(app) {
  const { faults, words } = app, shown = faults.slice(0, MOST_FAULTS);
  const column = (/** @type {string} */ key) => /^p\d+$/.test(key) ? app.machineName(Number(key.slice(1))) : words.has(key) ? words.say(key) : key;
  const lines = shown.map(it => element('li', {},
    words.say('inRow', it.row ? app.jobName(it.row) : words.say('problem'), column(it.key), words.say(it.code, ...it.values))));
  const head = faults.length === 1 ? words.say('fault') : words.say('faults', faults.length);
  return element('div', { class: 'faulty', id: 'faults' }, element('b', {}, head),
    element('ul', {}, ...lines, ...(faults.length > shown.length ? [element('li', {}, '\u2026')] : [])));
}

/**
 * All that is said of the plan.
 * @param {App} app
 * @param {Searching | null} searching the search beside it, if there is one
 * @param {boolean} shows whether a better cost is told
 * @returns {Node[]}
 */
export function verdictNodes(app, searching, shows) {
  const { verdict, faults, words } = app, lines = [], named = (/** @type {string} */ id) => searching && searching.isNamed ? id : null;
  if (faults.length) lines.push(faultList(app));
  if (app.said) lines.push(element('p', { id: named('told') }, app.said));
  if (searching && searching.running) lines.push(element('p', { id: 'tried' }, searching.said));
  if (verdict && !verdict.feasible) {
    lines.push(element('p', { class: 'faulty', id: named('broken') }, words.say('broken', brokenText(verdict, app))));
  }
  return [...lines, ...costLine(app, searching, shows), ...noteLine(app)];
}

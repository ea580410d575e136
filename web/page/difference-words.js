// The difference of two plans as sentences.
import { momentText } from './clock.js';
import { costText, lengthText } from './costs.js';
import { countAlike, differenceOf } from './difference.js';
import { compare, minus } from '../fractions.js';

/** @typedef {import('./app.js').App} App */
/** @typedef {import('./difference.js').Difference} Difference */
/** @typedef {import('../fractions.js').Fraction} Fraction */

const MOST = 8;

/**
 * A cost with its name; where the program does not say it, that it is not judged.
 * @param {App} side
 * @param {App} app which speaks
 * @returns {[string, string]}
 */
function costOf(side, { words }) {
  const { cost, problem: { parts: { criterion }, unit } } = side;
  return [words.say(criterion), cost ? costText(cost, criterion, unit, words) : words.say('diffNone')];
}

/**
 * The costs of both plans.
 * @param {App} before
 * @param {App} now
 */
export function costSaid(before, now) {
  const { words, problem: { parts: { criterion }, unit } } = now, [name, was] = costOf(before, now), [, is] = costOf(now, now);
  const alike = before.problem.parts.criterion === criterion && before.problem.unit === unit;
  if (!alike || !before.cost || !now.cost) return words.say('diffOther', costOf(before, now)[0], was, costOf(now, now)[0], is);
  const far = compare(now.cost, before.cost);
  if (far === 0) return words.say('diffSame', name, is);
  const [more, less] = far > 0 ? [now.cost, before.cost] : [before.cost, now.cost];
  return words.say(far > 0 ? 'diffMore' : 'diffLess', name, was, is, costText(minus(more, less), criterion, unit, words));
}

/**
 * Some of a list, and how many more there are.
 * @param {string[]} those
 * @param {App} app
 */
function some(those, { words }) {
  return those.length > MOST + 1 ? words.say('diffMany', those.slice(0, MOST).join(', '), those.length - MOST) : those.join(', ');
}

/**
 * What differs between the jobs of both plans.
 * @param {Difference} found
 * @param {App} before
 * @param {App} now
 * @returns {string[]}
 */
function jobsSaid(found, before, now) {
  const { words, clock, problem: { unit } } = now, name = (/** @type {number} */ row) => now.jobName(row);
  const line = (/** @type {string} */ key, /** @type {string[]} */ those) => those.length ? [words.say(key, some(those, now))] : [];
  const by = (/** @type {{row: number, by: Fraction}[]} */ those) => those.map(it =>
    words.say('diffBy', name(it.row), lengthText(it.by, unit, words)));
  const come = found.come.map(it => words.say('diffEnds', name(it.row), momentText(it.end, clock, words.german, true)));
  const moved = found.moved.map(it => words.say('diffFrom', name(it.row), it.from, it.to));
  const stay = found.same === 1 ? [words.say('diffStayOne')] : found.same ? [words.say('diffStay', found.same)] : [];
  return [...line('diffLate', found.late.map(name)), ...line('diffInTime', found.inTime.map(name)), ...line('diffLater', by(found.later)),
    ...line('diffEarlier', by(found.earlier)), ...line('diffMachine', moved), ...line('diffNew', come),
    ...line('diffGone', found.gone.map(it => before.jobName(it))), ...stay];
}

/**
 * @param {App} app
 * @returns {import('./difference.js').Side}
 */
function sideOf(app) {
  const { problem, built, state: { plan } } = app;
  return { problem, built, pieces: plan ? plan.pieces : [], machineName: it => app.machineName(it) };
}

/**
 * The difference of two plans in sentences, that of the cost first.
 * @param {App} before
 * @param {App} now
 * @returns {string[]}
 */
export function differenceSaid(before, now) {
  if (!now.state.plan || !now.built.text) return [];
  const alike = countAlike(before.problem, now.problem);
  return [costSaid(before, now), ...(alike ? jobsSaid(differenceOf(sideOf(before), sideOf(now)), before, now) : [now.words.say('diffUnits')])];
}

// The plan in tables: its pieces, and its jobs with what each adds to the cost.
import { element } from '../elements.js';
import { listed } from './chart-view.js';
import { momentText } from './clock.js';
import { unfolded } from './controls.js';
import { added, costText, lengthText, together } from './costs.js';
import { compare, minus, ZERO } from '../fractions.js';
import { endsOf } from './schedule.js';

/** @typedef {import('./app.js').App} App */

const HEADS = ['machineColumn', 'job', 'from', 'to'];

/**
 * The plan as a list of pieces.
 * @param {App} app
 * @returns {string[][]}
 */
export function pieceRows(app) {
  const { german } = app.words;
  return listed(app.state.plan ? app.state.plan.pieces : []).map(it => [app.machineName(it.machine), app.jobName(it.row),
    momentText(it.from, app.clock, german), momentText(it.to, app.clock, german, true)]);
}

/** @param {App} app */
export function pieceHeads(app) { return HEADS.map(it => app.words.say(it)); }

/**
 * The jobs with their ends, and what each adds to the cost, where these parts give the cost of the program.
 * @param {App} app
 */
export function jobTable(app) {
  const { words, clock, cost, problem: { parts: { criterion }, unit } } = app, ends = endsOf(app.state.plan ? app.state.plan.pieces : []);
  const those = app.built.jobs.flatMap(job => ends.has(job.row.id) ? [{ job, end: ends.get(job.row.id) || ZERO }] : []);
  const parts = those.map(({ job, end }) => added(job, end, criterion));
  const agrees = cost !== null && compare(together(parts, criterion), cost) === 0, due = those.some(({ job }) => job.d);
  const moment = (/** @type {import('../fractions.js').Fraction} */ it) => momentText(it, clock, words.german, true);
  const rows = those.map(({ job, end }, at) => [app.jobName(job.row.id), moment(end),
    ...(due && job.d ? [moment(job.d), lengthText(minus(end, job.d), unit, words)] : []),
    ...(agrees ? [costText(parts[at], criterion, unit, words)] : [])]);
  const heads = ['job', 'to', ...(due ? ['d', 'lateness'] : []), ...(agrees ? ['adds'] : [])];
  return { heads: heads.map(it => words.say(it)), rows };
}

/**
 * @param {string[]} heads
 * @param {string[][]} rows
 */
export function table(heads, rows) {
  const line = (/** @type {string[]} */ cells) => element('tr', {}, ...cells.map(it => element('td', { dir: 'auto' }, it)));
  const head = element('tr', {}, ...heads.map(it => element('th', { scope: 'col' }, it)));
  const made = element('table', { class: 'plain' }, element('thead', {}, head), element('tbody', {}, ...rows.map(line)));
  return element('div', { class: 'scroll' }, made);
}

/**
 * Both lists, to unfold.
 * @param {App} app
 * @param {boolean[]} open which of them are unfolded
 */
export function lists(app, open) {
  const jobs = unfolded(app.words.say('byJobs'), open[0] || false, () => {
    const { heads, rows } = jobTable(app);
    return table(heads, rows);
  });
  return [jobs, unfolded(app.words.say('list'), open[1] || false, () => table(pieceHeads(app), pieceRows(app)))];
}

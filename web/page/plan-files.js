// The plan as files: pictures, a list, a schedule for msp check.
import { chartOf } from './chart.js';
import { button, folded, give } from './controls.js';
import { element } from '../elements.js';
import { pngOf, svgText, tikzText } from './drawing.js';
import { print } from '../fractions.js';
import { pieceHeads, pieceRows } from './plan-lists.js';
import { scheduleText } from './schedule.js';

/** @typedef {import('./app.js').App} App */
/** @typedef {import('./chart-view.js').ChartView} ChartView */

const WIDTH = 1100;

/**
 * The list of pieces as CSV, with semicolons in German. A field that a spreadsheet would take for a formula has a mark in front.
 * @param {App} app
 */
export function csvText(app) {
  const mark = app.words.german ? ';' : ',', quoted = (/** @type {string} */ it) => /[",;\n]/.test(it) ? `"${it.replace(/"/g, '""')}"` : it;
  const safe = (/** @type {string} */ it) => /^[=+@]/.test(it) ? `'${it}` : it.replace('\u2212', '-');
  return `\ufeff${[pieceHeads(app), ...pieceRows(app)].map(row => row.map(it => quoted(safe(it))).join(mark)).join('\r\n')}\r\n`;
}

/**
 * The instance with the plan behind it.
 * @param {App} app
 */
export function checkedText(app) {
  const { verdict, built, state: { plan } } = app;
  return plan ? built.text + scheduleText(plan.pieces, built, verdict && verdict.cost ? print(verdict.cost) : '0') : built.text;
}

/**
 * Buttons that give files of the plan.
 * @param {App} app
 * @param {ChartView} view
 */
export function files(app, view) {
  const { words } = app, chart = () => chartOf({ ...view.wanted(WIDTH), marked: new Set() });
  const file = (/** @type {string} */ name, /** @type {string} */ content, /** @type {string} */ type) => give(name, new Blob([content], { type }));
  return folded(words.say('files'), element('div', { class: 'buttons' },
    button('SVG', () => file('plan.svg', svgText(chart(), view.title), 'image/svg+xml'), { 'data-file': 'svg' }),
    button('PNG', async () => give('plan.png', await pngOf(chart(), view.title)), { 'data-file': 'png' }),
    button('TikZ', () => file('plan.tex', tikzText(chart()), 'text/x-tex'), { 'data-file': 'tikz' }),
    button(words.say('csv'), () => file('plan.csv', csvText(app), 'text/csv'), { 'data-file': 'csv' }),
    button(words.say('schedule'), () => file('schedule.txt', checkedText(app), 'text/plain'), { 'data-file': 'schedule' }),
    button(words.say('print'), () => window.print(), { 'data-file': 'print' })));
}

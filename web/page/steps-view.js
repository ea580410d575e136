// The steps of a rule, one by one, forward and back: a sentence, a table with what is new, taken and dropped, and the plan so far.
import { element, fill } from '../elements.js';
import { shown } from '../fractions.js';
import { rulesOf } from '../steps/index.js';
import { Speaker, WORDS } from '../steps/words.js';
import { chartOf } from './chart.js';
import { button, choice, folded } from './controls.js';
import { drawn } from './drawing.js';

/** @typedef {import('./app.js').App} App */
/** @typedef {import('../steps/index.js').Rule} Rule */
/** @typedef {import('../steps/types.js').Step} Step */
/** @typedef {import('../steps/types.js').Mark} Mark */
/** @typedef {import('./schedule.js').Piece} Piece */

/** Of how many jobs steps are told at most: a table of more can't be looked over. */
const MOST_JOBS = 60;
/** The signs of marks, which are seen without colours too.
 * @type {Object<string, string>} */
const SIGNS = { now: '\u25b8', chosen: '\u2713', dropped: '\u2717' };

/**
 * A row of the table of a step.
 * @param {Step} step
 * @param {number} row
 * @param {Speaker} speaker
 */
function rowOf({ rows, marks }, row, speaker) {
  const of = (/** @type {number} */ column) => marks.find(it => it.row === row && it.column === column), whole = of(-1);
  const cells = rows[row].map((cell, column) => {
    const mark = of(column), text = speaker.text(cell);
    return element('td', { class: mark ? `is-${mark.kind}` : null }, mark ? `${SIGNS[mark.kind]} ${text}` : text);
  });
  const sign = element('td', { class: 'sign' }, whole ? SIGNS[whole.kind] : '');
  return element('tr', { class: whole ? `is-${whole.kind}` : null, 'aria-current': whole && whole.kind === 'now' ? 'step' : null }, sign, ...cells);
}

/** The steps of the rules that fit a problem. */
export class StepsView {
  /**
   * @param {App} app
   * @param {string} prefix of the names of its elements
   * @param {string} [rule] the key of the only rule that is told
   */
  constructor(app, prefix, rule = '') {
    this.app = app;
    this.prefix = prefix;
    this.only = rule;
    this.key = rule;
    this.at = 0;
    /** @type {{text: string, key: string, steps: Step[]} | null} */
    this.told = null;
    this.head = element('div', { class: 'buttons' });
    this.body = element('div', {});
    this.root = element('div', { id: prefix });
    this.shape = '';
    this.root.addEventListener('keydown', event => this.pressed(event));
  }

  /** @param {string} key
   * @param {...(string | number)} values */
  say(key, ...values) { return this.app.words.say(key, ...values); }

  /** The rules that fit the class.
   * @returns {Rule[]} */
  get rules() { return this.app.built.text ? rulesOf(this.app.name).filter(it => !this.only || it.key === this.only) : []; }

  /** The steps of the rule that is chosen.
   * @returns {Step[]} */
  get steps() {
    const { built } = this.app, { rules } = this, rule = rules.find(it => it.key === this.key) || rules[0];
    if (!rule || built.jobs.length > MOST_JOBS) return [];
    if (!this.told || this.told.text !== built.text || this.told.key !== rule.key) {
      this.told = { text: built.text, key: rule.key, steps: rule.steps(built) };
      this.at = 0;
    }
    return this.told.steps;
  }

  /** Says what steps hold, in the words of the page. */
  get speaker() {
    const { app } = this, { mark, german } = app.words, { machineNames } = app.problem;
    return new Speaker(german, job => app.jobName(app.built.jobs[job].row.id), it => (machineNames[it - 1] || '').trim() || String(it),
      it => shown(it, mark));
  }

  /**
   * The pieces of a step as those of the page.
   * @param {Step} step
   * @returns {Piece[]}
   */
  pieces({ pieces }) { return pieces.map(({ job, ...it }) => ({ ...it, row: this.app.built.jobs[job].row.id })); }

  /**
   * The plan so far, on the axis of the whole one.
   * @param {Step} step
   */
  chart(step) {
    const { app, steps } = this, pieces = this.pieces(step), width = Math.max(300, this.root.clientWidth - 24);
    if (!pieces.length) return element('p', { class: 'quiet' }, this.say('stepsNone'));
    const names = { machineName: (/** @type {number} */ it) => app.machineName(it), jobName: (/** @type {number} */ it) => app.jobName(it) };
    const last = steps[steps.length - 1].pieces.reduce((most, { to }) => Math.max(most, Number(to.n) / Number(to.d)), 0);
    const wanted = { pieces, built: app.built, clock: app.clock, byJob: false, german: app.words.german, width, span: last, ...names,
      broken: new Set(/** @type {number[]} */ ([])), marked: new Set(/** @type {number[]} */ ([])) };
    const svg = drawn(chartOf(wanted), this.say('stepsChart'));
    svg.setAttribute('role', 'img');
    svg.querySelectorAll('defs').forEach(it => it.remove());
    return svg;
  }

  /** @param {KeyboardEvent} event */
  pressed(event) {
    if (event.target instanceof HTMLSelectElement || event.ctrlKey || event.metaKey || event.altKey) return;
    const far = event.key === 'ArrowRight' ? 1 : event.key === 'ArrowLeft' ? -1 : 0;
    if (!far) return;
    event.preventDefault();
    this.go(this.at + far);
  }

  /** @param {number} at */
  go(at) {
    this.at = Math.max(0, Math.min(at, this.steps.length - 1));
    const { activeElement } = document, id = activeElement && this.head.contains(activeElement) ? activeElement.id : '';
    this.show();
    const again = id && document.getElementById(id), others = Array.from(this.head.querySelectorAll('button'));
    if (again instanceof HTMLButtonElement) (again.disabled ? others.find(it => !it.disabled) || again : again).focus();
  }

  /** The buttons that lead from step to step. */
  buttons() {
    const { steps, at, rules, prefix, app } = this, last = steps.length - 1;
    const to = (/** @type {string} */ word, /** @type {number} */ place, /** @type {string} */ sign) => button(sign, () => this.go(place), {
      id: `${prefix}-${word}`, 'aria-label': this.say(word), title: this.say(word),
      disabled: place === at || place < 0 || place > last ? '' : null });
    const german = app.words.german ? 1 : 0, options = rules.map(it => /** @type {[string, string]} */ ([it.key, WORDS[`name ${it.key}`][german]]));
    const pick = choice(`${prefix}-rule`, options, this.told ? this.told.key : '', it => {
      this.key = it;
      this.go(0);
    });
    pick.setAttribute('aria-label', this.say('stepsRule'));
    const take = button(this.say('stepsTake'), () => app.plan({ pieces: this.pieces(steps[at]), from: 'own' }),
      { id: `${prefix}-take`, disabled: at < last ? '' : null });
    return [...(rules.length > 1 ? [pick] : []), to('stepFirst', 0, '\u00ab'), to('stepBack', at - 1, '\u2039'), to('stepOn', at + 1, '\u203a'),
      to('stepLast', last, '\u00bb'), element('span', { class: 'quiet' }, this.say('stepOf', at + 1, steps.length)), ...(this.only ? [] : [take])];
  }

  /** Shows the step where it is. */
  show() {
    const { steps, head, body, app } = this, { speaker } = this;
    if (!steps.length) {
      fill(head);
      fill(body, element('p', { class: 'quiet' }, this.say('stepsMany', MOST_JOBS)));
      return;
    }
    fill(head, ...this.buttons());
    const step = steps[this.at], key = this.told ? this.told.key : '';
    const table = element('table', { class: 'steps' },
      element('thead', {}, element('tr', {}, element('td', {}), ...step.columns.map(it => element('th', { scope: 'col' }, speaker.text(it))))),
      element('tbody', {}, ...step.rows.map((_, at) => rowOf(step, at, speaker))));
    const rule = this.only ? [] : [element('p', { class: 'quiet' }, WORDS[`rule ${key}`][app.words.german ? 1 : 0])];
    fill(body, ...rule, element('p', { class: 'step-says', id: `${this.prefix}-says`, role: 'status' }, speaker.text(step.title)),
      ...(step.rows.length ? [element('div', { class: 'scroll', tabindex: '0', role: 'group', 'aria-label': this.say('stepsTable') }, table),
        element('p', { class: 'quiet' }, this.say('stepsKey', SIGNS.now, SIGNS.chosen, SIGNS.dropped))] : []),
      element('div', { class: 'scroll' }, this.chart(step)));
  }

  render() {
    const { app, rules } = this, shape = JSON.stringify([app.words.language, app.built.text, rules.length, app.problem.machineNames]);
    if (shape === this.shape) return;
    this.shape = shape;
    const old = this.root.querySelector('details'), open = old !== null && old.open;
    if (!rules.length) {
      fill(this.root);
      return;
    }
    const made = folded(this.say('stepsHead'), this.head, this.body);
    made.addEventListener('toggle', () => { if (made.open) this.show(); });
    made.open = open;
    fill(this.root, made);
  }
}

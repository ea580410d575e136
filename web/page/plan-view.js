// The plan: its verdict, its chart, its lists, its files.
import { element, fill } from '../elements.js';
import { AnswerView } from './answer.js';
import { ChartView } from './chart-view.js';
import { button, part, refill } from './controls.js';
import { early } from './own.js';
import { OrderView } from './order-view.js';
import { files } from './plan-files.js';
import { lists, pieceHeads, pieceRows, table } from './plan-lists.js';
import { verdictNodes } from './plan-words.js';
import { Searching } from './searching.js';

/** @typedef {import('./app.js').App} App */

const ZOOM = 1.5, MOST_ZOOM = 60;

/** The part of the page with the plan. */
export class PlanView {
  /**
   * @param {App} app
   * @param {(text: string) => void} say tells readers of screens
   */
  constructor(app, say) {
    this.app = app;
    this.chart = new ChartView(app, say);
    this.searching = new Searching(app);
    this.answer = new AnswerView(app);
    this.order = new OrderView(app, say);
    /** Keeps the plan beside. */
    this.keep = () => {};
    this.root = element('section', { id: 'the-plan', 'aria-labelledby': 'the-plan-head' });
    this.verdict = element('div', { class: 'verdict', role: 'status', 'aria-live': 'polite' });
    this.bars = element('div', { class: 'buttons' });
    this.below = element('div', {});
    /** What is on paper alone: the class, and the list, however it is folded. */
    this.printed = element('div', { class: 'printed' });
    this.shown = '';
    window.addEventListener('beforeprint', () => this.print());
  }

  /** @param {string} key
   * @param {...(string | number)} values */
  say(key, ...values) { return this.app.words.say(key, ...values); }

  // Buttons

  /** The button for the best plan or for a search, or the one that stops them. */
  mainButton() {
    const { app, searching } = this;
    if (searching.running) return button(this.say('stop'), () => searching.stop(), { id: 'stop', class: 'main' });
    if (app.hasSolver === false || app.pinned.has(app.built.text)) {
      return button(this.say('search'), () => searching.start(), { id: 'best', class: 'main', title: this.say('searchSays'),
        disabled: app.built.text ? null : '' });
    }
    if (app.running) return button(this.say('stop'), () => app.running && app.running.abort(), { id: 'stop', class: 'main' });
    return button(this.say('best'), () => app.solve(), { id: 'best', class: 'main', disabled: app.built.text ? null : '' });
  }

  /** Moves each piece as early as it can. */
  early() {
    const { plan } = this.app.state;
    if (plan) this.app.plan({ pieces: early(plan.pieces, this.app.built), from: 'own' });
  }

  buttons() {
    const { app, chart } = this, { plan } = app.state, off = plan ? null : '';
    const redraw = (/** @type {() => void} */ act) => () => { act(); this.render(); };
    const lines = (/** @type {string} */ id, /** @type {string} */ text, /** @type {boolean} */ byJob) => button(text,
      redraw(() => { chart.byJob = byJob; }), { id, 'aria-pressed': String(chart.byJob === byJob), disabled: off });
    return [this.mainButton(),
      button(this.say('early'), () => this.early(), { id: 'early', title: this.say('earlySays'), disabled: off }),
      button(this.say('keepBeside'), () => this.keep(), { id: 'keep-beside', title: this.say('keepSays'), disabled: off }),
      element('span', { class: 'group', role: 'group' }, lines('by-machine', this.say('byMachine'), false), lines('by-job', this.say('byJob'), true)),
      element('span', { class: 'group', role: 'group' },
        button('\u2212', redraw(() => { chart.zoom = Math.max(1, chart.zoom / ZOOM); }),
          { id: 'zoom-out', 'aria-label': this.say('zoomOut'), disabled: chart.zoom <= 1 ? '' : off }),
        button('+', redraw(() => { chart.zoom = Math.min(MOST_ZOOM, chart.zoom * ZOOM); }),
          { id: 'zoom-in', 'aria-label': this.say('zoomIn'), disabled: off }))];
  }

  // The whole

  /** Builds what stays, in the words of the page. */
  build() {
    this.shown = this.app.words.language;
    const keys = element('p', { class: 'quiet keys' }, this.say('keys'));
    const made = part('the-plan', this.say('thePlan'), this.bars, this.verdict, this.chart.root, keys, this.order.root, this.below, this.printed);
    fill(this.root, ...Array.from(made.childNodes));
  }

  /** Puts the list on the paper. */
  print() {
    const { app } = this, has = app.state.plan && app.built.text, title = `${app.name}, ${this.say('list')}`;
    fill(this.printed, ...(has ? [element('h3', {}, title), table(pieceHeads(app), pieceRows(app))] : []));
  }

  /** The id of what has the focus in this part. */
  focused() {
    const { activeElement } = document;
    return activeElement instanceof HTMLElement && this.root.contains(activeElement) ? activeElement.id : '';
  }

  render() {
    const { app } = this, focus = this.focused();
    if (this.shown !== app.words.language) this.build();
    refill(this.bars, ...this.buttons());
    fill(this.verdict, ...verdictNodes(app, this.searching, true));
    this.chart.render();
    this.order.render();
    const open = Array.from(this.below.querySelectorAll('details'), it => it.open);
    this.answer.render();
    fill(this.below, ...(app.state.plan && app.built.text ? [...lists(app, open), files(app, this.chart), this.answer.root] : []));
    this.below.querySelectorAll('details').forEach((it, at) => { it.open = open[at] || false; });
    const again = focus && document.getElementById(/^(best|stop)$/.test(focus) ? app.running || this.searching.running ? 'stop' : 'best' : focus);
    if (again) again.focus();
  }
}

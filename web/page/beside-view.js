// A plan that is kept beside the one of the page: its chart, its cost, what differs, and both swapped.
import { element, fill } from '../elements.js';
import { App } from './app.js';
import { chartOf, spanOf } from './chart.js';
import { button, part } from './controls.js';
import { countAlike } from './difference.js';
import { differenceSaid } from './difference-words.js';
import { drawn } from './drawing.js';
import { brokenPieces } from './verdicts.js';
import { verdictNodes } from './plan-words.js';

/** @typedef {import('./state.js').State} State */
/** @typedef {NonNullable<State['kept']>} Kept */
/** @typedef {import('./searching.js').Bound} Bound */
/** @typedef {import('./chart.js').Wanted} Wanted */
/** @typedef {{asked: string[], told: string[]}} Notes what was asked, and what is to be known of the answer, as sentences */

/** The part of the page with the plan beside. */
export class BesideView {
  /**
   * @param {App} app
   * @param {import('./plan-view.js').PlanView} plan
   */
  constructor(app, plan) {
    this.app = app;
    this.plan = plan;
    this.root = element('section', { id: 'beside' });
    /** The plan beside, with what the program says of it.
     * @type {{kept: Kept, app: App} | null} */
    this.other = null;
    /** What was asked where the plan beside is that before a question.
     * @type {WeakMap<Kept, () => Notes>} */
    this.notes = new WeakMap();
    /** Bounds that were found, by the texts of their instances.
     * @type {Map<string, Bound>} */
    this.bounds = new Map();
  }

  /** @param {string} key
   * @param {...(string | number)} values */
  say(key, ...values) { return this.app.words.say(key, ...values); }

  /** Keeps the plan of the page beside. */
  keep() {
    const { state } = this.app, { problem, plan } = state;
    if (plan) this.app.store.change({ ...state, kept: { problem, plan } });
  }

  /** Changes the places of both plans. */
  swap() {
    const { problem, plan, kept } = this.app.state;
    if (plan && kept) this.app.store.change({ problem: kept.problem, plan: kept.plan, kept: { problem, plan } });
  }

  drop() { this.app.store.change({ ...this.app.state, kept: null }); }

  /**
   * What the program says of the plan beside.
   * @param {Kept} kept
   */
  judged(kept) {
    const { app } = this;
    if (!this.other || this.other.kept !== kept) {
      const other = new App({ ...kept, kept: null }, app.words);
      other.answers = app.answers;
      other.show(() => { if (this.other && this.other.app === other) this.render(); });
      this.other = { kept, app: other };
      other.atlas = app.atlas;
      other.judge();
    }
    if (app.atlas && !this.other.app.atlas) {
      this.other.app.atlas = app.atlas;
      this.other.app.judge();
    }
    this.other.app.words = app.words;
    return this.other.app;
  }

  /**
   * How the plan beside is drawn: as that of the page, with its own names.
   * @param {App} other
   * @returns {Wanted}
   */
  wanted(other) {
    const { byJob, zoom, root } = this.plan.chart, { verdict, state: { plan } } = other;
    return { pieces: plan ? plan.pieces : [], built: other.built, clock: other.clock, byJob, german: this.app.words.german,
      width: Math.max(300, root.clientWidth - 4) * zoom, machineName: it => other.machineName(it), jobName: it => other.jobName(it),
      broken: new Set(verdict ? brokenPieces(verdict) : []), marked: new Set() };
  }

  /** Up to which moment both axes go, where both plans count time alike; else 0. */
  span() {
    const { app, other } = this, { plan } = app.state;
    if (!other || !app.state.kept || !plan || !countAlike(app.problem, other.app.problem)) return 0;
    const beside = this.wanted(other.app), here = { ...beside, pieces: plan.pieces, built: app.built };
    let span = 0;
    for (let last = -1; last < span;) {
      last = span;
      span = Math.max(spanOf({ ...beside, span }), spanOf({ ...here, span }));
    }
    return span;
  }

  /**
   * The chart of the plan beside, on the axis of both.
   * @param {App} other
   */
  chart(other) {
    const svg = drawn(chartOf({ ...this.wanted(other), span: this.span() }), `${other.name}, ${this.title(other)}`, 'beside-stripes');
    svg.setAttribute('role', 'img');
    return element('div', { class: 'scroll chart-room', tabindex: '0', role: 'group', 'aria-label': this.title(other) }, svg);
  }

  /**
   * What was asked, if the plan beside is that before a question.
   * @param {App} other
   * @returns {Notes | null}
   */
  asked(other) {
    const kept = this.other && this.other.app === other ? this.notes.get(this.other.kept) : undefined;
    return kept ? kept() : null;
  }

  /** @param {App} other */
  title(other) { return this.say(this.asked(other) ? 'besideBefore' : 'beside'); }

  /** @param {App} other */
  buttons(other) {
    const { app } = this, class_ = other.name === app.name ? [] : [element('span', {}, this.say('besideClass', other.name))];
    return element('div', { class: 'buttons' },
      button(this.say('besideSwap'), () => this.swap(), { id: 'beside-swap', disabled: app.state.plan ? null : '' }),
      button(this.say('besideDrop'), () => this.drop(), { id: 'beside-drop' }), ...class_);
  }

  /** Remembers the bound of the plan of the page. */
  remember() {
    const { bound } = this.plan.searching;
    if (bound) this.bounds.set(bound.text, bound);
  }

  render() {
    const { app, root } = this, { kept } = app.state, focus = document.activeElement instanceof HTMLElement ? document.activeElement.id : '';
    const hadFocus = focus && root.contains(document.activeElement);
    this.remember();
    root.hidden = !kept;
    if (!kept) {
      this.other = null;
      root.removeAttribute('aria-labelledby');
      fill(root);
      return;
    }
    root.setAttribute('aria-labelledby', 'beside-head');
    const other = this.judged(kept), notes = this.asked(other), known = { running: false, said: '', isNamed: false,
      bound: this.bounds.get(other.built.text) || null };
    const sentences = differenceSaid(other, app).map((it, at) => element('li', { id: at ? null : 'difference-cost' }, it));
    const list = (/** @type {string[]} */ those, /** @type {string} */ id) => those.length
      ? [element('ul', { id }, ...those.map(it => element('li', {}, it)))] : [];
    const said = element('div', { role: 'status' }, element('ul', { id: 'difference' }, ...sentences));
    const made = part('beside', this.title(other), ...(notes ? [...list(notes.asked, 'what-asked'), ...list(notes.told, 'what-told')] : []),
      this.buttons(other), element('div', { class: 'verdict', id: 'beside-cost' }, ...verdictNodes(other, known, true)), this.chart(other),
      ...(sentences.length ? [element('h3', {}, this.say('differences')), said] : []));
    fill(root, ...Array.from(made.childNodes));
    const again = hadFocus ? document.getElementById(focus) : null;
    if (again) again.focus();
  }
}

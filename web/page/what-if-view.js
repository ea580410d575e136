// A form for questions: what if a machine more, an order gone, a rush order and so on. The plan before stays beside.
import { run } from '../engine.js';
import { element, fill } from '../elements.js';
import { notesOf } from './asked-words.js';
import { answered, impossible, piecesOf, Refused } from './asking.js';
import { CellFault, momentOf } from './cells.js';
import { clockOf } from './clock.js';
import { columnsOf, hasSpeeds, kindOf } from './columns.js';
import { button, choice, field, line, part } from './controls.js';
import { near, ZERO } from '../fractions.js';
import { built } from './instance.js';
import { whole } from './pinned.js';
import { costOf } from './timing.js';
import { scheduleText } from './schedule.js';
import { faultOf, verdictOf } from './verdicts.js';

/** @typedef {import('./app.js').App} App */
/** @typedef {import('./asking.js').Answer} Answer */
/** @typedef {import('./asking.js').Kind} Kind */
/** @typedef {import('./asking.js').Question} Question */
/** @typedef {import('../fractions.js').Fraction} Fraction */
/** @typedef {import('./instance.js').Built} Built */
/** @typedef {import('./instance.js').Problem} Problem */
/** @typedef {import('./leftover.js').Told} Told */

const KINDS = /** @type {Kind[]} */ (['more', 'less', 'gone', 'rush', 'due', 'cut', 'time']);

/** What is typed in the form. */
const EMPTY = { kind: /** @type {Kind} */ ('more'), machine: 1, row: 0, due: '', now: '', rush: /** @type {Object<string, string>} */ ({}) };

/** The part of the page for questions. */
export class WhatIfView {
  /**
   * @param {App} app
   * @param {import('./searching.js').Searching} searching
   * @param {import('./beside-view.js').BesideView} beside
   * @param {(key: string) => string} title how a column is called
   * @param {(text: string) => void} tell says something to readers of screens
   */
  constructor(app, searching, beside, title, tell) {
    this.app = app;
    this.searching = searching;
    this.beside = beside;
    this.title = title;
    this.tell = tell;
    this.root = element('section', { id: 'what-if', 'aria-labelledby': 'what-if-head' });
    this.fields = element('div', { class: 'fields' });
    this.said = element('p', { id: 'what-said', class: 'faulty', role: 'alert', hidden: '' });
    this.typed = { ...EMPTY };
    this.asking = false;
    this.shape = '';
  }

  /** @param {string} key
   * @param {...(string | number)} values */
  say(key, ...values) { return this.app.words.say(key, ...values); }

  // The form

  /** The end of the keys of words of a kind: whether cutting is allowed or forbidden. */
  get word() { return this.typed.kind === 'cut' && this.app.problem.parts.cut ? 'nocut' : this.typed.kind; }

  /** The fields of a rush order: its name, and the columns of the class. */
  rush() {
    const { app, typed } = this, keys = columnsOf(app.problem.parts, app.built.machines);
    return ['job', ...keys].map(key => field(this.title(key), line(`what-rush-${key}`, typed.rush[key] || '',
      it => { typed.rush = { ...typed.rush, [key]: it }; }, { dir: 'auto' })));
  }

  /** The choice of a job. */
  job() {
    const { app, typed } = this, rows = app.built.jobs.map(it => it.row.id);
    if (!rows.includes(typed.row)) typed.row = rows[0];
    const options = rows.map(it => /** @type {[string, string]} */ ([String(it), app.jobName(it)]));
    return field(this.say('ifGone'), choice('what-job', options, String(typed.row), it => { typed.row = Number(it); }));
  }

  /**
   * The choice of a machine.
   * @param {string} label
   */
  machine(label) {
    const { app, typed } = this, count = app.built.machines;
    typed.machine = Math.min(typed.machine, count) || 1;
    const options = Array.from({ length: count }, (_, at) => /** @type {[string, string]} */ ([String(at + 1), app.machineName(at + 1)]));
    return field(label, choice('what-machine', options, String(typed.machine), it => { typed.machine = Number(it); }));
  }

  /** The fields of the kind of question, or why it cannot be asked. */
  inputs() {
    const { app, typed } = this, why = impossible(typed.kind, app.problem, app.built.machines), { parts } = app.problem;
    if (why) return [element('p', { class: 'quiet', id: 'what-not' }, this.say(why))];
    switch (typed.kind) {
    case 'more': return hasSpeeds(parts) || kindOf(parts) === 'R' ? [this.machine(this.say('ifLike'))] : [];
    case 'less': return [this.machine(this.say('ifWhich'))];
    case 'gone': return [this.job()];
    case 'due': return [this.job(), field(this.say('ifDue'), line('what-due', typed.due, it => { typed.due = it; }))];
    case 'rush': return this.rush();
    default: return [];
    }
  }

  /** Builds the form in the words of the page. */
  build() {
    const { app, typed } = this, options = KINDS.map(it => /** @type {[string, string]} */ ([it,
      this.say(`if ${it === 'cut' && app.problem.parts.cut ? 'nocut' : it}`)]));
    const kind = choice('what-kind', options, typed.kind, it => {
      typed.kind = /** @type {Kind} */ (it);
      this.refuse('');
      fill(this.fields, ...this.inputs());
      this.enable();
    });
    const now = line('what-now', typed.now, it => { typed.now = it; }, { 'aria-describedby': 'what-now-hint' });
    fill(this.fields, ...this.inputs());
    const made = part('what-if', this.say('whatIf'), element('p', { class: 'quiet' }, this.say('ifSays')),
      field(this.say('ifKind'), kind), this.fields,
      field(this.say('ifNow'), now, element('span', { id: 'what-now-hint', class: 'quiet' }, this.say('ifNowSays'))),
      element('p', { class: 'buttons' }, button(this.say('ifAsk'), () => this.ask(), { id: 'what-ask', class: 'main' })), this.said);
    fill(this.root, ...Array.from(made.childNodes));
    this.enable();
  }

  /** Lets a question be asked that the class can answer. */
  enable() {
    const ask = this.root.querySelector('#what-ask');
    if (ask instanceof HTMLButtonElement) ask.disabled = this.root.querySelector('#what-not') !== null;
  }

  render() {
    const { app } = this, { problem, words } = app, rows = app.built.jobs.map(it => [it.row.id, app.jobName(it.row.id)]);
    this.root.hidden = !app.built.text;
    const shape = JSON.stringify([words.language, { ...problem, rows: [] }, rows]);
    if (!app.built.text || shape === this.shape) return;
    this.shape = shape;
    const focus = this.root.contains(document.activeElement) && document.activeElement ? document.activeElement.id : '';
    this.refuse('');
    this.build();
    const again = focus ? document.getElementById(focus) : null;
    if (again) again.focus();
  }

  // Questions

  /**
   * Says why there is no answer.
   * @param {string} text
   * @param {string} [id] of the field with the fault
   */
  refuse(text, id = '') {
    this.said.hidden = !text;
    fill(this.said, text);
    this.root.querySelectorAll('[aria-invalid]').forEach(it => it.removeAttribute('aria-invalid'));
    const control = id ? this.root.querySelector(`#${CSS.escape(id)}`) : null;
    if (!(control instanceof HTMLElement)) return;
    control.setAttribute('aria-invalid', 'true');
    control.focus();
  }

  /**
   * The moment until which the plan is kept.
   * @returns {Fraction}
   */
  now() {
    const { typed: { now, kind }, app } = this;
    if (!now.trim() && kind === 'time') throw new Refused('ifNoMoment');
    return now.trim() ? momentOf(now, app.clock) : ZERO;
  }

  /**
   * The question that is typed.
   * @returns {Question}
   */
  question() {
    const { typed } = this, { job = '', ...cells } = typed.rush;
    return { kind: typed.kind, machine: typed.machine, row: typed.row, due: typed.due, rush: { name: job, cells }, now: this.now() };
  }

  /** Asks the program for what the page cannot see, and answers the question. */
  async ask() {
    const { app, searching } = this;
    if (this.asking) return;
    this.asking = true;
    if (searching.running) searching.stop();
    const { plan } = app.state;
    this.refuse('');
    try {
      if (!plan) throw new Refused('ifNoPlan');
      await this.judge(app.planText(), 'ifBroken');
      const question = this.question();
      const searched = app.pinned.get(app.built.text);
      const answer = answered(question, app.problem, plan.pieces, app.words.german, searched && searched.runs);
      await this.judge(answer.made.text + scheduleText(answer.pieces, answer.made), '', answer.made);
      if (app.state.plan === plan) this.take(question, answer);
    } catch (fault) {
      this.failed(fault);
    } finally {
      this.asking = false;
    }
  }

  /**
   * What `check` says of a plan: refused where it does not go, or the instance has a fault.
   * @param {string} text
   * @param {string} code
   * @param {Built} [made]
   */
  async judge(text, code, made) {
    const { status, report, note } = await run(['check'], text);
    if (status <= 1 && code && !verdictOf(report).feasible) throw new Refused(code);
    const fault = note && made ? faultOf(note, made) : null;
    if (!fault) return;
    const refused = new Refused(fault.code, ...fault.values);
    refused.fault = fault;
    throw refused;
  }

  /**
   * Says why a question has no answer.
   * @param {unknown} fault
   */
  failed(fault) {
    const { typed } = this;
    if (fault instanceof CellFault) {
      this.refuse(this.say('ifInCell', this.say('ifNow'), this.say(fault.code, ...fault.values)), 'what-now');
      return;
    }
    if (!(fault instanceof Refused)) {
      this.refuse(this.say('failed', String(fault)));
      return;
    }
    const text = this.say(fault.code, ...fault.values), { key = '' } = fault.fault || {};
    const field = typed.kind === 'rush' ? `what-rush-${key}` : typed.kind === 'due' ? 'what-due' : '';
    const column = key && this.app.words.has(key) ? this.title(key) : '', ofMoment = /ifNoMoment|ifBefore|ifTooFine|ifNothingLeft/.test(fault.code);
    this.refuse(column ? this.say('ifInCell', column, text) : text, ofMoment ? 'what-now' : field);
  }

  /**
   * How the search for a better plan begins: with the order of the old one, or where that stands as it was below its cost.
   * @param {Answer} answer
   * @returns {import('./searching.js').Begin}
   */
  begin({ given, rest: { timed, places }, spans }) {
    if (given || !timed) return { again: true, given };
    const inParts = (/** @type {Fraction} */ it) => near(it) * timed.parts;
    const below = costOf(timed, spans.map(it => ({ ...it, job: places.indexOf(it.job), start: inParts(it.start), end: inParts(it.end) })));
    return { again: true, below };
  }

  /**
   * Remembers what runs in an instance, for searches.
   * @param {import('./pinned.js').Rest} rest
   * @param {bigint} unit
   * @param {Built} made
   */
  pin(rest, unit, made) {
    if (!rest.running.length) return;
    this.app.pinned.set(made.text, { timed: rest.timed, piecesOf: placed => piecesOf(whole(rest, placed), made, unit),
      runs: piecesOf(rest.running, made, unit) });
  }

  /**
   * Takes the changed list with a plan to begin with, the plan before beside it, and looks for a better one.
   * @param {Question} question
   * @param {Answer} answer
   */
  take(question, answer) {
    const { app, searching } = this, { rest, before, made } = answer, { plan } = app.state;
    const kept = { problem: before.problem, plan: { pieces: before.pieces, from: plan && !before.rest ? plan.from : /** @type {'own'} */ ('own') } };
    this.beside.notes.set(kept, notesOf(question, answer, app));
    this.pin(rest, answer.unit, made);
    if (before.rest) this.pin(before.rest, answer.unit, built(before.problem, clockOf(before.problem)));
    Object.assign(this.typed, { due: '', now: '', rush: {} });
    this.shape = '';
    app.store.change({ problem: answer.problem, plan: { pieces: answer.pieces, from: 'rules' }, kept });
    this.tell(this.say('ifAnswered'));
    this.beside.plan.root.scrollIntoView({ block: 'start' });
    if (!rest.places.length) return;
    if (app.pinned.has(made.text) || app.hasSolver === false) searching.start(this.begin(answer));
    else app.solve(true);
  }
}

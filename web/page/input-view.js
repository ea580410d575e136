// What brings a problem into the page, and what takes it out: examples, lists, files, links, dates.
import { element, fill } from '../elements.js';
import { ArcsView } from './arcs-view.js';
import { button, choice, copied, field, folded, give, line, markFaults, part, putValues } from './controls.js';
import { DrawView } from './draw-view.js';
import { pastedText } from './evidence.js';
import { History } from './history.js';
import { taken } from './list.js';
import { piecesIn } from './schedule.js';
import { listOf } from './spreadsheet.js';
import { ShopView } from './shop-view.js';
import { packed, stateIn, textOf } from './state.js';
import { newRow, TableView } from './table-view.js';
import { problemOf, scheduleIn } from './texts.js';
import { built } from './instance.js';
import { clockOf } from './clock.js';

/** @typedef {import('./app.js').App} App */
/** @typedef {import('./state.js').State} State */
/** @typedef {{calls: {group: string, name: string, text: string | null}[], texts: Object<string, string>}} Examples */

const UNITS = ['', 'min', 'h', 'd'];

/**
 * The state of an instance text, with the schedule behind it, if there is one; null of another text.
 * @param {string} text
 * @returns {State | null}
 */
export function stateOfText(text) {
  const problem = problemOf(text);
  if (!problem) return null;
  const pieces = piecesIn(scheduleIn(text), built(problem, clockOf(problem)));
  return { problem, plan: pieces.length ? { pieces, from: 'own' } : null, kept: null };
}

/** The part of the page with the jobs. */
export class InputView {
  /**
   * @param {App} app
   * @param {Examples} examples
   * @param {(text: string) => void} say tells readers of screens
   * @param {import('./shop-words.js').Shelf} shelf
   */
  constructor(app, examples, say, shelf) {
    this.app = app;
    this.examples = examples;
    this.tell = say;
    this.table = new TableView(app, text => this.takeList(text));
    this.tools = element('section', { id: 'source' });
    this.root = element('section', { id: 'jobs', 'aria-labelledby': 'jobs-head' });
    this.notes = element('div', { class: 'notes', role: 'status' });
    this.history = new History(app, text => {
      this.note();
      say(text);
    });
    this.draw = new DrawView(app, text => this.note(text));
    this.arcs = new ArcsView(app, say);
    this.shop = new ShopView(app, shelf);
    /** Judges a certificate that was brought in.
     * @type {(text: string) => void} */
    this.judge = () => undefined;
    /** The examples that were chosen, by their problems.
     * @type {WeakMap<import('./instance.js').Problem, string>} */
    this.chosen = new WeakMap();
    this.clock = element('div', { class: 'fields' });
    this.shown = '';
    /** What decides whether the fields of the clock are built anew. */
    this.shape = '';
  }

  /** @param {string} key
   * @param {...(string | number)} values */
  say(key, ...values) { return this.app.words.say(key, ...values); }

  /**
   * Says something about what was taken.
   * @param {...(Node | string)} nodes
   */
  note(...nodes) { fill(this.notes, ...nodes.map(it => element('p', {}, it))); }

  // Lists

  /** @param {string} text */
  takeList(text) {
    const list = listOf(text);
    if (!list) {
      this.note(this.say('noList'));
      return;
    }
    const { problem, said } = taken(list, this.app.problem, this.app.words.german);
    this.app.store.change({ ...this.app.state, problem, plan: null });
    const lines = said.map(([key, ...values]) => key === 'meaning' ? this.say(key, values[0], this.column(values[1])) : this.say(key, ...values));
    this.note(...lines);
    if (!this.app.faults.length) this.app.solve(true);
  }

  /** @param {string} key */
  column(key) {
    const machine = key.match(/^p(\d+)$/);
    return machine ? this.say('pOn', this.app.machineName(Number(machine[1]))) : this.say(key);
  }

  /** The box for a list. */
  paste() {
    const area = element('textarea', { id: 'paste', rows: '5', spellcheck: 'false', 'aria-label': this.say('pasteHead') });
    return folded(this.say('pasteHead'), element('p', { class: 'quiet' }, this.say('pasteSays')), area,
      element('p', { class: 'buttons' }, button(this.say('take'), () => this.take(this.say('pasted'), area.value), { id: 'take-list' })));
  }

  // Files and links

  /**
   * Takes what a file has: a saved state, an instance with what stands behind it, a plan or a certificate of the instance here, or a list.
   * @param {string} name
   * @param {string} text
   */
  take(name, text) {
    const saved = stateIn(text), state = saved || stateOfText(text), certificate = pastedText(text);
    if (state && !saved) state.problem.sheet = name.replace(/\.[^.]*$/, '');
    if (state) this.app.store.change(state);
    if (state || certificate) this.note(this.say('opened', name));
    else if (scheduleIn(text)) this.takePlan(name, scheduleIn(text));
    else if (listOf(text)) this.takeList(text);
    else this.note(this.say('notOpened', name));
    if (certificate) this.judge(certificate);
  }

  /**
   * Takes a plan of the jobs here, as solve and propose write one.
   * @param {string} name
   * @param {string} schedule
   */
  takePlan(name, schedule) {
    const pieces = piecesIn(schedule, this.app.built), all = schedule.match(/^piece /gm), fits = all !== null && pieces.length === all.length;
    if (fits) this.app.plan({ pieces, from: 'own' });
    this.note(this.say(fits ? 'opened' : 'planOther', name));
  }

  /** @param {File} file */
  async open(file) {
    try {
      const bytes = await file.arrayBuffer();
      const utf8 = new TextDecoder('utf-8', { fatal: true }), other = new TextDecoder('windows-1252');
      let text;
      try {
        text = utf8.decode(bytes);
      } catch (fault) {
        text = other.decode(bytes);
      }
      this.take(file.name, text);
    } catch (fault) {
      this.note(this.say('failed', String(fault)));
    }
  }

  /** What stands in the page, as a word behind #. */
  word() { return packed(this.saved()); }

  /** What stands in the page, as a text. */
  saved() { return textOf(this.app.state); }

  /** Copies a link to what stands in the page, or shows it. */
  async link() {
    const address = `${location.href.split('#')[0]}#state=${await this.word()}`;
    history.replaceState(null, '', address);
    if (await copied(address)) {
      this.note(this.say('linkCopied'));
      return;
    }
    const area = element('textarea', { rows: '3', readonly: '', 'aria-label': this.say('link') });
    area.value = address;
    this.note(this.say('noCopy'), area);
    area.select();
  }

  /** @param {string} name */
  choose(name) {
    const call = this.examples.calls.find(it => it.name === name), state = call && call.text ? stateOfText(this.examples.texts[call.text]) : null;
    if (!state) return;
    this.note();
    this.chosen.set(state.problem, name);
    this.app.store.change(state);
    this.app.solve(true);
    if (call && call.group === 'accept') this.judge(this.examples.texts[call.text || '']);
  }

  /** The list of examples. */
  choices() {
    const calls = this.examples.calls.filter(it => it.text && problemOf(this.examples.texts[it.text]));
    const options = calls.map(({ name, text }) => {
      const kind = this.examples.texts[text || ''].match(/^class (.*)$/m);
      return /** @type {[string, string]} */ ([name, `${name.replace(/-/g, ' ')}: ${kind ? kind[1] : ''}`]);
    });
    return choice('example', [['', this.say('ownText')], ...options], '', it => this.choose(it));
  }

  /** Buttons for files, links, and what was before. */
  buttons() {
    const { app } = this, input = element('input', { type: 'file', id: 'file', class: 'unseen' });
    input.addEventListener('change', () => {
      if (input.files && input.files[0]) this.open(input.files[0]);
      input.value = '';
    });
    const save = () => give('plan.msp.json', new Blob([`${this.saved()}\n`], { type: 'application/json' }));
    const text = () => give('instance.txt', new Blob([app.built.text], { type: 'text/plain' }));
    return element('div', { class: 'buttons' }, input, element('label', { class: 'button', for: 'file' }, this.say('openFile')),
      button(this.say('saveFile'), save, { id: 'save' }), button(this.say('saveText'), text, { id: 'save-text' }),
      button(this.say('link'), () => this.link(), { id: 'link' }), this.history.root);
  }

  // Dates and hours

  renderClock() {
    const { unit, start, shifts, holidays } = this.app.problem, shape = this.app.words.language;
    if (shape !== this.shape) this.buildClock();
    this.shape = shape;
    putValues(this.clock, { unit, start, shifts, holidays });
    markFaults(this.clock, this.app.faults.filter(it => it.row === 0).map(it => ({ id: it.key, text: this.say(it.code, ...it.values) })));
  }

  /** Builds the fields of dates and hours, in the words of the page. */
  buildClock() {
    const { problem } = this.app, set = (/** @type {string} */ key) => (/** @type {string} */ value) => this.app.change({ [key]: value });
    const units = UNITS.map(it => /** @type {[string, string]} */ ([it, this.say(`unit ${it || 'none'}`)]));
    fill(this.clock, field(this.say('unit'), choice('unit', units, problem.unit, set('unit'))),
      field(this.say('start'), line('start', problem.start, set('start'), { placeholder: '2026-03-02 06:00' })),
      field(this.say('shifts'), line('shifts', problem.shifts, set('shifts'), { placeholder: 'Mo-Fr 06:00-14:00,14:30-22:00' })),
      field(this.say('holidays'), line('holidays', problem.holidays, set('holidays'), { placeholder: '2026-12-24..2027-01-01' })));
  }

  // The whole

  build() {
    const { app } = this;
    this.shown = app.words.language;
    const add = button(this.say('addRow'), () => {
      const row = newRow(app.problem.rows);
      app.change({ rows: [...app.problem.rows, row] });
      this.table.focus(row.id, 'job');
    }, { id: 'add-row' });
    const empty = () => app.store.change({ problem: { ...app.problem, drawn: '', sheet: '', rows: [newRow([])] }, plan: null, kept: null });
    const fresh = button(this.say('fresh'), empty, { id: 'fresh' });
    const made = part('jobs', this.say('jobs'), this.paste(), this.draw.root, this.notes, this.table.root,
      element('p', { class: 'buttons' }, add, fresh), this.arcs.root,
      folded(this.say('clock'), element('p', { class: 'quiet' }, this.say('clockSays')), this.clock), this.shop.root);
    fill(this.root, ...Array.from(made.childNodes));
    this.tools.setAttribute('aria-label', this.say('source'));
    fill(this.tools, field(this.say('example'), this.choices()), this.buttons());
  }

  render() {
    const { app } = this;
    if (this.shown !== app.words.language) this.build();
    const example = this.tools.querySelector('#example');
    if (example instanceof HTMLSelectElement) example.value = this.chosen.get(app.problem) || '';
    for (const it of [this.history, this.draw, this.table, this.arcs, this.shop]) it.render();
    this.renderClock();
  }
}

// The problem: its class by questions or by its name, its machines, and what is known of it.
import { element, fill } from '../elements.js';
import { changed, NAMES, partsOf, PARTS, VALUES } from '../names.js';
import { noteIn } from '../atlas/german.js';
import { asked, near, read } from '../reading.js';
import { fixedMachines, hasSpeeds } from './columns.js';
import { button, choice, field, line, markFaults, part, putValues } from './controls.js';
import { KnownView } from './known-view.js';

/** @typedef {import('./app.js').App} App */
/** @typedef {import('../names.js').Part} Part */
/** @typedef {import('../reading.js').Unknown} Unknown */

const NEAR = 6;

/** The part of the page with the class. */
export class ProblemView {
  /** @param {App} app */
  constructor(app) {
    this.app = app;
    this.root = element('section', { id: 'problem', 'aria-labelledby': 'problem-head' });
    /** What stands in the field of the class where it was not understood, and the class that stood there. */
    this.typed = '';
    this.typedOver = app.problem.parts;
    /** What decides whether this part is built anew. */
    this.shape = '';
    this.known = new KnownView(app, rank => this.take(rank));
  }

  /** @param {string} key
   * @param {...string} values */
  say(key, ...values) { return this.app.words.say(key, ...values); }

  /**
   * Takes a class by its rank. The number of machines stays where both instances say one.
   * @param {number} rank
   */
  take(rank) {
    if (rank < 0) return;
    this.typed = '';
    const parts = { ...partsOf(rank) }, fixed = fixedMachines(parts);
    this.app.change({ parts, machines: fixed ? String(fixed) : this.app.problem.machines || '2' });
  }

  /** @param {string} text */
  read(text) {
    const rank = asked(read(text));
    this.typed = rank < 0 ? text : '';
    this.typedOver = this.app.problem.parts;
    if (rank < 0 || NAMES[rank] === this.app.name) this.render();
    else this.take(rank);
  }

  /** What was not understood of a class, and classes near by. */
  notes() {
    if (!this.typed.trim()) return [];
    const reading = read(this.typed), { words } = this.app;
    const said = (/** @type {Unknown} */ { word, note }) => note ? `${word}: ${noteIn(words, note).replace(/\.$/, '')}` : word;
    const unknown = reading.unknown.map(said).join('; ');
    const those = near(reading).slice(0, NEAR).map(it => button(NAMES[it], () => this.take(it), { class: 'near' }));
    return [element('p', { class: 'faulty', role: 'alert' }, this.say('notUnderstood', unknown || this.typed), ' ',
      ...(those.length ? [this.say('nearby'), ' ', ...those] : []))];
  }

  /** @param {Part} which */
  picker(which) {
    const { parts } = this.app.problem, values = VALUES[which].filter(it => changed(parts, which, it) >= 0 || it === parts[which]);
    if (which === 'short' && values.length < 2) return '';
    const options = values.map(it => /** @type {[string, string]} */ ([it, this.said(which, it)]));
    return field(this.say(which === 'short' ? 'shortAsks' : which), choice(`pick-${which}`, options, parts[which],
      it => this.take(changed(this.app.problem.parts, which, it))));
  }

  /**
   * A word of a part, and what it means.
   * @param {Part} which
   * @param {string} word
   */
  said(which, word) {
    const said = this.say(`${which} ${word}`);
    return which === 'environment' || which === 'criterion' ? `${said} (${word})` : said;
  }

  /** The names of the machines, as they stand in their field. */
  get machineNames() { return this.app.problem.machineNames.join(', '); }

  /** The fields of the machines, and the time that all steps share. */
  machines() {
    const { problem } = this.app, fields = [];
    const set = (/** @type {string} */ key) => (/** @type {string} */ value) => this.app.change({ [key]: value });
    if (!fixedMachines(problem.parts)) {
      fields.push(field(this.say('machines'), line('machines', problem.machines, set('machines'), { inputmode: 'numeric' })));
    }
    if (hasSpeeds(problem.parts)) fields.push(field(this.say('speeds'), line('speeds', problem.speeds, set('speeds'))));
    if (problem.parts.times === 'p=p') fields.push(field(this.say('time'), line('time', problem.time, set('time'))));
    if (problem.parts.environment !== '1') {
      const names = (/** @type {string} */ value) => this.app.change({ machineNames: value.split(/[,;]/).map(it => it.trim()) });
      fields.push(field(this.say('machineNames'), line('machineNames', this.machineNames, names,
        { placeholder: this.say('machineNamesHint') })));
    }
    return element('div', { class: 'fields' }, ...fields);
  }

  render() {
    if (this.typedOver !== this.app.problem.parts) this.typed = '';
    const { app } = this, { parts, machines, speeds, time } = app.problem;
    const shape = JSON.stringify([app.words.language, parts, app.label, this.typed]);
    if (shape !== this.shape) this.build();
    this.shape = shape;
    putValues(this.root, { machines, speeds, time, machineNames: this.machineNames, 'class-name': this.typed || app.name });
    const faults = app.faults.filter(it => it.row === 0);
    markFaults(this.root, faults.map(it => ({ id: it.key === 'class' ? 'class-name' : it.key, text: this.say(it.code, ...it.values) })));
  }

  build() {
    const { app } = this, focus = document.activeElement instanceof HTMLElement ? document.activeElement.id : '';
    const input = line('class-name', this.typed || app.name, it => this.read(it), { class: 'name', 'aria-describedby': 'class-hint' });
    const hint = element('span', { id: 'class-hint', class: 'quiet' }, this.say('classHint'));
    const known = this.known.nodes((which, word) => this.said(which, word));
    const made = part('problem', this.say('problem'), field(this.say('className'), input, hint), ...this.notes(), ...known,
      element('div', { class: 'fields' }, ...PARTS.map(it => this.picker(it))), this.machines());
    fill(this.root, ...Array.from(made.childNodes));
    const again = focus && this.root.querySelector(`#${CSS.escape(focus)}`);
    if (again instanceof HTMLElement) again.focus();
  }
}

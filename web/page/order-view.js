// A form for an order of one's own: it becomes a plan, which the program judges as any other.
import { element, fill } from '../elements.js';
import { button, field, folded } from './controls.js';
import { kindOf } from './columns.js';
import { begun, ordered, orderIn, WAYS } from './order.js';

/** @typedef {import('./app.js').App} App */
/** @typedef {import('./order.js').Fault} Fault */
/** @typedef {import('./state.js').Plan} Plan */

/** The form, to unfold. */
export class OrderView {
  /**
   * @param {App} app
   * @param {(text: string) => void} say tells readers of screens
   */
  constructor(app, say) {
    this.app = app;
    this.tell = say;
    this.root = element('div', { id: 'own-order' });
    this.said = element('div', { id: 'order-said', class: 'faulty', role: 'alert', hidden: '' });
    this.text = '';
    this.shape = '';
  }

  /** @param {string} key
   * @param {...string} values */
  say(key, ...values) { return this.app.words.say(key, ...values); }

  /** The names of all jobs, as the page has them. */
  get names() { return this.app.built.jobs.map(it => this.app.jobName(it.row.id)); }

  /**
   * Says what is wrong with the order.
   * @param {Fault[]} faults
   */
  refuse(faults) {
    this.said.hidden = !faults.length;
    fill(this.said, element('ul', {}, ...faults.map(it => element('li', {}, this.say(it.code, ...it.values)))));
  }

  /** Makes the order the plan. */
  plan() {
    const { app, names } = this, { order, faults } = orderIn(this.text, names);
    const { pieces, fault } = faults.length ? { pieces: [], fault: null } : ordered(app.built, app.problem.parts, order, names);
    this.refuse(fault ? [fault] : faults);
    if (!pieces.length) return;
    app.plan({ pieces, from: 'own' });
    this.tell(this.say('orderDone'));
  }

  /** The box for the names. */
  box() {
    const area = element('textarea', { id: 'order', rows: '3', spellcheck: 'false', autocapitalize: 'off', dir: 'auto',
      'aria-describedby': 'order-hint' });
    area.value = this.text;
    area.addEventListener('input', () => {
      this.text = area.value;
      this.refuse([]);
    });
    area.addEventListener('keydown', event => {
      if (event.key !== 'Enter' || !event.ctrlKey && !event.metaKey) return;
      event.preventDefault();
      event.stopPropagation();
      this.plan();
    });
    return area;
  }

  /** The form of a class in which an order is a plan. */
  form() {
    const { app } = this, area = this.box(), hint = element('span', { id: 'order-hint', class: 'quiet' }, this.say('orderSays'));
    const now = () => {
      const { plan } = app.state;
      area.value = this.text = plan ? begun(plan.pieces, app.built, row => app.jobName(row)) : '';
      this.refuse([]);
      area.focus();
    };
    return [field(this.say('orderNames'), area, hint), element('p', { class: 'buttons' },
      button(this.say('orderDo'), () => this.plan(), { id: 'order-do', class: 'main' }), button(this.say('orderNow'), now, { id: 'order-now' })),
    this.said];
  }

  render() {
    const { app } = this, { text, name } = app.built, way = WAYS[kindOf(app.problem.parts)];
    this.root.hidden = !text;
    const shape = JSON.stringify([app.words.language, name, this.names]);
    if (!text || shape === this.shape) return;
    this.shape = shape;
    const old = this.root.querySelector('details'), open = old !== null && old.open;
    this.refuse([]);
    const made = folded(this.say('orderOf'), element('p', { class: 'quiet', id: 'order-way' }, way ? this.say(way.way) : this.say('orderNone', name)),
      ...(way ? this.form() : []));
    made.open = open;
    fill(this.root, made);
  }
}

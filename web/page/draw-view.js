// Jobs that a seed draws, for an example of the class that is chosen.
import { byId, element, fill } from '../elements.js';
import { button, field, folded, line } from './controls.js';
import { DRAWN, drawn } from './draw.js';
import { problemOf } from './texts.js';

/** @typedef {import('./app.js').App} App */
/** @typedef {keyof typeof DRAWN} Field */

const FIRST = { jobs: '8', seed: '1' };

/**
 * A whole number from a field, in its range; null of another text.
 * @param {Field} key
 * @param {string} text
 */
export function numberIn(key, text) {
  const { least, most } = DRAWN[key], number = /^\d{1,10}$/.test(text.trim()) ? Number(text) : -1;
  return number >= least && number <= most ? number : null;
}

/**
 * The problem that a seed draws of the class of another one, whose units, dates and names of machines stay.
 * @param {import('./instance.js').Problem} problem
 * @param {number} jobs
 * @param {number} seed
 */
export function drawnProblem(problem, jobs, seed) {
  const found = problemOf(drawn(problem.parts, jobs, seed)), { unit, start, shifts, holidays, machineNames } = problem;
  if (!found) throw new Error('what was drawn is no instance');
  // (a name that is a number would be another machine in a route)
  const names = machineNames.some(it => /^\d+$/.test(it.trim())) ? [] : machineNames;
  return { ...found, unit, start, shifts, holidays, machineNames: names, drawn: `${jobs} ${seed}` };
}

/** The fields for a number of jobs and a seed. */
export class DrawView {
  /**
   * @param {App} app
   * @param {(text: string) => void} note says what was drawn
   */
  constructor(app, note) {
    this.app = app;
    this.note = note;
    this.typed = { ...FIRST };
    this.root = element('div', { id: 'draw' });
    this.shown = '';
    /** The numbers of the last drawing that the page had. */
    this.seen = '';
    this.root.addEventListener('keydown', event => {
      if (event.key !== 'Enter' || !(event.target instanceof HTMLInputElement)) return;
      event.preventDefault();
      event.target.dispatchEvent(new Event('change'));
      this.draw(0);
    });
  }

  /** @param {string} key
   * @param {...(string | number)} values */
  say(key, ...values) { return this.app.words.say(key, ...values); }

  /** @param {Field} key */
  field(key) {
    const more = { inputmode: 'numeric', 'aria-describedby': `draw-${key}-fault` };
    const input = line(`draw-${key}`, this.typed[key], text => this.type(key, text), more);
    return field(this.say(key === 'jobs' ? 'drawJobs' : 'seed'), input, element('span', { class: 'fault', id: `draw-${key}-fault` }));
  }

  /**
   * @param {Field} key
   * @param {string} text
   */
  type(key, text) {
    this.typed = { ...this.typed, [key]: text };
    this.mark();
  }

  /** Puts the numbers into their fields, and says of each where it is none. */
  mark() {
    for (const key of /** @type {Field[]} */ (['jobs', 'seed'])) {
      const { least, most } = DRAWN[key], input = byId(`draw-${key}`, HTMLInputElement), valid = numberIn(key, this.typed[key]) !== null;
      if (input.value !== this.typed[key]) input.value = this.typed[key];
      if (valid) input.removeAttribute('aria-invalid');
      else input.setAttribute('aria-invalid', 'true');
      byId(`draw-${key}-fault`, HTMLElement).textContent = valid ? '' : this.say('wholeFrom', least, most.toLocaleString(this.app.words.language));
    }
  }

  /**
   * Draws, by the seed or by one behind it.
   * @param {number} step
   */
  draw(step) {
    const jobs = numberIn('jobs', this.typed.jobs), seed = numberIn('seed', this.typed.seed);
    if (jobs === null || seed === null) {
      byId(jobs === null ? 'draw-jobs' : 'draw-seed', HTMLElement).focus();
      return;
    }
    const next = (seed + step) % (DRAWN.seed.most + 1), { app } = this;
    app.store.change({ problem: drawnProblem(app.problem, jobs, next), plan: null, kept: app.state.kept });
    this.note(this.say('drawn', jobs, `msp trial '${app.name}' ${jobs} ${next}`));
    app.solve(true);
  }

  /** Builds what stays, in the words of the page. */
  build() {
    const here = button(this.say('drawDo'), () => this.draw(0), { id: 'draw-do' });
    const next = button(this.say('drawNext'), () => this.draw(1), { id: 'draw-next' });
    fill(this.root, folded(this.say('draw'), element('p', { class: 'quiet' }, this.say('drawSays')),
      element('div', { class: 'fields' }, this.field('jobs'), this.field('seed')), element('p', { class: 'buttons' }, here, next)));
  }

  render() {
    const { problem, words } = this.app, isNew = problem.drawn !== this.seen;
    if (isNew && problem.drawn) {
      const [jobs, seed] = problem.drawn.split(' ');
      this.typed = { jobs, seed: seed || FIRST.seed };
    }
    this.seen = problem.drawn;
    if (this.shown !== words.language) this.build();
    else if (!isNew) return;
    this.shown = words.language;
    this.mark();
  }
}

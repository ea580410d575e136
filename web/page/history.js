// Undo and redo: by their buttons and by the keyboard. What is just being typed counts as a change.
import { element } from '../elements.js';
import { nameOf } from '../names.js';
import { button } from './controls.js';

/** @typedef {import('./app.js').App} App */
/** @typedef {import('./state.js').State} State */
/** @typedef {import('./instance.js').Problem} Problem */

/** What a change is of, by the word for it; the first that fits.
 * @type {[string, (problem: Problem) => unknown][]} */
const PARTS = [['className', it => nameOf(it.parts)], ['jobs', it => it.rows], ['machines', it => it.machines], ['speeds', it => it.speeds],
  ['time', it => it.time], ['machineNames', it => it.machineNames], ['clock', it => [it.unit, it.start, it.shifts, it.holidays]]];

/**
 * The word for what two states differ in.
 * @param {State} one
 * @param {State} other
 */
export function differing(one, other) {
  const text = (/** @type {unknown} */ it) => JSON.stringify(it), same = one.problem === other.problem;
  const moved = [one.kept, other.kept].some(it => it && [one.problem, other.problem].includes(it.problem));
  if (one.kept !== other.kept && (same || moved)) return 'beside';
  const found = same ? undefined : PARTS.find(([, of]) => text(of(one.problem)) !== text(of(other.problem)));
  return found ? found[0] : 'thePlan';
}

/** Takes over what is being typed, as leaving its field does. */
function takeTyped() {
  const { activeElement: it } = document;
  if (it instanceof HTMLInputElement && it.closest('#part-plan')) it.dispatchEvent(new Event('change', { bubbles: true }));
}

/** The two buttons. */
export class History {
  /**
   * @param {App} app
   * @param {(text: string) => void} tell tells readers of screens
   */
  constructor(app, tell) {
    this.app = app;
    this.tell = tell;
    this.undo = button('', () => this.go('undo'), { id: 'undo' });
    this.redo = button('', () => this.go('redo'), { id: 'redo' });
    this.root = element('span', { class: 'group', role: 'group' }, this.undo, this.redo);
  }

  /** @param {'undo' | 'redo'} way */
  go(way) {
    takeTyped();
    const { app } = this, { store, state } = app, has = (way === 'undo' ? store.past : store.future).length > 0;
    store[way]();
    const [said, other] = way === 'undo' ? ['undone', this.redo] : ['redone', this.undo];
    if (has) this.tell(app.words.say(said, app.words.say(differing(state, app.state))));
    if (document.activeElement === document.body || document.activeElement === this[way] && this[way].disabled) other.focus();
  }

  /**
   * What a step would change.
   * @param {State | undefined} next
   */
  title(next) { return next ? this.app.words.say(differing(this.app.state, next)) : ''; }

  render() {
    const { words, store: { past, future } } = this.app;
    for (const [it, word, list] of /** @type {[HTMLButtonElement, string, State[]][]} */ ([[this.undo, 'undo', past], [this.redo, 'redo', future]])) {
      const title = this.title(list[list.length - 1]);
      it.textContent = words.say(word);
      it.title = title;
      it.disabled = !list.length;
    }
  }
}

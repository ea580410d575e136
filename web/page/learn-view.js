// Learn: short lessons, each an instance to play with, a rule with its steps, and a question that is judged by what the program says.
import { element, fill } from '../elements.js';
import { judge } from '../lessons/judge.js';
import { instanceText, lessonOf, LESSONS, planText } from '../lessons/lessons.js';
import { say, textsOf } from '../lessons/words.js';
import { App } from './app.js';
import { ChartView } from './chart-view.js';
import { button, folded } from './controls.js';
import { stateOfText } from './input-view.js';
import { early } from './own.js';
import { verdictNodes } from './plan-words.js';
import { piecesIn, scheduleText } from './schedule.js';
import { StepsView } from './steps-view.js';
import { WhyView } from './why-view.js';

/** @typedef {import('../lessons/lessons.js').Lesson} Lesson */
/** @typedef {import('./state.js').Plan} Plan */
/** @typedef {import('../words.js').Words} Words */

/** What is told of an answer; all else stands in the verdict already. */
const TOLD = ['solved', 'changed', 'dearer', 'moved', 'refused', 'kind', 'less'];

/** The part of the page with the lessons. */
export class LearnView {
  /**
   * @param {HTMLElement} root
   * @param {() => Words} words
   * @param {(text: string) => void} say tells readers of screens
   * @param {(text: string) => void} take opens an instance in the plan
   */
  constructor(root, words, say, take) {
    this.root = root;
    this.words = words;
    this.tell = say;
    this.take = take;
    /** @type {Set<string>} */
    this.solved = new Set();
    /** @type {App | null} */
    this.app = null;
    /** @type {WhyView | null} */
    this.why = null;
    /** @type {StepsView | null} */
    this.steps = null;
    this.shown = '';
    this.lessons = element('section', { class: 'lessons' });
    root.addEventListener('keydown', event => this.pressed(event));
  }

  /** @param {string} key
   * @param {...(string | number)} values */
  say(key, ...values) { return this.words().say(key, ...values); }

  /**
   * The plan with which a lesson begins.
   * @param {App} app
   * @param {Lesson} lesson
   * @returns {Plan}
   */
  first(app, lesson) { return { from: 'own', pieces: piecesIn(planText(lesson), app.built) }; }

  /**
   * The list of all lessons.
   * @param {string} [here] the lesson that is open
   */
  list(here = '') {
    const { german } = this.words(), current = (/** @type {string} */ id) => id === here ? 'page' : null;
    const link = (/** @type {Lesson} */ it) => element('a', { class: 'text', href: `#learn/${it.id}`, 'aria-current': current(it.id) },
      textsOf(it, german).title);
    const lines = LESSONS.map(it => element('li', {}, link(it),
      this.solved.has(it.id) ? ` \u2713 ${this.say('lessonDone')}` : ''));
    fill(this.lessons, element('h2', {}, this.say('learn')), element('p', { class: 'quiet' }, this.say('learnSays')), element('ol', {}, ...lines));
    return this.lessons;
  }

  /**
   * Shows the lesson that the address names, or the list alone.
   * @param {string} id
   */
  show(id) {
    const lesson = lessonOf(id), key = `${this.words().language} ${id}`, hadFocus = this.root.contains(document.activeElement);
    if (this.shown === key) return;
    this.shown = key;
    if (lesson) fill(this.root, this.list(lesson.id), ...this.open(lesson));
    else fill(this.root, this.list());
    const head = hadFocus && this.root.querySelector('.lesson h2');
    if (head instanceof HTMLElement) head.focus();
  }

  /**
   * A lesson with its own instance.
   * @param {Lesson} lesson
   */
  open(lesson) {
    const state = stateOfText(instanceText(lesson));
    if (!state) throw new Error(`the lesson ${lesson.id} has no instance`);
    const app = new App(state, this.words()), chart = new ChartView(app, this.tell), before = this.app;
    const verdict = element('div', { class: 'verdict', role: 'status', 'aria-live': 'polite' });
    const answer = element('div', { class: 'answered', role: 'status', hidden: '' }), steps = new StepsView(app, 'lesson-steps', lesson.rule);
    const why = new WhyView(app, rows => {
      chart.marked = rows;
      chart.render();
    }, 'lesson-why', true);
    [this.app, this.why, this.steps] = [app, why, steps];
    app.show(() => {
      chart.render();
      fill(verdict, ...verdictNodes(app, null, false));
      if (lesson.goal.kind === 'bound') why.render();
      steps.render();
      this.judge(lesson, app, why, answer);
    });
    app.asksBest = true;
    // (in another language the plan stays)
    const plan = before && before.built.text === app.built.text && before.state.plan || this.first(app, lesson);
    app.store.set({ ...app.state, plan });
    const keys = element('p', { class: 'quiet keys' }, this.say('keys')), { hint } = textsOf(lesson, this.words().german);
    return [element('section', { class: 'lesson' }, ...this.asks(lesson), ...(lesson.goal.kind === 'bound' ? [why.root] : []),
      this.buttons(app, lesson), verdict, answer, chart.root, keys, folded(this.say('lessonHint'), element('p', {}, hint)), steps.root)];
  }

  /**
   * What Ctrl and Z or Y do in a lesson.
   * @param {KeyboardEvent} event
   */
  pressed(event) {
    const key = event.key.toLowerCase();
    if (!this.app || !(event.ctrlKey || event.metaKey) || !['z', 'y'].includes(key) || event.target instanceof HTMLTextAreaElement) return;
    event.preventDefault();
    if (key === 'y' || event.shiftKey) this.app.store.redo();
    else this.app.store.undo();
  }

  /**
   * The instance and the rule of a lesson, and what is asked.
   * @param {Lesson} lesson
   */
  asks(lesson) {
    const { title, story, rule, question } = textsOf(lesson, this.words().german);
    return [element('h2', { tabindex: '-1' }, title), element('p', {}, story), element('p', { class: 'rule-says' }, rule),
      element('p', { class: 'asks' }, element('b', {}, this.say('lessonAsks')), ' ', question)];
  }

  /**
   * @param {App} app
   * @param {Lesson} lesson
   */
  buttons(app, lesson) {
    const again = () => app.plan(this.first(app, lesson)), move = () => {
      if (app.state.plan) app.plan({ pieces: early(app.state.plan.pieces, app.built), from: 'own' });
    };
    const undo = button(this.say('undo'), () => app.store.undo(), { id: 'lesson-undo' });
    const redo = button(this.say('redo'), () => app.store.redo(), { id: 'lesson-redo' });
    const able = () => {
      const { activeElement: here } = document;
      [undo.disabled, redo.disabled] = [!app.store.past.length, !app.store.future.length];
      if (here === undo && undo.disabled) redo.focus();
      if (here === redo && redo.disabled) undo.focus();
    };
    app.show(able);
    able();
    return element('div', { class: 'buttons' }, button(this.say('early'), move, { title: this.say('earlySays'), id: 'lesson-early' }), undo, redo,
      button(this.say('again'), again, { id: 'lesson-again' }), button(this.say('lessonTake'), () => this.take(instanceText(lesson))));
  }

  /**
   * Whether the question is answered, by what the program says of the plan or of the evidence.
   * @param {Lesson} lesson
   * @param {App} app
   * @param {WhyView} why
   * @param {HTMLElement} answer
   */
  judge(lesson, app, why, answer) {
    const { plan } = app.state, { german } = this.words(), schedule = plan ? scheduleText(plan.pieces, app.built) : '';
    const { outcome, values } = judge(lesson, { instance: app.built.text, verdict: app.verdict, schedule, evidence: why.evidence });
    const done = outcome === 'solved', said = say(outcome, german, ...values);
    answer.hidden = !TOLD.includes(outcome) || schedule === planText(lesson) && !why.evidence;
    answer.classList.toggle('fine', done);
    fill(answer, element('p', {}, said), ...(done ? [element('p', {}, textsOf(lesson, german).shows)] : []));
    if (!done || this.solved.has(lesson.id)) return;
    this.solved.add(lesson.id);
    this.list(lesson.id);
    this.tell(said);
  }
}

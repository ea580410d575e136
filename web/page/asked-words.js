// What was asked, and what is to be known of the answer, as sentences in the language of the page.
import { clockOf, momentText } from './clock.js';
import { calledAt, machineAt } from './jobs.js';
import { fraction, over, shown } from '../fractions.js';
import { nameOf, rankOf } from '../names.js';

/** @typedef {import('./app.js').App} App */
/** @typedef {import('./asking.js').Answer} Answer */
/** @typedef {import('./asking.js').Question} Question */
/** @typedef {import('./beside-view.js').Notes} Notes */
/** @typedef {import('./leftover.js').Told} Told */
/** @typedef {import('../fractions.js').Fraction} Fraction */

/** Which notes need no words: the list names machines that are counted anew. */
const UNSAID = ['leftCounted'];

/** Sentences on an answer. They hold all that they say, since the page goes on. */
class Asked {
  /**
   * @param {Question} question
   * @param {Answer} answer
   * @param {App} app before the answer
   */
  constructor(question, answer, app) {
    this.question = question;
    this.answer = answer;
    this.app = app;
    this.clock = clockOf(app.problem);
    this.cut = app.problem.parts.cut !== '';
    this.row = question.kind === 'gone' || question.kind === 'due' ? app.jobName(question.row) : '';
    this.jobs = answer.asked.jobs.map((it, at) => calledAt(it.row, at));
    this.machines = app.problem.machineNames.slice();
    this.sameClass = nameOf(answer.problem.parts) === app.name;
  }

  /** @param {number} at from 0 */
  machine(at) { return machineAt(this.machines, at + 1, this.app.words); }

  /**
   * A moment of the plan before.
   * @param {Fraction} it
   */
  moment(it) { return momentText(it, this.clock, this.app.words.german); }

  /** What was asked. */
  asked() {
    const { question: { kind, machine, rush, due, now }, app: { words }, answer } = this, word = kind === 'cut' && this.cut ? 'nocut' : kind;
    const rushed = rush.name.trim() || this.jobs[this.jobs.length - 1];
    const values = { more: [], less: [this.machine(machine - 1)], gone: [this.row], rush: [rushed], cut: [], due: [this.row, due.trim()], time: [] };
    const name = nameOf(answer.problem.parts), { atlas } = this.app, solved = !atlas || atlas.solver(rankOf(name)) !== null;
    return [words.say(`asked ${word}`, ...values[kind]), ...(now.n ? [words.say('askedNow', this.moment(now))] : []),
      ...(this.sameClass ? [] : [words.say(solved ? 'askedSolved' : 'askedClass', name)])];
  }

  /**
   * What is to be known.
   * @param {Told} told
   */
  told({ code, job, machine, values }) {
    const { app: { words }, answer: { unit } } = this, inList = (/** @type {Fraction} */ it) => over(it, fraction(unit));
    const who = [...(job < 0 ? [] : [this.jobs[job]]), ...(machine < 0 ? [] : [this.machine(machine)])];
    const key = code === 'leftPinned' && values[2] ? 'leftPinnedApart' : code;
    const said = values.map(it => typeof it === 'string' ? it : code === 'leftFewer' ? String(it.n)
      : code === 'leftRounded' ? shown(inList(it), words.mark) : this.moment(inList(it)));
    return words.say(key, ...who, ...said);
  }

  /** @returns {Notes} */
  notes() { return { asked: this.asked(), told: this.answer.told.filter(it => !UNSAID.includes(it.code)).map(it => this.told(it)) }; }
}

/**
 * The sentences on an answer, to be said in any language.
 * @param {Question} question
 * @param {Answer} answer
 * @param {App} app before the answer
 * @returns {() => Notes}
 */
export function notesOf(question, answer, app) {
  const found = new Asked(question, answer, app);
  return () => found.notes();
}

// A plan that is handed in: a file that companions/grade reads, named after the student and the sheet.
import { element, fill } from '../elements.js';
import { button, field, folded, give, line } from './controls.js';
import { plain } from './jobs.js';
import { checkedText } from './plan-files.js';

/** @typedef {import('./app.js').App} App */

/**
 * The name of the file: grade finds the student in it, and where there are several sheets, that one.
 * @param {string} who
 * @param {string} sheet
 */
export function answerName(who, sheet) {
  const words = [who, sheet].filter(it => it.trim()).map(it => plain(it).replace(/^[._]+/, '')).filter(Boolean);
  return `${words.join('_') || 'answer'}.txt`;
}

/** The field for a name, and the button that gives the file. */
export class AnswerView {
  /** @param {App} app */
  constructor(app) {
    this.app = app;
    this.who = '';
    this.root = element('div', { id: 'answer' });
    this.shown = '';
  }

  /** Gives the file, once the program has said what the plan costs. */
  async give() {
    const { app } = this;
    if (!app.verdict) await app.judge();
    give(answerName(this.who, app.problem.sheet), new Blob([checkedText(app)], { type: 'text/plain' }));
  }

  render() {
    const { words } = this.app;
    if (this.shown === words.language) return;
    this.shown = words.language;
    const name = line('answer-name', this.who, it => { this.who = it; });
    fill(this.root, folded(words.say('answer'), element('p', { class: 'quiet' }, words.say('answerSays')), field(words.say('answerName'), name),
      element('p', { class: 'buttons' }, button(words.say('answerGive'), () => this.give(), { id: 'answer-give', 'data-file': 'answer' }))));
  }
}

// Why no plan costs less: the certificate of the program as a sentence, and a bound of one's own that the program judges.
import { run } from '../engine.js';
import { element, fill } from '../elements.js';
import { CellFault, numberOf } from './cells.js';
import { button, choice, copied, field, folded, give, line, part } from './controls.js';
import { CERTIFIED, certificateIn, ownText, pastedText, toldOf, whyText } from './evidence.js';
import { print } from '../fractions.js';

/** @typedef {import('./app.js').App} App */
/** @typedef {import('./evidence.js').Certificate} Certificate */
/** @typedef {'group' | 'machine' | 'line' | 'text'} Kind what shows a bound of one's own; `text` is a certificate of any kind */

/** The part of the page with the reasons. */
export class WhyView {
  /**
   * @param {App} app
   * @param {(rows: Set<number>) => void} mark points jobs out in the chart
   * @param {string} [prefix] of the names of its elements
   * @param {boolean} [ownOnly] whether the certificate of the program is left out
   */
  constructor(app, mark, prefix = 'why', ownOnly = false) {
    this.app = app;
    this.mark = mark;
    this.prefix = prefix;
    this.ownOnly = ownOnly;
    this.root = element('section', { id: prefix, 'aria-labelledby': `${prefix}-head` });
    /** What the program said of one's own bound; null where it was not asked.
     * @type {import('../lessons/judge.js').Evidence | null} */
    this.evidence = null;
    /** @type {{text: string, found: Certificate | null} | null} */
    this.asked = null;
    /** What the program says of one's own bound. */
    this.judged = '';
    this.accepted = false;
    /** The kind that was chosen last; another one is shown where it can show nothing in the class.
     * @type {Kind} */
    this.wanted = 'group';
    this.bound = '';
    this.machine = '1';
    /** The certificate that was pasted or opened. */
    this.given = '';
    /** @type {Set<number>} */
    this.chosen = new Set();
    this.shape = '';
  }

  /** @param {string} key
   * @param {...(string | number)} values */
  say(key, ...values) { return this.app.words.say(key, ...values); }

  /** The kinds of evidence that can show something in the class.
   * @returns {Kind[]} */
  get kinds() {
    const { environment, criterion } = this.app.problem.parts, shop = 'OFJ'.includes(environment[0]);
    /** @type {Kind[]} */
    const simple = criterion !== 'Cmax' || environment[0] === 'R' ? [] : shop ? ['machine', 'line'] : ['group'];
    return this.ownOnly ? simple : [...simple, 'text'];
  }

  /** The kind of evidence that is filled in.
   * @returns {Kind} */
  get kind() { return this.kinds.includes(this.wanted) ? this.wanted : this.kinds[0] || 'group'; }

  /** @param {Kind} kind */
  set kind(kind) { this.wanted = kind; }

  /** Asks the program for a certificate. */
  async ask() {
    const { app } = this, { text } = app.built, { status, report } = await run(['certify'], text);
    this.asked = { text, found: status === 0 ? certificateIn(report, app.built) : null };
    if (this.asked.found) this.mark(new Set(toldOf(this.asked.found, app).rows));
    this.render();
  }

  /** The text of the evidence for a bound of one's own. */
  ownText() {
    const text = this.kind === 'text' ? pastedText(this.given)
      : ownText(this.kind, numberOf(this.bound), [...this.chosen], Number(this.machine), this.app.built);
    if (!text) throw new CellFault('noCertificate');
    return text;
  }

  /** Lets the program judge a bound of one's own. */
  async judge() {
    const { app } = this;
    [this.evidence, this.accepted] = [null, false];
    try {
      const text = this.ownText(), { report, note } = await run(['accept'], app.built.text + text), found = certificateIn(text, app.built);
      this.accepted = /^accepted yes$/m.test(report);
      if (found && !note) this.evidence = { accepted: this.accepted, kind: found.kind, bound: found.bound };
      this.judged = note ? this.noteText(note) : this.say(this.accepted ? 'acceptedYes' : 'acceptedNo');
      if (!this.accepted || !found) return;
      this.judged += ` ${whyText(found, app)}`;
      this.mark(new Set(toldOf(found, app).rows));
    } catch (fault) {
      this.judged = fault instanceof CellFault ? this.say(fault.code, ...fault.values) : this.say('failed', String(fault));
    } finally {
      app.render();
    }
  }

  /**
   * What a note says of the text of a certificate, whose lines follow those of the instance.
   * @param {string} note
   */
  noteText(note) {
    const said = note.replace('msp: ', '').trim(), [, number, what] = said.match(/^line (\d+): (.*)$/) || [];
    const line = Number(number) - this.app.built.lines.length;
    return line > 0 ? this.say('certificateLine', line, what) : this.say('line', said);
  }

  /**
   * Takes a certificate as text, and lets the program judge it.
   * @param {string} text
   */
  take(text) {
    [this.kind, this.given] = ['text', pastedText(text)];
    return this.judge();
  }

  /** The certificate of the program. */
  certificate() {
    const { app } = this;
    if (this.ownOnly) return [];
    if (!CERTIFIED.includes(app.name)) {
      const key = app.hasSolver === false ? 'whyNoSolver' : 'whyOther';
      return [element('p', { class: 'quiet', id: 'why-other' }, this.say(key, CERTIFIED.join(', ')))];
    }
    const { asked } = this;
    if (!asked || asked.text !== app.built.text) {
      return [element('p', { class: 'buttons' }, button(this.say('whyAsk'), () => this.ask(), { id: 'why-ask' }))];
    }
    if (!asked.found) return [element('p', { id: 'why-said', tabindex: '-1' }, this.say('whyNone'))];
    return [element('p', { id: 'why-said', class: 'fine', tabindex: '-1' }, whyText(asked.found, app)), this.asText(asked.found.text)];
  }

  /**
   * The certificate as text, to copy and to save.
   * @param {string} text
   */
  asText(text) {
    const area = element('textarea', { id: 'why-text', rows: '9', readonly: '', spellcheck: 'false', 'aria-label': this.say('certificateText') });
    const said = element('p', { role: 'status' }), { built } = this.app;
    area.value = text;
    const copy = async () => {
      area.select();
      said.textContent = this.say(await copied(text) ? 'textCopied' : 'noCopyHere');
    };
    const save = () => give('certificate.txt', new Blob([built.text + text], { type: 'text/plain' }));
    return folded(this.say('certificateText'), element('p', { class: 'quiet' }, this.say('certificateSays')), area,
      element('p', { class: 'buttons' }, button(this.say('copy'), copy, { id: 'why-copy' }),
        button(this.say('certificateSave'), save, { id: 'why-save' })), said);
  }

  /** The jobs of which a group is made, each to be chosen. */
  jobs() {
    const { app } = this, one = this.kind === 'line';
    const boxes = app.built.jobs.map(({ row }) => {
      const box = element('input', { type: one ? 'radio' : 'checkbox', name: `${this.prefix}-jobs`, id: `${this.prefix}-job-${row.id}` });
      box.checked = this.chosen.has(row.id);
      box.addEventListener('change', () => {
        if (one) this.chosen.clear();
        if (box.checked) this.chosen.add(row.id);
        else this.chosen.delete(row.id);
        this.mark(new Set(this.chosen));
      });
      return element('label', { class: 'pick-job' }, box, ` ${app.jobName(row.id)}`);
    });
    return element('fieldset', {}, element('legend', {}, this.say('evidenceJobs')), ...boxes);
  }

  /** What is filled in for the kind that is chosen.
   * @returns {HTMLElement} */
  evidenceField() {
    if (this.kind === 'machine') {
      return field(this.say('machineColumn'), line(`${this.prefix}-machine`, this.machine, it => { this.machine = it; }, { inputmode: 'numeric' }));
    }
    if (this.kind !== 'text') return this.jobs();
    const area = element('textarea', { id: `${this.prefix}-given`, rows: '6', spellcheck: 'false', placeholder: this.say('certificateHint') });
    area.value = this.given;
    area.addEventListener('input', () => { this.given = area.value; });
    return field(this.say('certificateGiven'), area);
  }

  /** The form for a bound of one's own. */
  form() {
    const { kinds } = this;
    if (!kinds.length) return [];
    const options = kinds.map(it => /** @type {[string, string]} */ ([it, this.say(`evidence ${it}`)]));
    const kind = choice(`${this.prefix}-kind`, options, this.kind, it => {
      this.kind = /** @type {Kind} */ (it);
      this.chosen.clear();
      this.render();
    });
    const bound = line(`${this.prefix}-bound`, this.bound, it => { this.bound = it; }, { inputmode: 'decimal' });
    const form = [element('div', { class: 'fields' }, field(this.say('evidenceKind'), kind),
      this.kind === 'text' ? '' : field(this.say('boundField'), bound)), this.evidenceField(),
      element('p', { class: 'buttons' }, button(this.say('boundJudge'), () => this.judge(), { id: `${this.prefix}-judge` })),
      element('p', { id: `${this.prefix}-accepted`, class: this.accepted ? 'fine' : 'faulty', role: 'status', hidden: this.judged ? null : '' },
        this.judged)];
    if (this.ownOnly) return form;
    const made = folded(this.say('ownBound'), ...form);
    made.classList.add('own-bound');
    return [made];
  }

  render() {
    const { app } = this, { text } = app.built;
    this.root.hidden = !text;
    const best = app.bestCost && print(app.bestCost);
    const shape = JSON.stringify([app.words.language, text, this.asked && this.asked.text, this.judged, this.kind, best, app.hasSolver]);
    if (shape === this.shape) return;
    if (text !== JSON.parse(this.shape || '[0,""]')[1]) this.judged = '';
    this.shape = shape;
    const { activeElement } = document, focus = activeElement && this.root.contains(activeElement) ? activeElement.id : '';
    const open = Array.from(this.root.querySelectorAll('details[open]'), it => it.className);
    const made = part(this.prefix, this.say(this.ownOnly ? 'ownBound' : 'why'), ...this.certificate(), ...this.form());
    fill(this.root, ...Array.from(made.childNodes));
    this.root.classList.toggle('is-told', this.root.querySelector('#why-said') !== null);
    this.root.querySelectorAll('details').forEach(it => {
      it.open = open.includes(it.className) || it.classList.contains('own-bound') && this.judged !== '';
    });
    const again = document.getElementById(focus === 'why-ask' ? 'why-said' : focus);
    if (again) again.focus();
  }
}

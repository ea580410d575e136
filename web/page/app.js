// What the page knows: the problem and its plan with their history, the instance, and what the program says of both.
import { labelIn } from '../atlas/words.js';
import { run } from '../engine.js';
import { nameOf, rankOf } from '../names.js';
import { clockOf } from './clock.js';
import { compare } from '../fractions.js';
import { built } from './instance.js';
import { listCost, scheduleText, solvedOf } from './schedule.js';
import { Store } from './store.js';
import { calledAt, machineAt } from './jobs.js';
import { usedRows } from './instance.js';
import { faultOf, verdictOf } from './verdicts.js';

/** @typedef {import('./state.js').State} State */
/** @typedef {import('./instance.js').Problem} Problem */
/** @typedef {import('./instance.js').Built} Built */
/** @typedef {import('./instance.js').Fault} Fault */
/** @typedef {import('./schedule.js').Solved} Solved */
/** @typedef {import('./verdicts.js').Verdict} Verdict */
/** @typedef {import('../fractions.js').Fraction} Fraction */
/** @typedef {import('./clock.js').ListClock} ListClock */
/** @typedef {import('../classes.js').Atlas} Atlas */
/** @typedef {{solved: Solved | null, status: number, note: string}} Answer what `solve` says of an instance */

/** Evidence that shows nothing: `accept` reads the whole instance with it, in each class. */
const NOTHING = 'certificate\nbound 0\nkind group\nend\n';
const KEPT = 30;
/** The status of an instance that is beyond a limit of its solver. */
const BEYOND = 4;

/** The problem, its plan, and what is known of them. */
export class App {
  /**
   * @param {State} state
   * @param {import('../words.js').Words} words
   */
  constructor(state, words) {
    this.store = new Store(state);
    this.words = words;
    /** @type {Atlas | null} */
    this.atlas = null;
    this.clock = clockOf(state.problem);
    this.built = built(state.problem, this.clock);
    /** The text of a plan, which is long.
     * @type {{plan: State['plan'], of: Built | null, text: string}} */
    this.written = { plan: null, of: null, text: '' };
    /** The names of the jobs of a problem, by their rows.
     * @type {{of: Problem | null, names: Map<number, string>}} */
    this.called = { of: null, names: new Map() };
    /** @type {Fault[]} */
    this.told = [];
    /** @type {Map<string, Answer>} */
    this.answers = new Map();
    /** @type {{text: string, verdict: Verdict | null, note: string} | null} */
    this.judged = null;
    /** @type {AbortController | null} */
    this.running = null;
    /** @type {AbortController | null} */
    this.judging = null;
    /** What was said last of a call that gave no plan, in the language that the page has then. */
    this.saying = () => '';
    /** What is searched of instances in which something runs already, by their texts.
     * @type {Map<string, import('./searching.js').Searched>} */
    this.pinned = new Map();
    /** Whether the best cost is asked for, where it is not known that there is a solver. */
    this.asksBest = false;
    /** @type {(() => void)[]} */
    this.views = [];
    this.store.listen((value, before) => this.changed(value, before));
  }

  get state() { return this.store.value; }

  get problem() { return this.state.problem; }

  get name() { return nameOf(this.problem.parts); }

  /** The faults of the cells, those that the program found among them. */
  get faults() { return [...this.clock.faults, ...this.built.faults, ...this.told]; }

  /** What `solve` said of the instance; null where it was not asked. */
  get answer() { return this.answers.get(this.built.text) || null; }

  /** The verdict on the plan; null while there is none. */
  get verdict() { return this.judged && this.judged.text === this.planText() ? this.judged.verdict : null; }

  /** What the table of classes says of the class. */
  get label() { return this.atlas ? this.atlas.all.labels[rankOf(this.name)] : ''; }

  /** Whether there is a solver that takes the instance; null while this is not known. */
  get hasSolver() {
    const { answer } = this;
    if (answer && answer.status === BEYOND) return false;
    return this.atlas ? this.atlas.solver(rankOf(this.name)) !== null : null;
  }

  get said() { return this.saying(); }

  /**
   * Says something of a call.
   * @param {string} key
   * @param {...string} values
   */
  tells(key, ...values) { this.saying = () => this.words.say(key, ...values); }

  /** @param {() => void} view which is called when something is another */
  show(view) { this.views.push(view); }

  render() { for (const view of this.views) view(); }

  /**
   * The name of the job of a row.
   * @param {number} row
   */
  jobName(row) {
    const { problem } = this;
    if (this.called.of !== problem) this.called = { of: problem, names: new Map(usedRows(problem).map((it, at) => [it.id, calledAt(it, at)])) };
    return this.called.names.get(row) || '?';
  }

  /** @param {number} machine */
  machineName(machine) { return machineAt(this.problem.machineNames, machine, this.words); }

  /**
   * A change of the problem, which can be taken back.
   * @param {Partial<Problem>} change
   */
  change(change) {
    const problem = { ...this.problem, ...change };
    if (JSON.stringify(problem) !== JSON.stringify(this.problem)) this.store.change({ ...this.state, problem });
  }

  /**
   * Another plan, which can be taken back.
   * @param {State['plan']} plan
   */
  plan(plan) { this.store.change({ ...this.state, plan }); }

  /**
   * @param {State} value
   * @param {State} before
   */
  changed(value, before) {
    if (value.problem !== before.problem) {
      this.clock = clockOf(value.problem);
      this.built = built(value.problem, this.clock);
      this.told = [];
      this.saying = () => '';
      const { running } = this;
      this.running = null;
      if (running) running.abort();
    }
    this.render();
    this.judge();
  }

  /** The text of the instance with the plan behind it; empty where there is none, or the instance has faults. */
  planText() {
    const { state: { plan }, built: of, written } = this;
    if (!plan || !of.text) return '';
    if (written.plan !== plan || written.of !== of) this.written = { plan, of, text: of.text + scheduleText(plan.pieces, of) };
    return this.written.text;
  }

  /** Asks the program what is wrong with the instance, and whether the plan goes; in the background for the best cost beside it. */
  async judge() {
    if (this.judging) this.judging.abort();
    const control = new AbortController();
    this.judging = control;
    try {
      await this.judgeBy(control.signal);
    } catch (fault) {
      if (control.signal.aborted) return;
      this.tells('failed', String(fault));
      this.render();
    }
  }

  /** @param {AbortSignal} signal */
  async judgeBy(signal) {
    const { text } = this.built, plan = this.planText();
    if (!text) return;
    if (plan) await this.check(plan, signal);
    else if (this.tell((await run(['accept'], text + NOTHING, { signal })).note)) this.render();
    if (!plan || this.answer || !this.hasSolver && !this.asksBest || this.running || this.told.length) return;
    await this.ask(text, signal);
    this.render();
  }

  /**
   * What the program says of the plan.
   * @param {string} plan
   * @param {AbortSignal} signal
   */
  async check(plan, signal) {
    if (this.judged && this.judged.text === plan) return;
    const { status, report, note } = await run(['check'], plan, { signal });
    this.judged = { text: plan, verdict: status <= 1 ? verdictOf(report) : null, note };
    if (status > 1) this.tell(note);
    this.render();
  }

  /**
   * Takes over what a note says of a cell; whether it says something.
   * @param {string} note
   */
  tell(note) {
    const fault = note ? faultOf(note, this.built) : null, before = this.told.length;
    this.told = fault ? [fault] : [];
    return Boolean(fault) || before > 0;
  }

  /**
   * What `solve` says of an instance. It is kept.
   * @param {string} text
   * @param {AbortSignal} signal
   * @returns {Promise<Answer>}
   */
  async ask(text, signal) {
    const known = this.answers.get(text);
    if (known) return known;
    const { built: made } = this, { status, report, note } = await run(['solve'], text, { signal });
    const answer = { solved: status === 0 ? solvedOf(report, made) : null, status, note };
    if (this.answers.size >= KEPT) this.answers.delete(this.answers.keys().next().value);
    this.answers.set(text, answer);
    return answer;
  }

  /**
   * Takes a best plan of the program, or says why there is none.
   * @param {boolean} [follows] whether the plan belongs to the change before it, and is taken back with that
   */
  async solve(follows = false) {
    const { text } = this.built, { plan } = this.state, control = new AbortController();
    if (!text || this.running) return;
    if (this.judging) this.judging.abort();
    this.running = control;
    this.tells('running');
    this.render();
    try {
      const { solved, note, status } = await this.ask(text, control.signal);
      this.running = null;
      this.saying = solved ? () => '' : this.why(status, note);
      if (solved) this.takeBest(solved.pieces, follows && this.state.plan === plan);
    } catch (fault) {
      if (this.running !== control) return;
      if (control.signal.aborted) this.tells('stopped');
      else this.tells('failed', String(fault));
    }
    this.running = null;
    this.render();
  }

  /**
   * @param {import('./schedule.js').Piece[]} pieces
   * @param {boolean} follows
   */
  takeBest(pieces, follows) {
    if (follows) this.store.set({ ...this.state, plan: { pieces, from: 'best' } });
    else this.plan({ pieces, from: 'best' });
  }

  /**
   * Why there is no best plan.
   * @param {number} status
   * @param {string} note
   * @returns {() => string}
   */
  why(status, note) {
    const { name } = this;
    if (status === 5) return () => this.words.say('notBest', name, labelIn(this.words, this.label) || '?');
    if (status === BEYOND) return () => this.words.say('solverLimit', name);
    return this.tell(note) ? () => '' : () => this.words.say('line', note.replace(/^msp: /, '').trim());
  }

  /** The cost of the plan in units of the list; null where it does not go, or this is not known yet. */
  get cost() {
    const { verdict } = this;
    return verdict && verdict.feasible && verdict.cost ? listCost(verdict.cost, this.problem.parts.criterion, this.built) : null;
  }

  /** The best cost in units of the list; null where it is not known. */
  get bestCost() {
    const { answer } = this;
    return answer && answer.solved ? listCost(answer.solved.cost, this.problem.parts.criterion, this.built) : null;
  }

  /** Whether the plan is known to be a best one. */
  get isBest() { return this.cost !== null && this.bestCost !== null && compare(this.cost, this.bestCost) === 0; }
}

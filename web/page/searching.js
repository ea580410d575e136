// The search for a plan where there is no solver, and the bounds beside it.
import { run } from '../engine.js';
import { rankOf } from '../names.js';
import { compare, fraction, printed } from '../fractions.js';
import { plainOf, plainText, timedOf } from './plain.js';
import { boundOf, chains } from './relaxations.js';
import { listCost } from './schedule.js';

/** @typedef {import('./app.js').App} App */
/** @typedef {import('../fractions.js').Fraction} Fraction */
/** @typedef {import('./timing.js').Placed} Placed */
/** @typedef {import('./schedule.js').Piece} Piece */
/** @typedef {import('./plain.js').Timed} Timed */
/** @typedef {{text: string, value: Fraction, name: string, steps: string[]}} Bound a bound in units of the list, its class,
 * and the names of its steps */
/**
 * What is searched, and the whole plan of what is found; where something runs, its pieces.
 * @typedef {{timed: Timed | null, piecesOf: (placed: Placed[]) => Piece[], runs?: Piece[]}} Searched
 */
/**
 * How a search begins: whether its plans belong to the last change; a plan to begin with; and a cost, in parts, below which plans are taken.
 * @typedef {{again?: boolean, given?: Placed[] | null, below?: number}} Begin
 */

const SEED = 1;

/** A search that runs until it is stopped, and the greatest bound that was found. */
export class Searching {
  /** @param {App} app */
  constructor(app) {
    this.app = app;
    /** @type {Worker | null} */
    this.worker = null;
    this.tried = 0;
    /** The last plan of the search.
     * @type {import('./state.js').Plan | null} */
    this.plan = null;
    /** The instance that is searched. */
    this.text = '';
    /** @type {Bound | null} */
    this.found = null;
    /** The instance whose bounds were asked for. */
    this.asked = '';
  }

  get running() { return this.worker !== null; }

  /** Whether what is said of the plan has names in the page. */
  get isNamed() { return true; }

  /** The greatest bound of the instance; null where none was found. */
  get bound() { return this.found && this.found.text === this.app.built.text ? this.found : null; }

  /** How many plans were tried. */
  get said() { return this.app.words.say('searchingNow', this.tried.toLocaleString(this.app.words.language)); }

  /** Says how many plans were tried; nothing else of the page changes. */
  tell() {
    const line = document.getElementById('tried');
    if (line) line.textContent = this.said;
  }

  /**
   * What is searched: the instance, or where something runs all but that.
   * @returns {Searched}
   */
  searched() {
    const { app } = this, { built } = app, timed = built.text ? timedOf(plainOf(built, app.problem.parts)) : null;
    const unit = timed ? built.scale * BigInt(timed.parts) : 1n;
    return app.pinned.get(built.text) || { timed, piecesOf: placed => placed.map(it => ({ row: built.jobs[it.job].row.id, op: it.number,
      machine: it.machine + 1, from: fraction(it.start, unit), to: fraction(it.end, unit) })) };
  }

  /**
   * Begins a search; the plan of the page is the best so far.
   * @param {Begin} begin
   */
  start({ again = false, given = null, below = Infinity } = {}) {
    const { app } = this, source = document.getElementById('search-worker'), { timed, piecesOf } = this.searched();
    this.stop();
    if (!timed || !source) {
      app.tells('tooGreat');
      app.render();
      return;
    }
    this.text = app.built.text;
    this.worker = new Worker(URL.createObjectURL(new Blob([source.textContent || ''], { type: 'text/javascript' })));
    this.plan = again ? app.state.plan : null;
    this.worker.addEventListener('message', ({ data }) => {
      if (app.built.text !== this.text) {
        this.stop();
        return;
      }
      this.tried = data.tried;
      if (data.best) this.take(piecesOf(data.best.placed));
      else this.tell();
    });
    this.worker.addEventListener('error', () => this.stop());
    this.worker.postMessage({ timed, seed: SEED, given, below });
    this.bounds();
  }

  /**
   * Takes a plan in the place of the one before it; what stood there when the search began, and what was changed by hand since, can be taken back.
   * @param {Piece[]} pieces
   */
  take(pieces) {
    const { app } = this, goesOn = this.plan !== null && app.state.plan === this.plan;
    this.plan = { pieces, from: 'rules' };
    if (goesOn) app.store.set({ ...app.state, plan: this.plan });
    else app.plan(this.plan);
  }

  stop() {
    if (this.worker) this.worker.terminate();
    this.worker = null;
    this.app.render();
  }

  /** Asks the program for the bounds of classes near by, and keeps the greatest. */
  async bounds() {
    const { app } = this, { text } = app.built;
    if (!text || !app.atlas || this.asked === text) return;
    this.asked = text;
    const has = (/** @type {string} */ name) => app.atlas !== null && app.atlas.solver(rankOf(name)) !== null, own = app.name;
    const asked = { solved: (/** @type {string} */ name) => has(name) && name !== own, taken: true };
    for (const chain of chains(plainOf(app.built, app.problem.parts), asked)) {
      const { status, report } = await run(['solve'], plainText(chain.instances[chain.instances.length - 1]));
      if (app.built.text !== text) return;
      asked.taken = status === 0;
      const cost = status === 0 ? printed((report.match(/^cost (.*)$/m) || ['', ''])[1]) : null;
      if (!cost) continue;
      const bound = boundOf(chain, cost), value = listCost(bound.value, app.problem.parts.criterion, app.built);
      if (this.bound && compare(value, this.bound.value) <= 0) continue;
      this.found = { text, value, name: (report.match(/^start (.*)$/m) || ['', ''])[1], steps: bound.chain.steps.map(it => it.name) };
      app.render();
    }
  }
}

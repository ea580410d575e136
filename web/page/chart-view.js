// The chart in the page: bars that are dragged, or moved by the keyboard.
import { element, fill, shape } from '../elements.js';
import { BAR, chartOf, hasFrame, isBar, LINE, noteOf, TOP } from './chart.js';
import { barShape, drawn, markShape } from './drawing.js';
import { compare, fraction, minus, near, plus, ZERO } from '../fractions.js';
import { hasChoice, moved, snapped, split } from './own.js';
import { brokenPieces } from './verdicts.js';
import { momentText } from './clock.js';

/** @typedef {import('./app.js').App} App */
/** @typedef {import('./schedule.js').Piece} Piece */
/** @typedef {import('./chart.js').Chart} Chart */

/** How many pieces are drawn: 400 jobs on 32 machines of a shop. */
const MOST = 12800;
const REACH = 8;

let charts = 0;

/** The chart of the plan. */
export class ChartView {
  /**
   * @param {App} app
   * @param {(text: string) => void} say tells readers of screens
   */
  constructor(app, say) {
    this.app = app;
    this.tell = say;
    this.root = element('div', { class: 'scroll chart-room', tabindex: '-1' });
    this.byJob = false;
    /** The name of what fills bars that break a condition. */
    this.stripes = `stripes-${++charts}`;
    /** Up to which moment the axis goes at least. */
    this.span = () => 0;
    this.zoom = 1;
    this.current = 0;
    /** The pieces while one of them is taken by the keyboard; null else.
     * @type {Piece[] | null} */
    this.held = null;
    /** The plan of which one piece is taken.
     * @type {import('./state.js').Plan | null} */
    this.heldOf = null;
    /** @type {Set<number>} */
    this.marked = new Set();
    /** @type {Chart | null} */
    this.chart = null;
    /** What the chart was drawn of: where it is the same again, only bars and marks that are others are drawn anew.
     * @type {unknown[]} */
    this.drawnOf = [];
    /** The place of the current bar, as it was drawn, and all else of which that was. */
    this.drawnAt = 0;
    this.drawnWith = '';
    /** The bars that stand there, by the places of their pieces.
     * @type {Map<number, Element>} */
    this.shapes = new Map();
    /** The bar to which the tabulator leads.
     * @type {Element | null} */
    this.tabbed = null;
    this.root.addEventListener('keydown', event => this.key(event));
    this.root.addEventListener('pointerdown', event => this.drag(event));
    this.root.addEventListener('pointerover', event => this.hint(event));
    this.root.addEventListener('focusin', event => {
      const bar = event.target instanceof Element ? event.target.closest('[data-at]') : null;
      if (bar) this.current = Number(bar.getAttribute('data-at'));
    });
  }

  /** The pieces that are drawn. */
  get pieces() { return this.held || (this.app.state.plan ? this.app.state.plan.pieces : []); }

  /** What is drawn, and how. */
  wanted(width = Math.max(300, this.root.clientWidth - 4)) {
    const { app } = this, { verdict } = app;
    return { pieces: this.pieces, built: app.built, clock: app.clock, byJob: this.byJob, german: app.words.german,
      width: width * this.zoom, span: this.span(),
      machineName: (/** @type {number} */ it) => app.machineName(it), jobName: (/** @type {number} */ it) => app.jobName(it),
      broken: new Set(verdict && !this.held ? brokenPieces(verdict) : []),
      marked: this.held ? new Set([this.pieces[this.current].row]) : this.marked };
  }

  /** The title of the chart, as files have it. */
  get title() { return `${this.app.name}, ${this.app.words.say('plan')}`; }

  render() {
    if (this.heldOf !== this.app.state.plan) this.held = null;
    const { pieces } = this;
    if (!pieces.length || pieces.length > MOST) {
      [this.chart, this.drawnOf] = [null, []];
      this.shapes.clear();
      fill(this.root, element('p', { class: 'quiet' }, this.app.words.say(pieces.length ? 'tooLong' : 'noPlan')));
      return;
    }
    const wanted = this.wanted(), hadFocus = this.root.contains(document.activeElement), before = this.chart;
    const drawnOf = [wanted.built, wanted.clock, this.app.problem, this.app.words, wanted.width, this.byJob, pieces];
    const [same, samePieces] = [drawnOf.slice(0, -1), drawnOf].map(those => those.every((it, at) => it === this.drawnOf[at]));
    this.current = Math.min(this.current, pieces.length - 1);
    const drawnWith = JSON.stringify([wanted.span, [...wanted.broken], [...wanted.marked], this.held !== null]);
    if (!before || !samePieces || drawnWith !== this.drawnWith || this.current !== this.drawnAt) this.draw(same ? before : null, wanted);
    [this.drawnOf, this.drawnAt, this.drawnWith] = [drawnOf, this.current, drawnWith];
    if (hadFocus) this.focus();
  }

  /**
   * Draws the plan, or what is another in it.
   * @param {Chart | null} before a chart of the same jobs; null where all is drawn anew
   * @param {import('./chart.js').Wanted} wanted
   */
  draw(before, wanted) {
    const now = chartOf(wanted);
    if (before && hasFrame(before, now)) this.again(before, now, wanted);
    else {
      const svg = drawn(now, this.title, this.stripes);
      this.shapes = new Map(Array.from(svg.querySelectorAll('.bar'), it => [Number(it.getAttribute('data-at')), it]));
      const jobs = new Map(wanted.built.jobs.map(it => [it.row.id, it]));
      this.shapes.forEach(bar => this.name(bar, wanted, jobs));
      fill(this.root, svg);
    }
    this.chart = now;
  }

  /**
   * Draws what is another than before: bars and marks.
   * @param {Chart} before
   * @param {Chart} now
   * @param {import('./chart.js').Wanted} wanted
   */
  again(before, now, wanted) {
    const jobs = new Map(wanted.built.jobs.map(it => [it.row.id, it]));
    now.bars.forEach((bar, place) => {
      if (bar.at !== this.current && bar.at !== this.drawnAt && isBar(before.bars[place], bar)) return;
      const old = this.shapes.get(bar.at), made = barShape(bar, this.stripes);
      this.name(made, wanted, jobs);
      if (old) old.replaceWith(made);
      this.shapes.set(bar.at, made);
    });
    const svg = this.root.querySelector('svg');
    if (!svg || JSON.stringify(before.marks) === JSON.stringify(now.marks)) return;
    svg.querySelectorAll('path.due, path.release').forEach(it => it.remove());
    svg.append(...now.marks.map(markShape));
  }

  /**
   * What a bar says of itself.
   * @param {Element} bar
   * @param {import('./chart.js').Wanted} wanted
   * @param {Map<number, import('./instance.js').Job>} jobs by their rows
   */
  name(bar, wanted, jobs) {
    const at = Number(bar.getAttribute('data-at')), piece = wanted.pieces[at], { words } = this.app;
    const { job, machine, from, to } = noteOf(piece, wanted);
    const found = jobs.get(piece.row), due = found && found.d;
    const late = bar.classList.contains('late') && due ? `, ${words.say('barLate', momentText(due, wanted.clock, wanted.german, true))}` : '';
    const text = words.say('barSays', job, machine, from, to) + late;
    bar.setAttribute('role', 'button');
    bar.setAttribute('aria-label', text);
    bar.setAttribute('aria-pressed', String(this.held !== null && at === this.current));
    bar.setAttribute('tabindex', at === this.current ? '0' : '-1');
    if (at === this.current) this.tabbed = bar;
  }

  /**
   * Shows what a bar says of itself where the pointer is.
   * @param {Event} event
   */
  hint({ target }) {
    const bar = target instanceof Element ? target.closest('[data-at]') : null;
    if (bar && !bar.querySelector('title')) bar.prepend(shape('title', {}, bar.getAttribute('aria-label') || ''));
  }

  /** Puts the focus on the current bar. */
  focus() {
    const bar = this.shapes.get(this.current);
    if (!(bar instanceof SVGElement)) return;
    if (this.tabbed && this.tabbed !== bar) this.tabbed.setAttribute('tabindex', '-1');
    bar.setAttribute('tabindex', '0');
    this.tabbed = bar;
    bar.focus();
  }

  // The keyboard

  /** @param {KeyboardEvent} event */
  key(event) {
    const bar = event.target instanceof Element ? event.target.closest('[data-at]') : null;
    if (!bar || event.ctrlKey || event.metaKey || event.altKey) return;
    const act = this.held ? this.heldKeys(event) : this.freeKeys(event);
    if (!act) return;
    event.preventDefault();
    act();
  }

  /**
   * What a key does where no bar is taken.
   * @param {KeyboardEvent} event
   * @returns {(() => void) | undefined}
   */
  freeKeys({ key }) {
    /** @type {Object<string, () => void>} */
    const keys = { ArrowRight: () => this.go(1), ArrowLeft: () => this.go(-1), ArrowDown: () => this.goLine(1), ArrowUp: () => this.goLine(-1),
      Enter: () => this.take(), ' ': () => this.take(), s: () => this.put(split(this.pieces, this.current)) };
    return keys[key.length === 1 ? key.toLowerCase() : key];
  }

  /**
   * What a key does with the bar that is taken.
   * @param {KeyboardEvent} event
   * @returns {(() => void) | undefined}
   */
  heldKeys({ key, shiftKey }) {
    const steps = shiftKey ? 10 : 1;
    /** @type {Object<string, () => void>} */
    const keys = { ArrowRight: () => this.shift(steps), ArrowLeft: () => this.shift(-steps), ArrowDown: () => this.shift(0, 1),
      ArrowUp: () => this.shift(0, -1), Enter: () => this.drop(), ' ': () => this.drop(), Escape: () => this.back() };
    return keys[key];
  }

  /** The places of pieces in the order of the lines of the chart. */
  get order() {
    const { bars } = this.chart || { bars: [] };
    return [...bars].sort((one, other) => one.y - other.y || one.x - other.x).map(it => it.at);
  }

  /** @param {number} step */
  go(step) {
    const { order } = this, place = order.indexOf(this.current) + step;
    this.current = order[Math.max(0, Math.min(order.length - 1, place))];
    this.focus();
  }

  /**
   * To the nearest bar of another line.
   * @param {number} step
   */
  goLine(step) {
    const { bars } = this.chart || { bars: [] }, here = bars.find(it => it.at === this.current);
    if (!here) return;
    const beyond = bars.filter(it => (it.y - here.y) * step > 0), far = Math.min(...beyond.map(it => Math.abs(it.y - here.y)));
    const line = beyond.filter(it => Math.abs(it.y - here.y) === far).sort((one, other) => Math.abs(one.x - here.x) - Math.abs(other.x - here.x));
    if (line[0]) this.current = line[0].at;
    this.focus();
  }

  take() {
    this.held = this.pieces.slice();
    this.heldOf = this.app.state.plan;
    this.tell(this.app.words.say('taken', this.app.jobName(this.pieces[this.current].row)));
    this.render();
    this.focus();
  }

  back() {
    this.held = null;
    this.tell(this.app.words.say('putBack'));
    this.render();
    this.focus();
  }

  /** The step of the keyboard: the finest unit of the instance, or more where the plan is long. */
  get step() {
    const last = Math.max(1, ...this.pieces.map(it => near(it.to))) * Number(this.app.built.scale);
    return fraction(10 ** Math.max(0, Math.floor(Math.log10(last / 40))), this.app.built.scale);
  }

  /**
   * Moves the bar that is taken.
   * @param {number} steps
   * @param {number} machines
   */
  shift(steps, machines = 0) {
    if (!this.held) return;
    const piece = this.held[this.current], { step } = this, far = fraction(step.n * BigInt(steps), step.d);
    this.held = moved(this.held, this.current, plus(piece.from, far), piece.machine + machines, this.app.built);
    const now = this.held[this.current], { german } = this.app.words;
    this.tell(`${this.app.machineName(now.machine)}, ${momentText(now.from, this.app.clock, german)}`);
    this.render();
    this.focus();
  }

  drop() {
    if (this.held) this.put(this.held);
  }

  /**
   * Takes pieces for the plan, which the program judges then.
   * @param {Piece[]} pieces
   */
  put(pieces) {
    this.held = null;
    this.app.plan({ pieces, from: 'own' });
    this.focus();
  }

  // The pointer

  /**
   * A bar follows the pointer until it is dropped. A pointer that is fast leaves the bar, so the whole page is listened to.
   * @param {PointerEvent} event
   */
  drag(event) {
    const bar = event.target instanceof Element ? event.target.closest('[data-at]') : null, { chart } = this;
    if (!(bar instanceof SVGElement) || !chart || event.button !== 0 || this.held) return;
    const at = Number(bar.getAttribute('data-at')), lines = hasChoice(this.app.built) && !this.byJob;
    // (large letters stretch the chart)
    const { ownerSVGElement: svg } = bar, stretch = svg && svg.getBoundingClientRect().width / chart.width || 1;
    let far = { x: 0, y: 0 };
    this.current = at;
    bar.setPointerCapture(event.pointerId);
    const follow = (/** @type {PointerEvent} */ now) => {
      far = { x: (now.clientX - event.clientX) / stretch, y: lines ? (now.clientY - event.clientY) / stretch : 0 };
      bar.setAttribute('transform', `translate(${far.x} ${far.y})`);
      bar.classList.add('dragged');
    };
    const end = (/** @type {PointerEvent} */ now) => {
      if (now.type === 'pointerup') follow(now);
      window.removeEventListener('pointermove', follow);
      window.removeEventListener('pointerup', end);
      window.removeEventListener('pointercancel', end);
      bar.classList.remove('dragged');
      bar.removeAttribute('transform');
      if (now.type === 'pointerup' && Math.abs(far.x) + Math.abs(far.y) > 3) this.dropped(chart, at, far);
      else this.focus();
    };
    window.addEventListener('pointermove', follow);
    window.addEventListener('pointerup', end);
    window.addEventListener('pointercancel', end);
  }

  /**
   * @param {Chart} chart
   * @param {number} at
   * @param {{x: number, y: number}} far
   */
  dropped(chart, at, far) {
    const bar = chart.bars.find(it => it.at === at), piece = this.pieces[at];
    if (!bar || !piece) return;
    const machine = this.byJob ? piece.machine : Math.floor((bar.y + far.y + BAR / 2 - TOP) / LINE) + 1;
    const moment = (bar.x + far.x - chart.left) / chart.scale;
    const there = moved(this.pieces, at, piece.from, machine, this.app.built);
    this.put(moved(there, at, snapped(moment, REACH / chart.scale, there, at, this.app.built), there[at].machine, this.app.built));
  }
}

/**
 * Pieces as they stand in a list: by machine and moment.
 * @param {Piece[]} pieces
 */
export function listed(pieces) {
  return [...pieces].sort((one, other) => one.machine - other.machine || compare(one.from, other.from) || compare(ZERO, minus(other.to, one.to)));
}

// Which job waits for which, as a picture: two jobs are chosen one after the other, by the pointer or by the keyboard, and their arc is turned.
import { element, fill, shape } from '../elements.js';
import { arcsIn, BOX, circleOf, layoutOf, MOST_DRAWN, ROW, TALL, turned } from './arcs.js';
import { folded } from './controls.js';
import { usedRows } from './instance.js';
import { calledAt } from './jobs.js';

/** @typedef {import('./app.js').App} App */
/** @typedef {import('./arcs.js').Layout} Layout */
/** @typedef {import('./arcs.js').Point} Point */

const LETTERS = 15, MIDDLE = TALL / 2, BEND = 26, HEAD = 7;

/**
 * An arc from the right side of its job to the left side of the other, past the jobs between.
 * @param {Layout['lines'][number]} line
 */
function lineShape({ arc, points, round }) {
  const [first, ...rest] = points, last = rest.length - 1, lift = ROW * 0.2;
  let d = `M${first.x + BOX} ${first.y + MIDDLE}`, [x, y] = [first.x + BOX, first.y + MIDDLE];
  rest.forEach((it, at) => {
    const end = at === last, height = it.y + (end ? MIDDLE : lift), to = it.x - (end ? HEAD : 0);
    d += `C${x + BEND} ${y} ${to - BEND} ${height} ${to} ${height}${end ? '' : `h${BOX}`}`;
    [x, y] = [it.x + BOX, height];
  });
  const tip = rest[last], head = `M${tip.x} ${tip.y + MIDDLE}l-${HEAD + 2} -4v8z`;
  return shape('g', { class: round ? 'arc round' : 'arc', 'data-arc': arc.join(' ') }, shape('path', { d, class: 'line' }),
    shape('path', { d: head, class: 'head' }));
}

/** @param {string} name */
function short(name) {
  const letters = Array.from(name);
  return letters.length > LETTERS ? `${letters.slice(0, LETTERS - 1).join('')}\u2026` : name;
}

/** The picture of the order of jobs. */
export class ArcsView {
  /**
   * @param {App} app
   * @param {(text: string) => void} tell tells readers of screens
   */
  constructor(app, tell) {
    this.app = app;
    this.tell = tell;
    this.room = element('div', { class: 'scroll arcs-room' });
    this.said = element('p', { id: 'arcs-said', class: 'quiet' });
    this.below = element('div', {});
    this.root = element('div', { id: 'arcs' });
    this.frame = folded('', this.said, this.room, this.below);
    /** The row of the job that is chosen first, and of the one that has or had the focus; 0 for none. */
    this.chosen = 0;
    this.current = 0;
    /** @type {Layout | null} */
    this.layout = null;
    this.shape = '';
    this.frame.addEventListener('toggle', () => this.render());
    this.room.addEventListener('click', event => this.clicked(event));
    this.room.addEventListener('keydown', event => this.key(event));
  }

  /** @param {string} key
   * @param {...(string | number)} values */
  say(key, ...values) { return this.app.words.say(key, ...values); }

  get rows() { return usedRows(this.app.problem); }

  /** The names of the jobs in the order of their places. */
  get names() { return this.rows.map(calledAt); }

  /**
   * The place of a row; -1 where it is gone.
   * @param {number} id
   */
  placeOf(id) { return this.rows.findIndex(it => it.id === id); }

  // What is done

  /**
   * Says how it went, below the heading and to readers of screens.
   * @param {string} text
   * @param {boolean} [refused]
   */
  note(text, refused = false) {
    this.said.className = refused ? 'faulty' : 'quiet';
    this.said.textContent = text;
    this.tell(text);
  }

  /**
   * Chooses a job: the first one, or the one that is to wait for it.
   * @param {number} place
   */
  choose(place) {
    const { names, rows } = this, first = this.placeOf(this.chosen);
    this.current = rows[place].id;
    if (first < 0 || first === place) {
      this.chosen = first === place ? 0 : this.current;
      this.note(this.chosen ? this.say('arcFirst', names[place]) : this.say('arcsSay'));
      this.draw();
      return;
    }
    const found = turned(this.app.problem, first, place);
    this.chosen = 0;
    if ('rows' in found) {
      this.note(this.say(found.added ? 'arcAdded' : 'arcGone', names[place], names[first]));
      this.app.change({ rows: found.rows });
    } else {
      this.note('circle' in found ? this.say('arcCircle', names[place], names[first], found.circle.map(it => names[it]).join(' \u2192 '))
        : this.say('arcNameless', names[first]), true);
      this.draw();
    }
  }

  /** @param {EventTarget | null} target */
  boxAt(target) {
    const box = target instanceof Element ? target.closest('[data-place]') : null;
    return box ? Number(box.getAttribute('data-place')) : -1;
  }

  /** @param {MouseEvent} event */
  clicked(event) {
    const place = this.boxAt(event.target);
    if (place < 0) return;
    this.choose(place);
    this.focus();
  }

  /** @param {KeyboardEvent} event */
  key(event) {
    const place = this.boxAt(event.target);
    if (place < 0 || event.ctrlKey || event.metaKey || event.altKey) return;
    /** @type {Object<string, () => void>} */
    const keys = { Enter: () => this.choose(place), ' ': () => this.choose(place), ArrowDown: () => this.go(place, 0, 1),
      ArrowUp: () => this.go(place, 0, -1), ArrowRight: () => this.go(place, 1, 0), ArrowLeft: () => this.go(place, -1, 0),
      Escape: () => this.leave() };
    if (!keys[event.key]) return;
    event.preventDefault();
    keys[event.key]();
    this.focus();
  }

  /** Chooses no job. */
  leave() {
    this.chosen = 0;
    this.note(this.say('arcsSay'));
    this.draw();
  }

  /**
   * To the nearest job in a direction: along a column, and over its end to the next; or across the columns.
   * @param {number} place
   * @param {number} x
   * @param {number} y
   */
  go(place, x, y) {
    const { boxes } = this.layout || { boxes: [] }, here = boxes[place], { rows } = this;
    const order = rows.map((_, at) => at).sort((one, other) => boxes[one].x - boxes[other].x || boxes[one].y - boxes[other].y);
    const far = (/** @type {number} */ at) => Math.abs(boxes[at].x - here.x) * 100 + Math.abs(boxes[at].y - here.y);
    const beyond = order.filter(at => (boxes[at].x - here.x) * x > 0).sort((one, other) => far(one) - far(other));
    const next = y ? order[order.indexOf(place) + y] : beyond[0];
    if (next !== undefined) this.current = rows[next].id;
  }

  /** Puts the focus on the current job. */
  focus() {
    this.room.querySelectorAll('[data-place]').forEach(it => it.setAttribute('tabindex', '-1'));
    const box = this.room.querySelector(`[data-place="${this.placeOf(this.current)}"]`);
    if (!(box instanceof SVGElement)) return;
    box.setAttribute('tabindex', '0');
    box.focus();
  }

  // What is seen

  /**
   * For which jobs a job waits, and which wait for it, in words.
   * @param {number} place
   * @param {string[]} names
   * @param {[number, number][]} arcs
   */
  words(place, names, arcs) {
    const before = arcs.filter(it => it[1] === place).map(it => names[it[0]]), behind = arcs.filter(it => it[0] === place).map(it => names[it[1]]);
    return [before.length ? this.say('arcWaits', names[place], before.join(', ')) : this.say('arcFree', names[place]),
      ...behind.length ? [this.say('arcBehind', behind.join(', '))] : []].join(' ');
  }

  /**
   * A job in its box.
   * @param {number} place
   * @param {Point} where
   * @param {string} name
   * @param {string} said
   */
  box(place, { x, y }, name, said) {
    const { id } = this.rows[place], chosen = id === this.chosen;
    return shape('g', { class: 'job', 'data-place': place, role: 'button', tabindex: id === this.current ? 0 : -1, 'aria-label': said,
      'aria-pressed': String(chosen) }, shape('title', {}, said), shape('rect', { x, y, width: BOX, height: TALL, rx: 5 }),
    shape('text', { x: x + BOX / 2, y: y + MIDDLE + 4.5, 'text-anchor': 'middle' }, (chosen ? '\u25b8 ' : '') + short(name)));
  }

  /** The picture, and the same in words. */
  draw() {
    const { names, rows } = this, arcs = arcsIn(rows), hadFocus = this.room.contains(document.activeElement);
    if (!rows.length || rows.length > MOST_DRAWN) {
      this.layout = null;
      fill(this.room, element('p', {}, rows.length ? this.say('arcsMany', MOST_DRAWN, rows.length) : this.say('noJobs')));
      fill(this.below);
      return;
    }
    if (this.placeOf(this.current) < 0) this.current = rows[0].id;
    if (this.placeOf(this.chosen) < 0) this.chosen = 0;
    const layout = layoutOf(rows.length, arcs, Math.max(300, this.room.clientWidth - 4)), { width, height } = layout;
    const said = names.map((_, place) => this.words(place, names, arcs));
    const svg = shape('svg', { viewBox: `0 0 ${width} ${height}`, width, height, class: 'arcs', role: 'group', 'aria-describedby': 'arcs-said',
      'aria-label': this.say('arcsPicture', names.length, arcs.length, layout.levels) },
    ...layout.lines.map(lineShape), ...layout.boxes.map((it, place) => this.box(place, it, names[place], said[place])));
    this.layout = layout;
    fill(this.room, svg);
    this.tellBelow(said, arcs, names);
    if (hadFocus) this.focus();
  }

  /**
   * Below the picture: faults of the order, and each job with those for which it waits.
   * @param {string[]} said
   * @param {[number, number][]} arcs
   * @param {string[]} names
   */
  tellBelow(said, arcs, names) {
    const circle = circleOf(arcs), faults = this.app.faults.filter(it => it.key === 'after' && it.code !== 'cycle')
      .map(it => this.say('arcFault', this.app.jobName(it.row), this.say(it.code, ...it.values)));
    if (circle) faults.unshift(this.say('arcsCircle', circle.map(it => names[it]).join(' \u2192 ')));
    const before = this.below.querySelector('details'), lines = said.map(it => element('li', {}, it));
    const list = folded(this.say('arcsText'), element('ul', {}, ...lines));
    list.open = before !== null && before.open;
    fill(this.below, ...faults.map(it => element('p', { class: 'faulty' }, it)), list);
  }

  render() {
    const { app } = this, { words, problem } = app, summary = this.frame.querySelector('summary');
    if (!problem.parts.order) {
      fill(this.root);
      return;
    }
    if (!this.frame.parentElement) fill(this.root, this.frame);
    if (summary) summary.textContent = words.say('arcs');
    if (!this.frame.open) return;
    const shape = JSON.stringify([words.language, problem.rows, problem.parts, app.faults.filter(it => it.key === 'after')]);
    if (shape === this.shape) return;
    if (!this.shape.startsWith(`["${words.language}"`)) {
      this.said.className = 'quiet';
      this.said.textContent = this.say('arcsSay');
    }
    this.shape = shape;
    this.draw();
  }
}

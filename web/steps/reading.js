// Instance texts as instances of steps.
import { fraction, lcm, ZERO } from '../fractions.js';
import { rankOf, partsOf } from '../names.js';

/** @typedef {import('./types.js').Instance} Instance */
/** @typedef {import('./types.js').Job} Job */

const MACHINES = /^[A-Z]?([1-9])/;

/** @param {string} it */
function number(it) { return fraction(BigInt(it)); }

/**
 * @param {string[]} fields
 * @returns {Job}
 */
function jobOf([name, ...fields]) {
  /** @type {Job} */
  const job = { name, r: ZERO, d: null, w: fraction(1), p: [], route: [], curve: [] };
  for (const field of fields) {
    const [key, value] = field.split('=');
    if (key === 'p') job.p = [number(value)];
    else if (key === 'r') job.r = number(value);
    else if (key === 'd') job.d = number(value);
    else if (key === 'w') job.w = number(value);
  }
  return job;
}

/**
 * The operations of a route, with times where they are general.
 * @param {string[]} fields
 * @param {Instance} instance
 * @returns {[number, import('./types.js').Fraction][]}
 */
function routeOf(fields, instance) {
  if (/p=[1p]/.test(instance.name)) return fields.map(it => [Number(it), instance.shared]);
  return fields.filter((_, at) => at % 2 === 0).map((it, at) => [Number(it), number(fields[2 * at + 1])]);
}

/** What each line says of an instance.
 * @type {Object<string, (instance: Instance, fields: string[]) => void>} */
const LINES = {
  class: (instance, [name]) => {
    instance.name = name;
    instance.machines = Number((partsOf(rankOf(name)).environment.match(MACHINES) || ['', '0'])[1]);
  },
  machines: (instance, [many]) => { instance.machines = Number(many); },
  speeds: (instance, fields) => { instance.speeds = fields.map(BigInt); },
  time: (instance, [time]) => { instance.shared = number(time); },
  job: (instance, fields) => { instance.jobs.push(jobOf(fields)); },
  times: (instance, fields) => { lastOf(instance).p = fields.map(number); },
  route: (instance, fields) => { lastOf(instance).route = routeOf(fields, instance); },
  curve: (instance, fields) => { lastOf(instance).curve = fields.map(number); },
  arc: (instance, [one, other]) => { instance.arcs.push([placeOf(one, instance), placeOf(other, instance)]); },
};

/** @param {Instance} instance */
function lastOf(instance) { return instance.jobs[instance.jobs.length - 1]; }

/**
 * @param {string} name
 * @param {Instance} instance
 */
function placeOf(name, instance) { return instance.jobs.findIndex(it => it.name === name); }

/**
 * The instance of a text that the program takes.
 * @param {string} text
 * @returns {Instance}
 */
export function instanceOf(text) {
  /** @type {Instance} */
  const instance = { name: '', jobs: [], machines: 1, speeds: [], shared: fraction(1), arcs: [] };
  for (const [word, ...fields] of text.split('\n').map(it => it.split(' '))) {
    if (word === 'end') break;
    if (word in LINES) LINES[word](instance, fields);
  }
  return instance;
}

/**
 * The text of a schedule of an instance, with any stated cost.
 * @param {import('./types.js').Piece[]} pieces
 * @param {Instance} instance
 * @param {string} [cost]
 */
export function scheduleText(pieces, instance, cost = '0') {
  const unit = pieces.reduce((all, it) => lcm(lcm(all, it.from.d), it.to.d), 1n);
  const part = (/** @type {import('./types.js').Fraction} */ it) => String(it.n * (unit / it.d));
  const lines = pieces.map(it => `piece ${instance.jobs[it.job].name} ${it.op} ${it.machine} ${part(it.from)} ${part(it.to)}`);
  return ['schedule', `cost ${cost}`, `unit ${unit}`, ...lines, 'end', ''].join('\n');
}

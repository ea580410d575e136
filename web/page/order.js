// An order of jobs as people write it, and the plan that it is: on one machine and in flow shops the sequence itself, on machines that are alike
// a list, in job and open shops priorities by Giffler and Thompson. companions/msp_tools/handins.py reads orders of students the same way.
import { kindOf } from './columns.js';
import { fraction } from '../fractions.js';
import { plainOf, timedOf } from './plain.js';
import { active, listed, serial } from './timing.js';

/** @typedef {import('./instance.js').Built} Built */
/** @typedef {import('./schedule.js').Piece} Piece */
/** @typedef {import('../names.js').Parts} Parts */
/** @typedef {import('./plain.js').Timed} Timed */
/** @typedef {import('./timing.js').Placed} Placed */
/** @typedef {{code: string, values: string[]}} Fault a code of words.json */
/** @typedef {{order: number[], faults: Fault[]}} Order places of jobs from 0 */

const MARKS = /^(?:->|[\s,;:|<>\u2192])+/, MOST_MISSING = 6;

/**
 * How an order becomes a plan on machines of a kind; nothing where it does not.
 * @type {Object<string, {way: string, timing: (timed: Timed, order: number[]) => Placed[]}>}
 */
export const WAYS = { 1: { way: 'orderSequence', timing: serial }, F: { way: 'orderSequence', timing: serial },
  P: { way: 'orderList', timing: listed }, J: { way: 'orderPriorities', timing: active }, O: { way: 'orderPriorities', timing: active } };

/**
 * The place of the job whose name a text begins with, the longest such name; names may hold blanks and commas. Capitals count where two names
 * differ by them alone.
 * @param {string} text
 * @param {string[]} names
 * @returns {{place: number, length: number} | null}
 */
function named(text, names) {
  const ends = (/** @type {string} */ it) => text.length === it.length || MARKS.test(text.slice(it.length));
  const longest = (/** @type {(name: string) => boolean} */ begins) => names.reduce((best, it, at) => it && begins(it) && ends(it)
    && (best < 0 || it.length > names[best].length) ? at : best, -1);
  const small = text.toLowerCase(), exact = longest(it => text.startsWith(it));
  const alike = longest(it => small.startsWith(it.toLowerCase()));
  const one = alike >= 0 && names.filter(it => it.toLowerCase() === names[alike].toLowerCase()).length === 1;
  const place = alike >= 0 && one && (exact < 0 || names[alike].length > names[exact].length) ? alike : exact;
  return place < 0 ? null : { place, length: names[place].length };
}

/**
 * The jobs that a text names, in its order, and what is wrong with it: an unknown name, a job named twice, jobs that are missing.
 * @param {string} text names with commas, semicolons, arrows, lines or blanks between them
 * @param {string[]} names of all jobs
 * @returns {Order}
 */
export function orderIn(text, names) {
  /** @type {Fault[]} */
  const faults = [];
  /** @type {number[]} */
  const order = [];
  for (let rest = text.replace(MARKS, ''); rest; rest = rest.replace(MARKS, '')) {
    const found = named(rest, names), word = found ? '' : (rest.match(/^(?:(?!->)[^\s,;:|<>\u2192])+/) || [rest])[0];
    if (!found) faults.push({ code: 'noJob', values: [word] });
    else if (order.includes(found.place)) faults.push({ code: 'orderAgain', values: [names[found.place]] });
    else order.push(found.place);
    rest = rest.slice(found ? found.length : word.length);
  }
  const missing = names.filter((_, at) => !order.includes(at)), more = missing.length > MOST_MISSING ? ', \u2026' : '';
  if (missing.length) faults.push({ code: 'orderMissing', values: [missing.slice(0, MOST_MISSING).join(', ') + more] });
  return { order, faults };
}

/**
 * The first job that stands in front of one that it comes after, in a sequence; else nothing.
 * @param {Built} built
 * @param {number[]} order
 * @returns {[number, number] | undefined} both jobs
 */
function early({ arcs }, order) {
  const places = new Map(order.map((job, at) => [job, at])), place = (/** @type {number} */ job) => places.get(job) || 0;
  const wrong = arcs.filter(([before, after]) => place(before) > place(after));
  return wrong.sort((one, other) => place(one[1]) - place(other[1]))[0];
}

/**
 * The pieces of an order of all jobs, or why it has none.
 * @param {Built} built
 * @param {Parts} parts
 * @param {number[]} order
 * @param {string[]} names of all jobs
 * @returns {{pieces: Piece[], fault: Fault | null}}
 */
export function ordered(built, parts, order, names) {
  const way = WAYS[kindOf(parts)];
  const refused = (/** @type {string} */ code, /** @type {string[]} */ ...values) => ({ pieces: [], fault: { code, values } });
  if (!way) return refused('orderNone', built.name);
  const wrong = way.way === 'orderSequence' ? early(built, order) : undefined;
  if (wrong) return refused('orderEarly', names[wrong[1]], names[wrong[0]]);
  const timed = timedOf(plainOf(built, parts));
  if (!timed) return refused('tooGreat');
  const unit = built.scale * BigInt(timed.parts);
  return { fault: null, pieces: way.timing(timed, order).map(it => ({ row: built.jobs[it.job].row.id, op: it.number, machine: it.machine + 1,
    from: fraction(it.start, unit), to: fraction(it.end, unit) })) };
}

/**
 * The names of jobs in the order in which a plan begins them.
 * @param {Piece[]} pieces
 * @param {Built} built
 * @param {(row: number) => string} nameOf
 */
export function begun(pieces, built, nameOf) {
  const rows = new Set(built.jobs.map(it => it.row.id)), those = pieces.filter(it => rows.has(it.row)).sort((one, other) =>
    Number(one.from.n) / Number(one.from.d) - Number(other.from.n) / Number(other.from.d) || one.machine - other.machine);
  return Array.from(new Set(those.map(it => it.row)), nameOf).join(', ');
}

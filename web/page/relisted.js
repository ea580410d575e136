// What is left of a plan as a list again: cells that did not change stay as they were typed.
import { CellFault, lengthOf, momentOf, numberOf } from './cells.js';
import { clockOf, dateText, secondsAt } from './clock.js';
import { hasDue, hasSpeeds, kindOf } from './columns.js';
import { compare, fraction, print, shown } from '../fractions.js';
import { calledAt } from './jobs.js';

/** @typedef {import('../fractions.js').Fraction} Fraction */
/** @typedef {import('./clock.js').ListClock} ListClock */
/** @typedef {import('./instance.js').Built} Built */
/** @typedef {import('./instance.js').Job} Job */
/** @typedef {import('./instance.js').Problem} Problem */
/** @typedef {import('./instance.js').Row} Row */
/** @typedef {import('./leftover.js').Leftover} Leftover */
/** @typedef {import('./plain.js').PlainJob} PlainJob */

/**
 * The value of a text; null where it has none.
 * @param {() => Fraction} reader
 */
function valueOf(reader) {
  try {
    return reader();
  } catch (fault) {
    if (fault instanceof CellFault) return null;
    throw fault;
  }
}

/**
 * The first of some texts that has a value.
 * @param {string[]} texts
 * @param {Fraction} value
 * @param {(text: string) => Fraction} reader
 */
function fitting(texts, value, reader) {
  return texts.find(text => {
    const found = text.trim() ? valueOf(() => reader(text)) : null;
    return found !== null && compare(found, value) === 0;
  }) || print(value);
}

/**
 * A number as a cell has it.
 * @param {Fraction} value
 * @param {string} mark the decimal mark
 */
export function numberText(value, mark) { return fitting([shown(value, mark).replace('\u2212', '-')], value, numberOf); }

/**
 * A date to the second, where it has some.
 * @param {number} seconds
 * @param {boolean} german
 */
function dateCell(seconds, german) { return dateText(seconds, german) + (seconds % 60 ? `:${String(seconds % 60).padStart(2, '0')}` : ''); }

/** Writes the cells of jobs that are left. */
class Writer {
  /**
   * @param {Leftover} left in numbers of `unit` to a unit of the list
   * @param {bigint} unit
   * @param {Problem} problem the list before
   * @param {Built} built its instance
   * @param {ListClock} clock the moments of the list from now on
   * @param {boolean} german
   */
  constructor(left, unit, problem, built, clock, german) {
    this.left = left;
    this.unit = unit;
    this.problem = problem;
    this.built = built;
    this.clock = clock;
    this.german = german;
  }

  /** @param {bigint} it */
  number(it) { return numberText(fraction(it, this.unit), this.german ? ',' : '.'); }

  /**
   * A moment: as it was typed, as a date, or as a number.
   * @param {string} text
   * @param {bigint} moment
   */
  moment(text, moment) {
    const value = fraction(moment, this.unit), seconds = secondsAt(value, this.clock, false);
    const date = seconds === null ? '' : dateCell(Math.round(seconds), this.german);
    return fitting([text, date, this.number(moment)], value, it => momentOf(it, this.clock));
  }

  /**
   * The cells of times.
   * @param {Row} row
   * @param {PlainJob} job
   * @returns {Object<string, string>}
   */
  times({ cells }, job) {
    const { left: { plain }, built } = this, kind = kindOf(plain.parts), moved = plain.machines !== built.machines;
    const fit = (/** @type {string} */ key, /** @type {bigint} */ time) => fitting([moved ? '' : cells[key] || '', this.number(time)],
      fraction(time, this.unit), it => lengthOf(it, this.clock));
    if (kind === 'J') {
      const before = built.jobs.find(it => it.row.cells === cells);
      const same = before && before.route.length === job.route.length && before.route.every(([, time], at) =>
        plain.parts.times || compare(time, fraction(job.route[at][1], this.unit)) === 0);
      if (same && !(this.problem.parts.times && !plain.parts.times)) return {};
      return { route: job.route.map(([machine, time]) => plain.parts.times ? machine + 1 : `${machine + 1} ${this.number(time)}`).join(' ') };
    }
    if (plain.parts.times) return {};
    return '1PQ'.includes(kind) ? { p: fit('p', job.p[0]) } : Object.fromEntries(job.p.map((time, at) => [`p${at + 1}`, fit(`p${at + 1}`, time)]));
  }

  /**
   * The jobs after which one comes, by their names.
   * @param {number} at
   * @param {Row[]} rows all before
   */
  after(at, rows) {
    const { left: { plain, places }, built } = this, row = rows[places[at]], before = built.arcs.filter(it => it[1] === places[at]);
    const those = plain.arcs.filter(it => it[1] === at).map(([one]) => calledAt(rows[places[one]], places[one]));
    return those.length === before.length ? row.cells.after || '' : those.join(' | ');
  }

  /**
   * A row of a job that is left. It keeps its number, and the name that it had.
   * @param {number} at
   * @param {Row[]} rows all before
   * @returns {Row}
   */
  row(at, rows) {
    const { left: { plain, places } } = this, row = rows[places[at]], job = plain.jobs[at], { cells } = row, { parts } = plain;
    const curve = [fraction(job.curve[0] || 0n), ...job.curve.slice(1).map(it => fraction(it, this.unit))];
    return { ...row, name: calledAt(row, places[at]), cells: { ...cells, ...this.times(row, job),
      ...(parts.release ? { r: this.moment(cells.r || '0', job.r) } : {}), ...(hasDue(parts) ? { d: this.moment(cells.d || '', job.d) } : {}),
      ...(parts.order ? { after: this.after(at, rows) } : {}),
      ...(parts.criterion === 'fmax' ? { curve: curve.map(it => numberText(it, '.')).join(' ') } : {}) } };
  }
}

/**
 * The moment 0 of what is left, where moments count from now and the list has dates.
 * @param {Problem} problem
 * @param {bigint} origin
 * @param {bigint} unit
 * @param {boolean} german
 */
function startOf(problem, origin, unit, german) {
  const seconds = secondsAt(fraction(origin, unit), clockOf(problem), false);
  return seconds === null || problem.parts.release || !origin ? problem.start : dateCell(Math.round(seconds), german);
}

/**
 * What is left as a list.
 * @param {Leftover} left
 * @param {bigint} unit numbers of the instance to a unit of the list
 * @param {Problem} problem the list before
 * @param {Built} built its instance
 * @param {boolean} german
 * @returns {Problem}
 */
export function relisted(left, unit, problem, built, german) {
  const { plain, origin, machines } = left, rows = built.jobs.map(it => it.row);
  const found = { ...problem, parts: plain.parts, machines: String(plain.machines), start: startOf(problem, origin, unit, german) };
  if (hasSpeeds(plain.parts)) found.speeds = plain.speeds.join(' ');
  const kept = [...machines.keys()], moved = kept.some((old, now) => old !== now);
  if (plain.machines !== built.machines) found.machineNames = kept.map(it => problem.machineNames[it] || (moved ? String(it + 1) : ''));
  const writer = new Writer(left, unit, problem, built, clockOf(found), german);
  found.rows = plain.jobs.map((_, at) => writer.row(at, rows));
  return found;
}

// Moments of a list as dates, where a start and a unit of time are known.
import { secondsOf } from './columns.js';
import { dateOf } from './cells.js';
import { fraction, near, shown, times } from '../fractions.js';
import { calendarOf } from './calendar.js';

/** @typedef {import('../fractions.js').Fraction} Fraction */
/** @typedef {import('./instance.js').Problem} Problem */
/**
 * @typedef {import('./cells.js').Clock & {calendar: import('./calendar.js').Calendar | null, faults: import('./instance.js').Fault[]}} ListClock
 */

/**
 * How the moments of a problem count. What is wrong with its start or its shifts stands in `faults`.
 * @param {Problem} problem
 * @returns {ListClock}
 */
export function clockOf(problem) {
  const unit = secondsOf(problem.unit.trim()), said = problem.start.trim();
  /** @type {ListClock} */
  const clock = { unit, start: null, worked: null, calendar: null, faults: [] };
  if (!said) return clock;
  clock.start = startOf(said);
  if (clock.start === null) clock.faults.push({ row: 0, key: 'start', code: 'notDate', values: [said] });
  else if (problem.shifts.trim()) {
    const calendar = calendarOf(problem.shifts, problem.holidays, clock.start);
    if (typeof calendar === 'string') clock.faults.push({ row: 0, key: 'shifts', code: 'notShifts', values: [calendar] });
    else {
      clock.calendar = calendar;
      clock.worked = seconds => calendar.work(seconds);
    }
  }
  return clock;
}

/**
 * @param {string} text
 * @returns {number | null}
 */
function startOf(text) {
  try {
    return dateOf(text);
  } catch (fault) {
    return null;
  }
}

/**
 * A date as it is written: 2026-03-02 08:00, or in German 02.03.2026 08:00.
 * @param {number} seconds since 1970
 * @param {boolean} german
 */
export function dateText(seconds, german) {
  const at = new Date(seconds * 1000).toISOString(), [year, month, day] = at.slice(0, 10).split('-'), clock = at.slice(11, 16);
  return german ? `${day}.${month}.${year} ${clock}` : `${year}-${month}-${day} ${clock}`;
}

/**
 * The seconds since 1970 of a moment of the list; null where no start is known.
 * @param {Fraction} moment
 * @param {ListClock} clock
 * @param {boolean} ends whether something ends there
 */
export function secondsAt(moment, clock, ends) {
  if (clock.start === null || !clock.unit) return null;
  const work = near(times(moment, fraction(clock.unit)));
  return clock.start + (clock.calendar ? clock.calendar.clock(work, ends) : work);
}

/**
 * A moment of the list as it is shown: a date, or a number.
 * @param {Fraction} moment
 * @param {ListClock} clock
 * @param {boolean} german
 * @param {boolean} [ends]
 */
export function momentText(moment, clock, german, ends = false) {
  const seconds = secondsAt(moment, clock, ends);
  return seconds === null ? shown(moment, german ? ',' : '.') : dateText(seconds, german);
}

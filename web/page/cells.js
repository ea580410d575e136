// What stands in the cells of German and English lists: numbers, lengths of time, dates; exact, or why not.
import { fraction, over, times } from '../fractions.js';

/** @typedef {import('../fractions.js').Fraction} Fraction */

/** What is wrong with a cell: a word of words.js, and what stands in it. */
export class CellFault extends Error {
  /**
   * @param {string} code
   * @param {...string} values
   */
  constructor(code, ...values) {
    super(code);
    this.code = code;
    this.values = values;
  }
}

/**
 * A decimal with a point.
 * @param {string} text
 */
function decimal(text) {
  const [, sign, whole, rest] = text.match(/^([+-]?)(\d+)(?:\.(\d+))?$/) || [];
  if (whole === undefined || whole.length > 24 || (rest || '').length > 12) return null;
  const value = fraction(BigInt(whole + (rest || '')), 10n ** BigInt((rest || '').length));
  return sign === '-' ? fraction(-value.n, value.d) : value;
}

/**
 * The exact value of a number as people write it: 6.5, 6,5, 1 250, 1.250,5, 3/2. A decimal mark is a comma or a point; `1.250` and `1,250`
 * may be a thousand or a fraction, and are refused.
 * @param {string} text
 * @returns {Fraction}
 */
export function numberOf(text) {
  let said = text.trim().replace(/\u2212/g, '-').replace(/['\u2019\u00a0\u202f]/g, ' ');
  if (/^[+-]?\d{1,3}( \d{3})+([.,]\d+)?$/.test(said)) said = said.replace(/ /g, '');
  const parts = said.match(/^(-?\d+)\/([1-9]\d*)$/);
  if (parts) return fraction(BigInt(parts[1]), BigInt(parts[2]));
  const groups = said.match(/^[+-]?\d{1,3}([.,])\d{3}(\1\d{3})*(?!\1)[.,]\d+$/) || said.match(/^[+-]?\d{1,3}([.,])\d{3}(\1\d{3})+$/);
  if (groups) said = said.split(groups[1]).join('');
  else if (/^[+-]?[1-9]\d{0,2}[.,]\d{3}$/.test(said)) throw new CellFault('eitherNumber', text.trim());
  const value = decimal(said.replace(',', '.'));
  if (!value) throw new CellFault('notNumber', text.trim());
  return value;
}

/**
 * The seconds of a length of time as a clock shows it, 3:30 or 3:30:15; null of another text.
 * @param {string} text
 */
function clockLength(text) {
  const found = text.trim().match(/^(\d{1,4}):([0-5]\d)(?::([0-5]\d))?$/);
  return found ? fraction(Number(found[1]) * 3600 + Number(found[2]) * 60 + Number(found[3] || 0)) : null;
}

const MONTHS = ['januar j\u00e4nner january jan', 'februar feber february feb', 'm\u00e4rz maerz mrz m\u00e4r march mar', 'april apr', 'mai may',
  'juni june jun', 'juli july jul', 'august aug', 'september sept sep', 'oktober october okt oct', 'november nov', 'dezember december dez dec'];

/**
 * The number of a month by its word, or 0.
 * @param {string} word
 */
function monthOf(word) { return MONTHS.findIndex(it => it.split(' ').includes(word.toLowerCase())) + 1; }

/** Ways to write a day, each with the places of year, month and day. With points and in words the day comes first.
 * @type {[RegExp, number, number, number][]} */
const DAYS = [
  [/^(\d{4})-(\d{1,2})-(\d{1,2})/, 1, 2, 3], [/^(\d{1,2})\.(\d{1,2})\.(\d{4}|\d{2})/, 3, 2, 1],
  [/^(\d{1,2})\.?\s*([A-Za-z\u00e4\u00c4]+)\.?,?\s*(\d{4})/, 3, 2, 1], [/^([A-Za-z]+)\.? (\d{1,2}),? (\d{4})/, 3, 1, 2],
];

const WEEKDAY = new RegExp('^(mon|monday|mo|montag|tue|tuesday|di|dienstag|wed|wednesday|mi|mittwoch|thu|thursday|do|donnerstag|fri|friday|fr|freitag'
  + '|sat|saturday|sa|samstag|sun|sunday|so|sonntag)[.,]* ', 'i');

/**
 * The seconds since 1970 of a clock time behind a day; null where that is no clock time.
 * @param {string} text
 */
function clockOf(text) {
  const rest = text.trim().replace(/^[,T]\s*/, '').replace(/^(um|at) /, '');
  if (!rest) return 0;
  const found = rest.match(/^(\d{1,2})(?::(\d{2}))?(?::(\d{2}))?(?:\s*Uhr)?$/) || rest.match(/^(\d{1,2})\.(\d{2})()\s*Uhr$/);
  if (!found || Number(found[1]) > 24 || Number(found[2] || 0) > 59) return null;
  return Number(found[1]) * 3600 + Number(found[2] || 0) * 60 + Number(found[3] || 0);
}

/**
 * The seconds since 1970 of a date with or without a clock time, by the clock of the wall; null of a text that is no date.
 * @param {string} text
 * @returns {number | null}
 */
export function dateOf(text) {
  const said = text.trim().replace(/\s+/g, ' ').replace(WEEKDAY, '');
  for (const [pattern, year, month, day] of DAYS) {
    const found = said.match(pattern);
    if (!found) continue;
    const at = /^\d/.test(found[month]) ? Number(found[month]) : monthOf(found[month]), clock = clockOf(said.slice(found[0].length));
    const seconds = Date.UTC(Number(found[year].length === 2 ? `20${found[year]}` : found[year]), at - 1, Number(found[day])) / 1000;
    const isDay = at >= 1 && at <= 12 && new Date(seconds * 1000).getUTCDate() === Number(found[day]);
    if (!isDay || clock === null) throw new CellFault('notDate', text.trim());
    return seconds + clock;
  }
  return null;
}

/**
 * How the moments of a list count: seconds of a unit, the moment 0 (null where there is none), and working time by a calendar.
 * @typedef {object} Clock
 * @property {number} unit 0 where nothing says it
 * @property {number | null} start
 * @property {((seconds: number) => number) | null} worked the seconds of work from the start to a moment, where shifts say so
 */

/**
 * A length of time in units of the list.
 * @param {string} text
 * @param {Clock} clock
 */
export function lengthOf(text, clock) {
  const seconds = clockLength(text);
  if (!seconds) return numberOf(text);
  if (!clock.unit) throw new CellFault('needsUnit', text.trim());
  return over(seconds, fraction(clock.unit));
}

/**
 * A moment in units of the list from the moment 0: a number, or a date.
 * @param {string} text
 * @param {Clock} clock
 */
export function momentOf(text, clock) {
  const date = dateOf(text);
  if (date === null) return numberOf(text);
  if (clock.start === null || !clock.unit) throw new CellFault('needsStart', text.trim());
  const seconds = date - clock.start;
  return over(fraction(clock.worked ? clock.worked(seconds) : seconds), fraction(clock.unit));
}

/**
 * A number in another unit.
 * @param {Fraction} value
 * @param {number} from seconds
 * @param {number} to seconds
 */
export function converted(value, from, to) { return over(times(value, fraction(from)), fraction(to)); }

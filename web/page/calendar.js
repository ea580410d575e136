// The hours of a plant: shifts of a week and free days, and how moments of the clock become working time and back. A shift belongs to the day
// on which it begins, also where it passes midnight. The clock is never put forward or back.
import { dateOf } from './cells.js';

const DAY = 86400, MOST_DAYS = 20000;
const DAY_WORDS = ['mon monday mo montag', 'tue tuesday di dienstag', 'wed wednesday mi mittwoch', 'thu thursday do donnerstag',
  'fri friday fr freitag', 'sat saturday sa samstag', 'sun sunday so sonntag'];

/** @typedef {[number, number]} Span seconds from midnight; the end may be on the next day */

/**
 * The days of a text as Mon-Fri or Mo,Mi, as numbers from 0; null of another text.
 * @param {string} text
 * @returns {number[] | null}
 */
function daysOf(text) {
  /** @type {number[]} */
  const found = [];
  for (const part of text.toLowerCase().split(',')) {
    const [one, other] = part.split('-').map(word => DAY_WORDS.findIndex(it => it.split(' ').includes(word.trim())));
    if (one < 0 || other !== undefined && other < 0) return null;
    const last = other === undefined ? one : other < one ? other + 7 : other;
    for (let day = one; day <= last; day++) found.push(day % 7);
  }
  return found;
}

/**
 * A shift as 22:00-06:00; null of another text.
 * @param {string} text
 * @returns {Span | null}
 */
function spanOf(text) {
  const found = text.match(/^([01]?\d|2[0-4])[:.]([0-5]\d)-([01]?\d|2[0-4])[:.]([0-5]\d)$/);
  if (!found) return null;
  const [begin, end] = [Number(found[1]) * 3600 + Number(found[2]) * 60, Number(found[3]) * 3600 + Number(found[4]) * 60];
  return begin === end || begin >= DAY || end > DAY ? null : [begin, end < begin ? end + DAY : end];
}

/**
 * The shifts of each day of a week, Monday first; the part that is none as a text.
 * @param {string} text as Mon-Fri 06:00-14:00,14:30-22:00; Sat 06:00-12:00
 * @returns {Span[][] | string}
 */
export function shiftsOf(text) {
  /** @type {Span[][]} */
  const week = Array.from({ length: 7 }, () => []);
  for (const group of text.replace(/\u2013/g, '-').split(';').map(it => it.trim().replace(/\s*([,-])\s*/g, '$1')).filter(Boolean)) {
    const blank = group.indexOf(' '), days = blank < 0 ? null : daysOf(group.slice(0, blank));
    const spans = group.slice(blank + 1).trim().split(',').map(spanOf);
    if (!days || spans.includes(null)) return group;
    for (const day of days) week[day].push(.../** @type {Span[]} */ (spans));
  }
  for (const spans of week) spans.sort((one, other) => one[0] - other[0]);
  const all = week.flatMap((spans, day) => spans.map(([begin, end]) => [day * DAY + begin, day * DAY + end]));
  const overlap = all.some(([, end], at) => end > (at + 1 < all.length ? all[at + 1][0] : all[0][0] + 7 * DAY));
  return overlap || !all.length ? text.trim() : week;
}

/**
 * The free days of a text: dates, and spans as 2026-12-24..2027-01-01, with blanks, commas or lines between them; the part that is none as a text.
 * @param {string} text
 * @returns {Set<number> | string} days since 1970
 */
export function holidaysOf(text) {
  const days = new Set();
  for (const part of text.split(/[\s,;]+/).filter(Boolean)) {
    const [first, last] = part.split('..').map(dayOf);
    if (first === null || last === null || last !== undefined && (last < first || last > first + 366)) return part;
    for (let day = first; day <= (last === undefined ? first : last); day++) days.add(day);
  }
  return days;
}

/**
 * @param {string} text
 * @returns {number | null}
 */
function dayOf(text) {
  try {
    const seconds = dateOf(text);
    return seconds === null || seconds % DAY ? null : seconds / DAY;
  } catch (fault) {
    return null;
  }
}

/** The working time of a plant from a start on. */
export class Calendar {
  /**
   * @param {Span[][]} week
   * @param {Set<number>} holidays
   * @param {number} start seconds since 1970
   */
  constructor(week, holidays, start) {
    this.week = week;
    this.holidays = holidays;
    this.start = start;
    this.first = Math.floor(start / DAY) - 1;
    /** The work of the shifts that begin before each day, the first one at place 0. */
    this.sums = [0];
    this.done = this.worked(start);
  }

  /**
   * The shifts that begin on a day, in seconds since 1970.
   * @param {number} day since 1970
   * @returns {Span[]}
   */
  spans(day) {
    if (this.holidays.has(day)) return [];
    return this.week[(day + 3) % 7].map(([begin, end]) => /** @type {Span} */ ([day * DAY + begin, day * DAY + end]));
  }

  /**
   * The work of the shifts that begin between the first day and another.
   * @param {number} day
   */
  before(day) {
    const place = day - this.first;
    while (this.sums.length <= place) {
      const last = this.sums.length - 1;
      this.sums.push(this.sums[last] + this.spans(this.first + last).reduce((sum, [begin, end]) => sum + end - begin, 0));
    }
    return this.sums[Math.max(place, 0)];
  }

  /**
   * The work from the first day on to a moment, of which those before the first day have none.
   * @param {number} moment seconds since 1970
   */
  worked(moment) {
    const day = Math.floor(moment / DAY);
    if (day > this.first + MOST_DAYS) return this.before(this.first + MOST_DAYS);
    return this.before(day - 1) + (day > this.first ? this.inSpans(day - 1, moment) : 0) + (day >= this.first ? this.inSpans(day, moment) : 0);
  }

  /**
   * @param {number} day
   * @param {number} moment
   */
  inSpans(day, moment) { return this.spans(day).reduce((sum, [begin, end]) => sum + Math.min(Math.max(moment - begin, 0), end - begin), 0); }

  /**
   * The seconds of work from the start to a moment; below 0 before it.
   * @param {number} seconds from the start
   * @returns {number}
   */
  work(seconds) {
    if (seconds >= 0) return this.worked(this.start + seconds) - this.done;
    return -new Calendar(this.week, this.holidays, this.start + seconds).work(-seconds);
  }

  /**
   * The seconds from the start when so much is worked: the first moment where something ends there, else the last one.
   * @param {number} work
   * @param {boolean} ends
   */
  clock(work, ends) {
    if (work < 0 || ends && work === 0) return work;
    const total = work + this.done;
    for (let day = this.first; day < this.first + MOST_DAYS; day++) {
      const next = this.before(day + 1);
      if (next < total || !ends && next === total) continue;
      let left = total - this.before(day);
      for (const [begin, end] of this.spans(day)) {
        if (left < end - begin || ends && left === end - begin) return begin + left - this.start;
        left -= end - begin;
      }
    }
    return MOST_DAYS * DAY;
  }
}

/**
 * The calendar of shifts and free days; what is wrong with them as a text.
 * @param {string} shifts
 * @param {string} holidays
 * @param {number} start seconds since 1970
 * @returns {Calendar | string}
 */
export function calendarOf(shifts, holidays, start) {
  const week = shiftsOf(shifts), days = holidaysOf(holidays);
  if (typeof week === 'string') return week;
  return typeof days === 'string' ? days : new Calendar(week, days, start);
}

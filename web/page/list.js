// A pasted list as rows of the table, and what is to be said of it.
import { CellFault, converted, dateOf, numberOf } from './cells.js';
import { columnsOf, fixedMachines, hasDue, isShop } from './columns.js';
import { dateText } from './clock.js';
import { nameOf, rankOf } from '../names.js';
import { shown } from '../fractions.js';
import { machinesOf } from './instance.js';

/** @typedef {import('./spreadsheet.js').List} List */
/** @typedef {import('./instance.js').Problem} Problem */
/** @typedef {import('./instance.js').Row} Row */
/** @typedef {import('../names.js').Parts} Parts */
/** @typedef {[string, ...string[]]} Said a key of words.js with its values */

const WORDS_OF_UNITS = new Map([[60, 'min'], [3600, 'h'], [86400, 'd']]);

/**
 * The columns of a list that names none: those of the table, in their order.
 * @param {List} list
 * @param {Problem} problem
 */
function keysOf(list, problem) {
  if (list.header.some(Boolean)) return list.keys;
  return ['job', ...columnsOf(problem.parts, machinesOf(problem))].slice(0, list.header.length);
}

/**
 * The unit in which a list is counted: the finest one of its headers, else that of the problem, else hours where there are dates.
 * @param {List} list
 * @param {Problem} problem
 * @param {boolean} dated
 */
function unitOf(list, problem, dated) {
  const found = list.units.filter(it => WORDS_OF_UNITS.has(it));
  if (found.length) return String(WORDS_OF_UNITS.get(Math.min(...found)));
  return problem.unit || (dated ? 'h' : '');
}

/**
 * A cell in the unit of the list, where its header has another one.
 * @param {string} text
 * @param {number} from seconds
 * @param {number} to seconds
 */
function inUnit(text, from, to) {
  if (!from || !to || from === to || !text.trim()) return text;
  try {
    return shown(converted(numberOf(text), from, to)).replace('\u2212', '-');
  } catch (fault) {
    if (fault instanceof CellFault) return text;
    throw fault;
  }
}

/**
 * The seconds of a date in a cell; null of another text.
 * @param {string} text
 */
function dateIn(text) {
  try {
    return dateOf(text);
  } catch (fault) {
    return null;
  }
}

/**
 * The dates of a list in its columns of dates.
 * @param {List} list
 * @param {string[]} keys
 */
function datesIn(list, keys) {
  const places = keys.flatMap((key, at) => key === 'r' || key === 'd' ? [at] : []);
  return list.rows.flatMap(row => places.flatMap(at => {
    const found = dateIn(row[at] || '');
    return found === null ? [] : [found];
  }));
}

/**
 * The rows of a list.
 * @param {List} list
 * @param {string[]} keys
 * @param {string} unit
 * @returns {Row[]}
 */
function rowsOf(list, keys, unit) {
  const seconds = [...WORDS_OF_UNITS].find(it => it[1] === unit);
  return list.rows.map((record, at) => {
    /** @type {Row} */
    const row = { id: at + 1, name: '', cells: {} };
    keys.forEach((key, place) => {
      const text = record[place] || '';
      if (key === 'job') row.name = text;
      else if (key) row.cells[key] = /^p\d*$/.test(key) ? inUnit(text, list.units[place], seconds ? seconds[0] : 0) : text;
    });
    return row;
  });
}

/**
 * The criterion that needs due dates, weights and curves where the list has them; the one that stands there, if it does.
 * @param {Parts} parts
 * @param {(key: string) => boolean} has
 */
function criterionFor(parts, has) {
  if (has('curve')) return 'fmax';
  if (hasDue(parts) === has('d') && parts.criterion.startsWith('sumw') === has('w') && parts.criterion !== 'fmax') return parts.criterion;
  return has('d') ? has('w') ? 'sumwU' : 'Lmax' : has('w') ? 'sumwC' : 'Cmax';
}

/**
 * The environment that has a place for a route, or for so many columns of times.
 * @param {Parts} parts
 * @param {boolean} routed
 * @param {number} machines
 */
function environmentFor(parts, routed, machines) {
  if (routed) return parts.environment[0] === 'J' ? parts.environment : 'J';
  const fits = isShop(parts) && parts.environment[0] !== 'J' || parts.environment[0] === 'R';
  return machines < 2 || fits ? parts.environment : machines < 4 ? `F${machines}` : 'F';
}

/**
 * A class that has a place for the columns of a list, and differs little from another.
 * @param {Parts} parts
 * @param {string[]} keys
 * @returns {Parts}
 */
export function classFor(parts, keys) {
  const has = (/** @type {string} */ key) => keys.includes(key), machines = keys.filter(it => /^p\d+$/.test(it)).length;
  const environment = environmentFor(parts, has('route'), machines);
  /** @type {Parts} */
  const found = { environment, cut: parts.cut, release: has('r') ? 'r' : '', order: has('after') ? parts.order || 'prec' : '',
    times: keys.some(it => /^p\d*$/.test(it)) ? '' : parts.times, short: environment[0] === 'J' ? parts.short : '',
    criterion: criterionFor(parts, has) };
  return rankOf(nameOf(found)) < 0 ? parts : found;
}

/**
 * The problem with the rows of a list in the place of its own, and what was done.
 * @param {List} list
 * @param {Problem} problem
 * @param {boolean} german
 * @returns {{problem: Problem, said: Said[]}}
 */
export function taken(list, problem, german) {
  const keys = keysOf(list, problem), dates = datesIn(list, keys), unit = unitOf(list, problem, dates.length > 0);
  /** @type {Said[]} */
  const said = [['rowsTaken', String(list.rows.length)], ...list.titles.map(it => /** @type {Said} */ (['titleLine', it]))];
  if (!list.header.some(Boolean)) said.push(['noHeader']);
  list.header.forEach((header, at) => { if (header && keys[at]) said.push(['meaning', header, keys[at]]); });
  const left = list.header.filter((header, at) => header && !keys[at]);
  if (left.length) said.push(['leftOut', left.join(', ')]);
  if (unit !== problem.unit) said.push(['unitTaken', unit]);
  let { start } = problem;
  if (dates.length && !start) {
    start = dateText(Math.floor(Math.min(...dates) / 86400) * 86400, german);
    said.push(['startTaken', start]);
  }
  const count = keys.filter(it => /^p\d+$/.test(it)).length, named = list.header.some(Boolean);
  const parts = named ? classFor(problem.parts, keys.filter(Boolean)) : problem.parts;
  if (nameOf(parts) !== nameOf(problem.parts)) said.push(['classTaken', nameOf(parts)]);
  const machines = String(count > 1 ? count : fixedMachines(parts) || problem.machines || 2);
  const machineNames = list.machines.length ? list.machines : problem.machineNames;
  return { problem: { ...problem, parts, unit, start, machines, machineNames, drawn: '', sheet: '', rows: rowsOf(list, keys, unit) }, said };
}

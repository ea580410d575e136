// Tables as spreadsheets copy and save them: records, the one that names the columns, and what the columns mean.
import { keyOf, withoutUnit } from './columns.js';

/**
 * A list that was read: its header, what each column means (a key or an empty text), the seconds of its unit (0 without one), its rows, what
 * stands above the header, and the machines that its columns name.
 * @typedef {{header: string[], keys: string[], units: number[], rows: string[][], titles: string[], machines: string[]}} List
 */

const LOOKED_AT = 20;

/**
 * What separates the fields of a text: a first line `sep=;` says it, else tabs, semicolons or commas.
 * @param {string} text
 * @returns {{mark: string, rest: string}}
 */
function separatorOf(text) {
  const said = text.match(/^"?sep=(.)"?\r?\n/);
  if (said) return { mark: said[1], rest: text.slice(said[0].length) };
  const lines = text.split('\n', LOOKED_AT).filter(it => it.trim());
  const mark = ['\t', ';', ','].find(it => lines.some(line => line.includes(it)));
  return { mark: mark || '\t', rest: text };
}

/**
 * One field from a place on, and the place behind it.
 * @param {string} text
 * @param {number} at
 * @param {string} mark
 * @returns {[string, number]}
 */
function fieldAt(text, at, mark) {
  if (text[at] !== '"') {
    let end = at;
    while (end < text.length && text[end] !== mark && text[end] !== '\n') end++;
    return [text.slice(at, end), end];
  }
  let field = '', end = at + 1;
  while (end < text.length && (text[end] !== '"' || text[end + 1] === '"')) {
    field += text[end];
    end += text[end] === '"' ? 2 : 1;
  }
  end++;
  while (end < text.length && text[end] !== mark && text[end] !== '\n') field += text[end++];
  return [field, end];
}

/**
 * The records of a text, without those that are empty; line breaks and runs of blanks in a field are one blank.
 * @param {string} text
 * @returns {string[][]}
 */
export function recordsOf(text) {
  const { mark, rest } = separatorOf(text.replace(/^\ufeff/, '').replace(/\r\n?/g, '\n'));
  /** @type {string[][]} */
  const records = [];
  let at = 0, record = /** @type {string[]} */ ([]);
  while (at < rest.length) {
    const [field, end] = fieldAt(rest, at, mark);
    record.push(field.replace(/\s+/g, ' ').trim());
    at = end + 1;
    if (rest[end] === mark && end + 1 < rest.length && rest[end + 1] !== '\n') continue;
    if (rest[end] === mark) { record.push(''); at += 1; }
    records.push(record);
    record = [];
  }
  if (record.length) records.push(record);
  return records.filter(it => it.some(Boolean));
}

/**
 * What the fields of a record mean as names of columns; a meaning that stands twice belongs to the first.
 * @param {string[]} record
 */
function meanings(record) {
  /** @type {string[]} */
  const keys = [];
  for (const field of record) {
    const key = /^[-+.,:/\d\s]*$/.test(field) ? '' : keyOf(withoutUnit(field).name);
    keys.push(keys.includes(key) ? '' : key);
  }
  return keys;
}

/**
 * The record that names the columns, by how many it names; -1 where none names two.
 * @param {string[][]} records
 */
function headerAt(records) {
  const counts = records.slice(0, LOOKED_AT).map(it => meanings(it).filter(Boolean).length + it.filter(field => withoutUnit(field).seconds).length);
  const most = Math.max(0, ...counts);
  return most > 1 ? counts.indexOf(most) : -1;
}

/**
 * The list in a text; without a record that names the columns all of them mean nothing yet.
 * @param {string} text
 * @returns {List | null} null where the text is no table of at least two fields or two lines
 */
export function listOf(text) {
  const records = recordsOf(text);
  if (!records.length || records.length === 1 && records[0].length === 1) return null;
  const at = headerAt(records), width = Math.max(...records.map(it => it.length));
  const header = at < 0 ? Array.from({ length: width }, () => '') : records[at];
  const keys = at < 0 ? header : meanings(header), named = keys.includes('job') ? keys : withJob(keys, records.slice(at + 1));
  const units = header.map(it => withoutUnit(it).seconds), places = stations(named, units);
  return { header, keys: named.map((key, place) => stationKey(places, place) || key), units, rows: records.slice(at + 1),
    titles: at < 0 ? [] : records.slice(0, at).map(it => it.filter(Boolean).join('; ')),
    machines: places.length > 1 ? places.map(place => withoutUnit(header[place]).name) : [] };
}

/**
 * The columns that have a unit of time and no other meaning: the time of a job, or where there are several, its times on machines.
 * @param {string[]} keys
 * @param {number[]} units
 */
function stations(keys, units) { return keys.some(it => /^p\d*$/.test(it)) ? [] : keys.flatMap((key, place) => !key && units[place] ? [place] : []); }

/**
 * @param {number[]} places
 * @param {number} place
 */
function stationKey(places, place) { return !places.includes(place) ? '' : places.length === 1 ? 'p' : `p${places.indexOf(place) + 1}`; }

/**
 * The meanings of columns where none is the name of the job: the first one without a meaning whose cells are no numbers.
 * @param {string[]} keys
 * @param {string[][]} rows
 */
function withJob(keys, rows) {
  const at = keys.findIndex((key, place) => !key && rows.some(row => /\p{L}/u.test(row[place] || '')));
  return keys.map((key, place) => place === at ? 'job' : key);
}

const SUMS = new RegExp('^(\u03c3|summen?|gesamt|gesamtsumme|insgesamt|zwischensumme|zusammen|total|totals|grand total|subtotal|sum|somme|totale)'
  + '([ ,:]*[\\[(]?(h|std|min|stunden|minuten|hours|minutes|zeit|dauer|time)?[\\])]?)?[ .:=]*$');

/**
 * Whether a name is that of a row of sums.
 * @param {string} name
 */
export function saysSum(name) { return SUMS.test(name.toLowerCase().trim()); }

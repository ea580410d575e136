// Schedules: those that the program prints, and their text for `check`. Moments are in the units of the list.
import { fraction, gcd, lcm, over, plus, printed, ZERO } from '../fractions.js';

/** @typedef {import('../fractions.js').Fraction} Fraction */
/** @typedef {import('./instance.js').Built} Built */
/**
 * A piece of a schedule: of the job of a row, its operation, its machine, and from when to when.
 * @typedef {{row: number, op: number, machine: number, from: Fraction, to: Fraction}} Piece
 */
/**
 * What a report of `solve` says: its chain, its solver, its cost in numbers of the instance, its pieces.
 * @typedef {{start: string, chain: [number, string][], solver: string, cost: Fraction, pieces: Piece[]}} Solved
 */

/**
 * The pieces of a schedule text whose jobs the instance has.
 * @param {string} text
 * @param {Built} built
 * @returns {Piece[]}
 */
export function piecesIn(text, built) {
  const rows = new Map(built.jobs.map(it => [it.name, it.row.id]));
  const unit = BigInt((text.match(/^unit (\d{1,20})$/m) || ['', '1'])[1] || 1) * built.scale;
  /** @type {Piece[]} */
  const found = [];
  for (const line of text.split('\n')) {
    const [, name, op, machine, from, to] = line.match(/^piece (\S{1,32}) (\d{1,3}) (\d{1,3}) (\d{1,30}) (\d{1,30})$/) || [];
    const row = name === undefined ? undefined : rows.get(name);
    if (row === undefined || unit === 0n) continue;
    found.push({ row, op: Number(op), machine: Number(machine), from: fraction(BigInt(from), unit), to: fraction(BigInt(to), unit) });
  }
  return found;
}

/**
 * @param {string} report
 * @param {Built} built
 * @returns {Solved}
 */
export function solvedOf(report, built) {
  const word = (/** @type {RegExp} */ pattern) => (report.match(pattern) || ['', ''])[1];
  const chain = Array.from(report.matchAll(/^row (\d+) (.*)$/gm), it => /** @type {[number, string]} */ ([Number(it[1]), it[2]]));
  return { start: word(/^start (.*)$/m), chain, solver: word(/^solver (.*)$/m), cost: printed(word(/^cost (.*)$/m)) || ZERO,
    pieces: piecesIn(report, built) };
}

/**
 * By which the denominator of a moment divides the unit of a schedule.
 * @param {bigint} all
 * @param {Fraction} moment
 * @param {bigint} scale
 */
function unitWith(all, { d }, scale) {
  const left = d === 1n ? 1n : d / gcd(d, scale);
  return all % left === 0n ? all : lcm(all, left);
}

/**
 * The text of a schedule. Its stated cost is 0: the program says the true one.
 * @param {Piece[]} pieces
 * @param {Built} built
 * @param {string} cost as the program printed it
 */
export function scheduleText(pieces, built, cost = '0') {
  const names = new Map(built.jobs.map(it => [it.row.id, it.name])), { scale } = built, those = pieces.filter(it => names.has(it.row));
  const unit = those.reduce((all, { from, to }) => unitWith(unitWith(all, from, scale), to, scale), 1n), factor = unit * scale;
  const moment = (/** @type {Fraction} */ { n, d }) => d === 1n ? n * factor : n * factor / d;
  const lines = those.map(it => `piece ${names.get(it.row)} ${it.op} ${it.machine} ${moment(it.from)} ${moment(it.to)}`);
  return ['schedule', `cost ${cost}`, `unit ${unit}`, ...lines, 'end', ''].join('\n');
}

/**
 * The pieces in the order of the text of a schedule, which a verdict counts.
 * @param {Piece[]} pieces
 * @param {Built} built
 */
export function inText(pieces, built) {
  const rows = new Set(built.jobs.map(it => it.row.id));
  return pieces.filter(it => rows.has(it.row));
}

/**
 * By which number a cost of the instance is divided in the units of the list.
 * @param {string} criterion
 * @param {Built} built
 */
export function costScale(criterion, built) {
  const weights = criterion.startsWith('sumw') ? built.weights : 1n;
  return fraction(criterion === 'sumU' ? 1n : criterion === 'sumwU' ? weights : weights * built.scale);
}

/**
 * A cost of the instance in the units of the list.
 * @param {Fraction} cost
 * @param {string} criterion
 * @param {Built} built
 */
export function listCost(cost, criterion, built) { return over(cost, costScale(criterion, built)); }

/**
 * The ends of the jobs, by their rows.
 * @param {Piece[]} pieces
 * @returns {Map<number, Fraction>}
 */
export function endsOf(pieces) {
  /** @type {Map<number, Fraction>} */
  const ends = new Map();
  for (const it of pieces) {
    const before = ends.get(it.row);
    if (!before || before.n * it.to.d < it.to.n * before.d) ends.set(it.row, it.to);
  }
  return ends;
}

/**
 * The length of a piece.
 * @param {Piece} it
 */
export function lengthOf(it) { return plus(it.to, fraction(-it.from.n, it.from.d)); }

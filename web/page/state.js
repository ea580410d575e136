// The state of the page as a text: in a link behind #, in a file. What is read can fill an instance and a plan, and nothing else.
import { nameOf, partsOf } from '../names.js';
import { asked, read } from '../reading.js';
import { print, printed } from '../fractions.js';
import { emptyProblem } from './texts.js';

/** @typedef {import('./instance.js').Problem} Problem */
/** @typedef {import('./instance.js').Row} Row */
/** @typedef {import('./schedule.js').Piece} Piece */
/**
 * A plan: its pieces, and whose it is: a best one of the program, one of rules that were searched, or one's own.
 * @typedef {{pieces: Piece[], from: 'best' | 'rules' | 'own'}} Plan
 */
/**
 * What stands in the page: a problem, its plan, and another problem with its plan that is kept beside it.
 * @typedef {{problem: Problem, plan: Plan | null, kept: {problem: Problem, plan: Plan} | null}} State
 */

const VERSION = 'msp-page 1', LONGEST = 400, MOST_ROWS = 5000, MOST_PIECES = 20000, MOST_BYTES = 8000000;
const FROM = /** @type {Plan['from'][]} */ (['best', 'rules', 'own']);
const TEXTS = /** @type {Exclude<keyof Problem, 'parts' | 'machineNames' | 'rows'>[]} */ (
  ['machines', 'speeds', 'time', 'unit', 'start', 'shifts', 'holidays', 'drawn', 'sheet']);

/** @param {Plan | null} plan */
function planOut(plan) {
  return plan && { from: plan.from, pieces: plan.pieces.map(it => [it.row, it.op, it.machine, print(it.from), print(it.to)]) };
}

/** @param {Problem} problem */
function problemOut(problem) {
  const texts = Object.fromEntries(TEXTS.filter(it => problem[it]).map(it => [it, problem[it]])), { machineNames } = problem;
  const rows = problem.rows.map(({ id, name, cells }) => [id, name, Object.fromEntries(Object.entries(cells).filter(it => it[1]))]);
  return { class: nameOf(problem.parts), ...texts, machineNames, rows };
}

/**
 * A state as a text.
 * @param {State} state
 */
export function textOf({ problem, plan, kept }) {
  const beside = kept && { problem: problemOut(kept.problem), plan: planOut(kept.plan) };
  return JSON.stringify({ is: VERSION, ...problemOut(problem), plan: planOut(plan), kept: beside });
}

/** @param {unknown} value */
export function text(value) { return typeof value === 'string' ? value.slice(0, LONGEST) : ''; }

/**
 * @param {unknown} value
 * @returns {Object<string, unknown>}
 */
export function record(value) {
  return value && typeof value === 'object' && !Array.isArray(value) ? /** @type {Object<string, unknown>} */ (value) : {};
}

/**
 * @param {unknown} value
 * @returns {unknown[]}
 */
export function list(value) { return Array.isArray(value) ? value : []; }

/**
 * @param {unknown} value
 * @param {number} at
 * @returns {Row}
 */
function rowIn(value, at) {
  const [id, name, cells] = list(value);
  /** @type {Object<string, string>} */
  const found = {};
  for (const [key, it] of Object.entries(record(cells))) if (/^(p\d{0,2}|r|d|w|after|route|curve)$/.test(key)) found[key] = text(it);
  return { id: Number.isSafeInteger(id) && Number(id) > 0 ? Number(id) : at + 1, name: text(name), cells: found };
}

/**
 * @param {unknown} value
 * @returns {Piece[]}
 */
function pieceIn(value) {
  const [row, op, machine, from, to] = list(value), [begin, end] = [printed(text(from)), printed(text(to))];
  if (![row, op, machine].every(it => Number.isSafeInteger(it) && Number(it) > 0) || !begin || !end) return [];
  return [{ row: Number(row), op: Number(op), machine: Number(machine), from: begin, to: end }];
}

/**
 * @param {unknown} value
 * @returns {Plan | null}
 */
function planIn(value) {
  const { from, pieces } = record(value), found = list(pieces).slice(0, MOST_PIECES).flatMap(pieceIn);
  const whose = FROM.find(it => it === from) || 'own';
  return found.length ? { from: whose === 'best' ? 'own' : whose, pieces: found } : null;
}

/**
 * @param {Object<string, unknown>} value
 * @returns {Problem | null}
 */
function problemIn(value) {
  const rank = asked(read(text(value.class)));
  if (rank < 0) return null;
  const problem = emptyProblem({ ...partsOf(rank) });
  for (const it of TEXTS) problem[it] = text(value[it]) || (it === 'machines' ? problem.machines : '');
  problem.machineNames = list(value.machineNames).slice(0, 64).map(text);
  problem.rows = list(value.rows).slice(0, MOST_ROWS).map(rowIn);
  if (new Set(problem.rows.map(it => it.id)).size < problem.rows.length) problem.rows.forEach((it, at) => { it.id = at + 1; });
  return problem;
}

/**
 * The state in a text; null where there is none.
 * @param {string} said
 * @returns {State | null}
 */
export function stateIn(said) {
  let value;
  try {
    value = record(JSON.parse(said));
  } catch (fault) {
    return null;
  }
  const problem = value.is === VERSION ? problemIn(value) : null, kept = record(value.kept);
  const other = problemIn(record(kept.problem)), plan = planIn(kept.plan);
  return problem && { problem, plan: planIn(value.plan), kept: other && plan ? { problem: other, plan } : null };
}

/**
 * Bytes through a stream that packs or unpacks. A word that unpacks to more than a state can have is refused.
 * @param {Uint8Array} bytes
 * @param {GenericTransformStream} stream
 */
async function through(bytes, stream) {
  const reader = new Blob([bytes]).stream().pipeThrough(stream).getReader();
  /** @type {Uint8Array[]} */
  const parts = [];
  let length = 0;
  for (let part = await reader.read(); !part.done; part = await reader.read()) {
    parts.push(part.value);
    length += part.value.length;
    if (length > MOST_BYTES) throw new RangeError('more than a state can have');
  }
  return new Uint8Array(await new Blob(parts).arrayBuffer());
}

/**
 * A text as a word of an address.
 * @param {string} said
 */
export async function packed(said) {
  const bytes = await through(new TextEncoder().encode(said), new CompressionStream('deflate-raw'));
  return btoa(Array.from(bytes, it => String.fromCharCode(it)).join('')).replace(/\+/g, '-').replace(/\//g, '_').replace(/=+$/, '');
}

/**
 * The text of a word of an address; empty where it is none.
 * @param {string} word
 */
export async function unpacked(word) {
  try {
    const bytes = Uint8Array.from(atob(word.replace(/-/g, '+').replace(/_/g, '/')), it => it.charCodeAt(0));
    return new TextDecoder().decode(await through(bytes, new DecompressionStream('deflate-raw')));
  } catch (fault) {
    return '';
  }
}


// What the program says of a schedule, of a certificate, and of an input with a fault: its reports and notes in parts.
import { printed } from '../fractions.js';

/** @typedef {import('../fractions.js').Fraction} Fraction */
/** @typedef {import('./instance.js').Built} Built */
/** @typedef {import('./instance.js').Fault} Fault */
/**
 * The verdict of `check`: the cost of a feasible schedule, or the kind and the words of the first condition that is broken.
 * @typedef {{feasible: boolean, cost: Fraction | null, kind: string, words: string[]}} Verdict
 */

/**
 * @param {string} report of `check`
 * @returns {Verdict}
 */
export function verdictOf(report) {
  const broken = report.match(/^break (\S+) (.*)$/m), cost = report.match(/^cost (.*)$/m);
  return { feasible: /^feasible yes$/m.test(report), cost: cost ? printed(cost[1]) : null, kind: broken ? broken[1] : '',
    words: broken ? broken[2].split(' ') : [] };
}

/**
 * Which pieces a broken condition names, by their places from 0.
 * @param {Verdict} verdict
 * @returns {number[]}
 */
export function brokenPieces(verdict) {
  return ['span', 'place', 'machine', 'job', 'release'].includes(verdict.kind) ? verdict.words.map(it => Number(it) - 1) : [];
}

/** The columns in which a quantity stands. */
const COLUMNS = Object.entries({ r: 'release', d: 'due', w: 'weight', curve: 'slope base above add steps', machines: 'machines',
  speeds: 'speed multiple', rows: 'jobs', after: 'arcs', job: 'name', route: 'route' });

/**
 * The column of a line in which a limit was passed.
 * @param {string} word
 * @param {string[]} keys
 */
function columnOf(word, keys) {
  const found = COLUMNS.find(([, words]) => words.split(' ').includes(word));
  if (found) return found[0];
  return word === 'time' ? keys.find(it => /^p\d*$|^route$|^time$/.test(it)) || keys[0] : keys[0];
}

/**
 * The fault of a line of an instance.
 * @param {number} number from 1
 * @param {string} what
 * @param {Built} built
 * @returns {Fault}
 */
function lineFault(number, what, built) {
  const line = built.lines[number - 1] || { row: 0, keys: ['rows'] }, limit = what.match(/^limit of (\S+)$/);
  const key = limit ? columnOf(limit[1], line.keys) : line.keys[0] || 'rows';
  return { row: key === 'rows' ? 0 : line.row, key, code: limit ? `limit ${limit[1]}` : 'line', values: [what] };
}

/**
 * The fault of an instance that a note of the program names, at its cell; null of a note that names none.
 * @param {string} note
 * @param {Built} built
 * @returns {Fault | null}
 */
export function faultOf(note, built) {
  const said = note.replace(/^msp: /, '').trim(), [, number, what] = said.match(/^line (\d+): (.*)$/) || [];
  if (number) return lineFault(Number(number), what, built);
  const [, name, why] = said.match(/^job (\S+): (needs|degree)$/) || [], cycle = said.match(/^cycle at (\S+)$/);
  const job = built.jobs.find(it => it.name === (cycle ? cycle[1] : name));
  if (!job) return null;
  const key = why === 'needs' ? (job.route.length ? 'route' : 'p1') : 'after';
  return { row: job.row.id, key, code: cycle ? 'cycle' : why, values: [job.row.name] };
}

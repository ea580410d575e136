// Instance texts as problems of the page: what a file, an example or a link brings.
import { asked, read } from '../reading.js';
import { partsOf } from '../names.js';
import { fixedMachines } from './columns.js';

/** @typedef {import('./instance.js').Problem} Problem */
/** @typedef {import('./instance.js').Row} Row */

/**
 * A problem without jobs.
 * @param {import('../names.js').Parts} parts
 * @returns {Problem}
 */
export function emptyProblem(parts) {
  return { parts, machines: String(fixedMachines(parts) || 2), speeds: '', time: '1', machineNames: [], unit: '', start: '', shifts: '', holidays: '',
    drawn: '', sheet: '', rows: [] };
}

/**
 * The cells of a line `job`: its keys with their numbers.
 * @param {string[]} fields
 */
function cellsOf(fields) {
  /** @type {Object<string, string>} */
  const cells = {};
  for (const field of fields) {
    const [, key, value] = field.match(/^([prdw])=(-?\d+)$/) || [];
    if (key) cells[key] = value;
  }
  return cells;
}

/** What each line of an instance says of the problem, or of its last job.
 * @type {Object<string, (problem: Problem, fields: string[]) => void>} */
const LINES = {
  machines: (problem, [count]) => { problem.machines = count || ''; },
  speeds: (problem, fields) => { problem.speeds = fields.join(' '); },
  time: (problem, [time]) => { problem.time = time || ''; },
  job: (problem, [name, ...fields]) => { problem.rows.push({ id: problem.rows.length + 1, name: name || '', cells: cellsOf(fields) }); },
  times: (problem, fields) => fields.forEach((it, at) => { lastRow(problem).cells[`p${at + 1}`] = it; }),
  route: (problem, fields) => { lastRow(problem).cells.route = fields.join(' '); },
  curve: (problem, fields) => { lastRow(problem).cells.curve = fields.join(' '); },
  arc: (problem, [before, after]) => {
    for (const row of problem.rows) {
      if (row.name === after) row.cells.after = row.cells.after ? `${row.cells.after} | ${before}` : before;
    }
  },
};

/**
 * @param {Problem} problem
 * @returns {Row}
 */
function lastRow(problem) { return problem.rows[problem.rows.length - 1] || { id: 0, name: '', cells: {} }; }

/**
 * The problem of an instance text; null where it does not begin as one. What is wrong in it the program says.
 * @param {string} text
 * @returns {Problem | null}
 */
export function problemOf(text) {
  const lines = text.replace(/^\ufeff/, '').replace(/\r\n?/g, '\n').split('\n').map(it => it.trim().split(/\s+/));
  const rank = lines[0].join(' ') === 'msp 1' && lines[1] && lines[1][0] === 'class' ? asked(read(lines[1].slice(1).join(' '))) : -1;
  if (rank < 0) return null;
  const problem = emptyProblem({ ...partsOf(rank) });
  for (const [word, ...fields] of lines.slice(2)) {
    if (word === 'end') break;
    if (Object.keys(LINES).includes(word)) LINES[word](problem, fields);
  }
  if (problem.rows.length && problem.rows.length > 5000) problem.rows.length = 5000;
  return problem;
}

/**
 * The schedule behind an instance text, from its line `schedule` on; empty where there is none.
 * @param {string} text
 */
export function scheduleIn(text) {
  const at = `\n${text.replace(/\r\n?/g, '\n')}`.indexOf('\nschedule\n');
  return at < 0 ? '' : text.replace(/\r\n?/g, '\n').slice(at);
}

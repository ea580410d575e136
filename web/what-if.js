// What changes in the table if results are added to a file, or taken out of it: the labels, the clashes and the frontier of the program.
import { run } from './engine.js';

/** @typedef {{name: string, verdict: string, source: string}} Result */
/** @typedef {{name: string, before: string, after: string}} Change */
/**
 * What a change of the results does: labels that change, the chains of clashes as the program prints them, and what comes to each list of the
 * frontier and what goes from it.
 * @typedef {Object} Effect
 * @property {Change[]} labels
 * @property {string[]} clashes
 * @property {Object<string, {come: string[], gone: string[]}>} frontier
 */
/** @typedef {(words: string[], input: string) => Promise<{status: number, report: string, note: string}>} Ask */

/**
 * The records of a results file, its head among them, as they stand there.
 * @param {string} text
 * @returns {string[]}
 */
export function recordsOf(text) { return text.match(/(?:"[^"]*"|[^"\n])+(?:\n|$)/g) || []; }

/**
 * A field of a record.
 * @param {string} text
 */
function field(text) { return /[",\n\r]/.test(text) ? `"${text.replace(/"/g, '""')}"` : text; }

/**
 * A results file with further results at its end, and without some of its records.
 * @param {string} text
 * @param {Result[]} added
 * @param {number[]} removed the numbers of records, the first behind the head being 1
 * @returns {string}
 */
export function changedResults(text, added, removed) {
  const kept = recordsOf(text).filter((_, at) => !removed.includes(at)).map(it => it.endsWith('\n') ? it : `${it}\n`);
  return kept.join('') + added.map(it => `${[it.name, it.verdict, it.source].map(field).join(',')}\n`).join('');
}

/**
 * A report, line by line; a status that is no answer is an error with the program's note.
 * @param {Ask} ask
 * @param {string[]} words
 * @param {string} text
 */
async function lines(ask, words, text) {
  const { status, report, note } = await ask(words, text);
  if (status > 1) throw new Error(note.trim());
  return report.trimEnd().split('\n');
}

/**
 * The labels that `label` prints, and what it prints of clashes.
 * @param {string[]} report
 */
function labelsIn(report) {
  const first = report.findIndex(it => /^(strong )?clash$/.test(it)), all = first < 0 ? report : report.slice(0, first);
  const labels = new Map(all.map(it => it.split(' ')).filter(it => it.length === 2).map(([name, label]) => [name, label]));
  return { labels, clashes: first < 0 ? [] : report.slice(first, -1) };
}

/**
 * The lists that `frontier` prints.
 * @param {string[]} report
 */
function listsIn(report) {
  /** @type {Map<string, string[]>} */
  const lists = new Map();
  /** @type {string[]} */
  let those = [];
  for (const line of report) {
    const head = line.match(/^((?:max|min)imal \w+) \d+$/);
    if (head) lists.set(head[1], those = []);
    else if (!line.includes('|') || line.includes(' ')) break;
    else those.push(line);
  }
  return lists;
}

/**
 * What changes if results are added to a file, or taken out of it. It rejects where the file has a fault, with what the program says of it.
 * @param {string} text a results file
 * @param {Result[]} added
 * @param {number[]} [removed] numbers of records
 * @param {Ask} [ask] the engine
 * @returns {Promise<Effect>}
 */
export async function whatIf(text, added, removed = [], ask = run) {
  const other = changedResults(text, added, removed);
  const before = labelsIn(await lines(ask, ['label'], text)), after = labelsIn(await lines(ask, ['label'], other));
  const old = listsIn(await lines(ask, ['frontier'], text)), made = listsIn(await lines(ask, ['frontier'], other));
  const labels = Array.from(before.labels, ([name, label]) => ({ name, before: label, after: after.labels.get(name) || '' }));
  const frontier = Object.fromEntries(Array.from(old, ([list, those]) => {
    const now = made.get(list) || [], [was, is] = [new Set(those), new Set(now)];
    return [list, { come: now.filter(it => !was.has(it)), gone: those.filter(it => !is.has(it)) }];
  }));
  return { labels: labels.filter(it => it.before !== it.after), clashes: after.clashes, frontier };
}

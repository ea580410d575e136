// What the program says of a plan, as sentences.
import { inText } from './schedule.js';
import { momentText } from './clock.js';

/** @typedef {import('./app.js').App} App */
/** @typedef {import('./verdicts.js').Verdict} Verdict */

/**
 * A condition between jobs or operations that is broken.
 * @param {Verdict} verdict
 * @param {App} app
 */
function jobsText({ kind, words }, app) {
  const { words: table, built } = app, name = (/** @type {import('./instance.js').Job | undefined} */ it) => it ? app.jobName(it.row.id) : words[0];
  if (kind === 'arc') {
    const [before, after] = built.arcs[Number(words[0]) - 1] || [0, 0];
    return table.say('break arc', name(built.jobs[before]), name(built.jobs[after]));
  }
  const alone = kind === 'work' && '1PQR'.includes(built.name[0]);
  return table.say(`break ${kind}${alone ? '1' : ''}`, name(built.jobs.find(it => it.name === words[0])), words[1]);
}

/**
 * The first condition that a plan breaks, with its jobs.
 * @param {Verdict} verdict
 * @param {App} app
 * @returns {string}
 */
export function brokenText(verdict, app) {
  const { kind, words } = verdict, pieces = inText(app.state.plan ? app.state.plan.pieces : [], app.built), { words: table } = app;
  if (['arc', 'route', 'work'].includes(kind)) return jobsText(verdict, app);
  const piece = pieces[Number(words[0]) - 1], other = pieces[Number(words[1]) - 1];
  if (!piece) return `${kind} ${words.join(' ')}`;
  const name = app.jobName(piece.row), machine = app.machineName(piece.machine);
  if (kind === 'machine') return table.say('break machine', name, other ? app.jobName(other.row) : '?', machine);
  if (kind === 'release') return table.say('break release', name, momentText(piece.from, app.clock, table.german));
  return table.say(`break ${kind}`, name, machine);
}

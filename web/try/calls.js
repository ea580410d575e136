// The commands of the program, its statuses, and what comes after a report: what the page knows of calls.

/**
 * A command, as the table of README.md has it.
 * @typedef {object} Command
 * @property {string} name
 * @property {string} hint the words and the input that it takes
 * @property {boolean} reads whether it reads an input
 */

/** @type {Command[]} */
export const COMMANDS = [
  {name: 'solve', hint: 'No words, or --at and the name of a class; the input is an instance.', reads: true},
  {name: 'certify', hint: 'No words; the input is an instance of one of eight classes.', reads: true},
  {name: 'check', hint: 'No words; the input is an instance, and a schedule behind it.', reads: true},
  {name: 'accept', hint: 'No words; the input is an instance, and a certificate behind it.', reads: true},
  {name: 'label', hint: 'Names of classes, or no words for all; the input has known results.', reads: true},
  {name: 'frontier', hint: 'No words; the input has known results.', reads: true},
  {name: 'why', hint: 'The name of a class; the input has known results.', reads: true},
  {name: 'trial', hint: 'The name of a class, how many jobs, and a seed; no input is read.', reads: false},
  {name: 'rows', hint: 'No words; no input is read.', reads: false},
];

/** What each status means, as README.md has it. */
export const STATUSES = [
  'the report was written',
  'the report was written, and it says no: the known results clash, the schedule is not feasible or its cost not the stated one, '
    + 'or the certificate is not accepted',
  'the words fit no command, a name is misspelled, or a number is out of its range',
  'the input has a fault',
  'the input is beyond a limit of texts or of the solver',
  'no solver for the class; for `check`, preemption on unrelated machines; for `certify`, a class without certificates',
  'the named class has no solver, or no chain leads to it',
  'the input could not be read',
  'the report could not be written',
  'memory ran out',
];

/**
 * The words of a line, as a shell has them: between blanks, or in quotes.
 * @param {string} line
 * @returns {string[]}
 */
export function wordsOf(line) {
  const words = line.match(/(?:[^\s'"]|'[^']*'|"[^"]*"|['"])+/g) || [];
  return words.map(it => it.replace(/'([^']*)'|"([^"]*)"/g, (_, single, double) => single === undefined ? double : single));
}

/**
 * Words as one line, from which wordsOf reads them.
 * @param {string[]} words
 * @returns {string}
 */
export function lineOf(words) {
  return words.map(it => it === '' || /[\s'"]/.test(it) ? `'${it.replace(/'/g, `'"'"'`)}'` : it).join(' ');
}

/**
 * What can be asked of a report: its schedule can be checked, its certificate accepted. Null where there is nothing to ask.
 * @param {string} command
 * @param {string} input
 * @param {string} report
 * @returns {{title: string, command: string, input: string} | null}
 */
export function followed(command, input, report) {
  const [head, next, title] = command === 'solve' ? ['schedule', 'check', 'Check this schedule']
    : ['certificate', 'accept', 'Accept this certificate'];
  const at = `\n${report}`.indexOf(`\n${head}\n`);
  if (at < 0 || command !== 'solve' && command !== 'certify') return null;
  return {title, command: next, input: input.replace(/\n*$/, '\n') + report.slice(at)};
}

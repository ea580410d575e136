// The page that calls the program: an example or a text of one's own, a command, its report.
import {byId, element, fill} from '../elements.js';
import {prepare, run, runBytes} from '../engine.js';
import {COMMANDS, STATUSES, followed, lineOf, wordsOf} from './calls.js';

/** @typedef {{group: string, name: string, words: string[], text: string | null}} Example */

/** @type {{calls: Example[], texts: Object<string, string>}} */
const EXAMPLES = JSON.parse(byId('examples', HTMLScriptElement).textContent || '');
const SAVED = 'report.txt';
const NARROW = matchMedia('(max-width: 760px)');

const form = byId('call', HTMLFormElement);
const example = byId('example', HTMLSelectElement);
const command = byId('command', HTMLSelectElement);
const words = byId('words', HTMLInputElement);
const input = byId('input', HTMLTextAreaElement);
const file = byId('file', HTMLInputElement);
const stop = byId('stop', HTMLButtonElement);
const report = byId('report', HTMLPreElement);
const copy = byId('copy', HTMLButtonElement);
const save = byId('save', HTMLButtonElement);
const follow = byId('follow', HTMLButtonElement);
const note = byId('note', HTMLParagraphElement);
const status = byId('status', HTMLParagraphElement);

/** @type {AbortController | null} */
let running = null;

/**
 * Shows what was written, or why nothing was.
 * @param {{report: string, note: string, said: string, bad: boolean}} what
 */
function show(what) {
  report.textContent = what.report;
  note.textContent = what.note;
  note.classList.toggle('bad', what.bad);
  status.textContent = what.said;
  copy.disabled = save.disabled = what.report === '';
  follow.hidden = true;
  if (NARROW.matches) status.scrollIntoView({block: 'nearest'});
}

/** @param {string} why */
function refuse(why) {
  show({report: '', note: why, said: 'There is no answer.', bad: true});
}

/**
 * @param {import('./calls.js').Command['name']} name
 * @param {string} text
 */
function offer(name, text) {
  const next = followed(name, text, report.textContent || '');
  if (!next) return;
  follow.textContent = next.title;
  follow.hidden = false;
  follow.onclick = () => {
    take([next.command], next.input);
    ownText();
    call();
    report.focus();
  };
}

/**
 * Whether the call is the one that was made last; then it runs no more.
 * @param {AbortController} control
 */
function ended(control) {
  if (running !== control) return false;
  running = null;
  stop.disabled = true;
  return true;
}

/** Runs the call that stands in the form; one that runs is ended. */
async function call() {
  if (running) running.abort();
  const control = new AbortController(), began = performance.now(), name = command.value, text = input.value;
  running = control;
  stop.disabled = false;
  status.textContent = 'The program runs.';
  try {
    const given = await run([name, ...wordsOf(words.value)], text, {signal: control.signal});
    if (!ended(control)) return;
    const took = performance.now() - began;
    const said = `Status ${given.status}: ${STATUSES[given.status]}. It took ${took.toFixed(took < 10 ? 1 : 0)} ms.`;
    show({report: given.report, note: given.note, said, bad: given.status > 0});
    offer(name, text);
  } catch (fault) {
    if (ended(control)) refuse(control.signal.aborted ? 'The call was stopped.' : `The call ended without an answer: ${fault}`);
  }
}

/** Says what the chosen command takes. */
function hint() {
  const chosen = COMMANDS.find(it => it.name === command.value);
  byId('hint', HTMLParagraphElement).textContent = chosen ? chosen.hint : '';
}

/**
 * Puts a call into the form.
 * @param {string[]} wanted
 * @param {string} text
 */
function take(wanted, text) {
  command.value = wanted[0];
  words.value = lineOf(wanted.slice(1));
  input.value = text;
  hint();
}

/** The input is no longer that of the example. */
function ownText() {
  example.value = '';
  history.replaceState(null, '', location.pathname + location.search);
}

/**
 * Puts an example into the form, and its name behind the address.
 * @param {Example} chosen
 */
function choose(chosen) {
  example.value = chosen.name;
  take(chosen.words, chosen.text === null ? '' : EXAMPLES.texts[chosen.text]);
  history.replaceState(null, '', `#${chosen.name}`);
}

/** @param {File} chosen */
async function open(chosen) {
  try {
    input.value = new TextDecoder('utf-8', {fatal: true}).decode(await chosen.arrayBuffer());
    ownText();
    show({report: '', note: '', said: `${chosen.name} was opened.`, bad: false});
  } catch (fault) {
    refuse(fault instanceof TypeError ? `${chosen.name} is no text in UTF-8.` : `${chosen.name} cannot be read: ${fault}`);
  }
}

/** The report as a file, or in the clipboard. */
function keep() {
  save.onclick = () => {
    const address = URL.createObjectURL(new Blob([report.textContent || ''], {type: 'text/plain'}));
    element('a', {href: address, download: SAVED}).click();
    setTimeout(() => URL.revokeObjectURL(address), 1000);
  };
  copy.onclick = async () => {
    try {
      await navigator.clipboard.writeText(report.textContent || '');
      status.textContent = 'The report was copied.';
    } catch (fault) {
      status.textContent = 'The browser does not let this page copy: mark the report, and copy it by hand.';
    }
  };
}

/**
 * An example in the list: its name, and the class of its instance.
 * @param {Example} it
 */
function optionOf(it) {
  const kind = it.text === null ? null : EXAMPLES.texts[it.text].match(/^class (.*)$/m);
  return element('option', {value: it.name}, kind ? `${it.name}: ${kind[1]}` : it.name);
}

/** Fills the lists. */
function lists() {
  const groups = [...new Set(EXAMPLES.calls.map(it => it.group))];
  const own = element('option', {value: '', hidden: ''}, 'a text of your own');
  fill(example, own, ...groups.map(group => element('optgroup', {label: group}, ...EXAMPLES.calls.filter(it => it.group === group).map(optionOf))));
  fill(command, ...COMMANDS.map(it => element('option', {value: it.name}, it.name)));
}

/** What is done by hand. */
function listen() {
  form.addEventListener('submit', event => {
    event.preventDefault();
    call();
  });
  form.addEventListener('keydown', event => {
    if (event.key !== 'Enter' || !(event.ctrlKey || event.metaKey)) return;
    event.preventDefault();
    call();
  });
  document.addEventListener('keydown', event => {
    if (event.key === 'Escape' && running) running.abort();
  });
  stop.addEventListener('click', () => running && running.abort());
  example.addEventListener('change', () => EXAMPLES.calls.filter(it => it.name === example.value).forEach(choose));
  command.addEventListener('change', hint);
  input.addEventListener('input', ownText);
  file.addEventListener('change', () => {
    if (file.files && file.files[0]) open(file.files[0]);
    file.value = '';
  });
  window.addEventListener('dragover', event => event.preventDefault());
  window.addEventListener('drop', event => {
    if (!event.dataTransfer || !event.dataTransfer.files[0]) return;
    event.preventDefault();
    open(event.dataTransfer.files[0]);
  });
}

lists();
listen();
keep();
const named = decodeURIComponent(location.hash.slice(1));
choose(EXAMPLES.calls.find(it => it.name === named) || /** @type {Example} */ (EXAMPLES.calls.find(it => it.name === 'weighted-sum')));
prepare().catch(fault => refuse(`The program cannot be started: ${fault instanceof Error ? fault.message : fault}`));
// (for the console of the browser, and for tests)
Object.assign(globalThis, {msp: {run, runBytes}});

// The view of a text that asks for no single class: what was understood, what not, what is near, and all hits.
import { manyMachines } from '../classes.js';
import { element } from '../elements.js';
import { ITEMS, nameOf, NAMES, partsOf, rankOf } from '../names.js';
import { allowed, asked, near, read } from '../reading.js';
import { entriesOf } from '../results.js';
import { behindIn, noteIn } from './german.js';
import { classList } from './lists.js';
import { badge, classLink, speedsRemark, told } from './parts.js';

/** @typedef {import('./parts.js').View} View */
/** @typedef {import('../reading.js').Reading} Reading */

/**
 * What a text asks for: a class, entries of the results, or all that its reading allows.
 * @typedef {{reading: Reading, at: number, entries: number[], found: number[]}} Answer
 */

/**
 * What a text asks for.
 * @param {View} view
 * @param {string} text
 * @returns {Answer}
 */
export function answer(view, text) {
  const reading = read(text), entries = entriesOf(view.atlas.data, text), { labels } = told(view);
  if (entries.length) return { reading, at: -1, entries, found: [] };
  const wanted = Object.keys(reading.wanted).length + reading.labels.length, at = asked(reading);
  const found = reading.unknown.length || !wanted ? [] : allowed(reading.wanted).filter(it => !reading.labels.length
    || reading.labels.includes(labels[it]));
  return { reading, at, entries, found };
}

/**
 * What was not understood, word by word.
 * @param {View} view
 * @param {Reading} reading
 * @returns {string[]}
 */
export function notUnderstood({ words }, reading) {
  return reading.unknown.map(({ word, note }) => `${words.say('notUnderstood', word)}${note ? ` ${noteIn(words, note)}` : ''}`);
}

/**
 * What is known for a fixed number of machines that has no name, or for each fixed number.
 * @param {View} view
 * @param {Reading} reading
 * @param {import('../reading.js').Fixed} fixed
 * @param {number} at a class of the name with any machines
 */
function fixedPart(view, reading, fixed, at) {
  const { words } = view, { labels } = told(view), parts = partsOf(at), { kind, machines } = fixed;
  const { verdict, by } = manyMachines(labels, parts, kind);
  const wide = rankOf(nameOf({ ...parts, environment: kind })), rest = NAMES[at].slice(NAMES[at].indexOf('|'));
  const named = (reading.wanted.environment || []).filter(it => it !== kind).map(environment => rankOf(nameOf({ ...parts, environment })));
  const most = Math.max(...named.map(it => Number(partsOf(it).environment.slice(1))));
  const those = machines === null ? words.say('fixedAbove', most) : `${kind}${machines}${rest}`;
  const line = element('p', { class: 'verdict' }, `${those}: `, verdict === 'unknown' ? element('b', {}, words.say('unknownHere'))
    : badge(view, verdict), '. ');
  if (verdict === 'easy') line.append(...words.parts('fixedEasy', classLink(view, by)));
  else if (by >= 0) line.append(...words.parts('fixedHard', classLink(view, by)));
  else line.append(words.say('fixedNameless'), ' ', machines === null ? '' : words.say('itsNeighbours'));
  const on = (/** @type {number} */ it) => most > 1 ? words.parts('machinesAre', partsOf(it).environment.slice(1), classLink(view, it))
    : words.parts('someMachines', classLink(view, it));
  const list = element('ul', { class: 'plain' }, ...named.map(it => element('li', {}, ...on(it))),
    element('li', {}, ...words.parts('machinesGiven', classLink(view, wide))));
  return element('div', { class: 'fixed' }, line, list, ...speedsRemark(view, wide));
}

/**
 * What is known for a fixed number of machines, with each kind of precedence that a text allows; what it does not say is absent.
 * @param {View} view
 * @param {Reading} reading
 * @param {import('../reading.js').Fixed} fixed
 * @returns {Node[]}
 */
function fixedParts(view, reading, fixed) {
  const absent = Object.fromEntries(Object.keys(ITEMS).map(it => [it, ['']])), seen = new Set(), found = [];
  for (const at of allowed({ ...absent, ...reading.wanted }).filter(it => partsOf(it).environment[0] === fixed.kind)) {
    const rest = NAMES[at].slice(NAMES[at].indexOf('|'));
    if (!seen.has(rest)) found.push(fixedPart(view, reading, fixed, at));
    seen.add(rest);
  }
  return found;
}

/**
 * What is said of a text that was understood: a fixed number of machines, how many classes it allows.
 * @param {View} view
 * @param {Reading} reading
 * @param {number} many
 * @returns {Node[]}
 */
function understood(view, reading, many) {
  const { fixed, wanted } = reading, { words } = view;
  if (fixed && wanted.environment && wanted.criterion) return fixedParts(view, reading, fixed);
  if (fixed && fixed.machines !== null) return [element('p', {}, words.say('fixedBeside', `${fixed.kind}${fixed.machines}`))];
  if (!many) return [element('p', {}, words.say('noClass'))];
  return many > 1 ? [element('p', {}, words.say('standsFor', words.count(many, 'class')))] : [];
}

/**
 * The entries that a text finds, with their sources.
 * @param {View} view
 * @param {string} text
 * @param {number[]} entries
 */
function entryList(view, text, entries) {
  const { words, atlas: { data } } = view;
  return element('section', {}, element('h2', { tabindex: '-1' }, words.say('entriesOf', text, words.count(entries.length, 'entry'))),
    element('ul', { class: 'plain' }, ...entries.map(it => element('li', {}, classLink(view, data.entries[it][0]),
      ` ${words.say(`listed ${data.entries[it][1]}`)}: `, element('span', { class: 'step' }, behindIn(words, data.entries[it][2]))))));
}

/**
 * The view of a text.
 * @param {View} view
 * @param {string} text
 * @returns {Node[]}
 */
export function askedView(view, text) {
  const { words } = view, { reading, entries, found } = answer(view, text), { fixed, unknown } = reading;
  if (entries.length) return [entryList(view, text, entries)];
  const head = element('section', {}, element('h2', { tabindex: '-1' }, element('span', { class: 'name' }, text)),
    ...notUnderstood(view, reading).map(it => element('p', { class: 'warned' }, it)));
  if (unknown.length) {
    const those = near(reading);
    head.append(element('p', {}, `${words.say('noneAsked')} ${words.say(those.length ? 'theseNear' : 'searchTakes')}`));
    return those.length ? [head, classList(view, words.say('nearHead'), those, words.say('nearSays'))] : [head];
  }
  head.append(...understood(view, reading, found.length));
  if (!found.length || fixed && reading.whole) return [head];
  const which = fixed && fixed.machines !== null ? 'beside' : 'all';
  return [head, classList(view, words.say(`${which}Head`), found, words.say(`${which}Says`))];
}

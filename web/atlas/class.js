// The view of one class: its label and why, its solver, its neighbours.
import { element } from '../elements.js';
import { NAMES } from '../names.js';
import { decidedBy, isOwn } from '../results.js';
import { around } from '../picture.js';
import { drawn } from './drawing.js';
import { translated } from './german.js';
import { badge, chainList, classLink, labelled, linkTo, reasons, restsOnOwn, rowText, selected, speedsRemark, told } from './parts.js';

/** @typedef {import('./parts.js').View} View */

/**
 * Where the results clash, the chain that shows it.
 * @param {View} view
 * @returns {Node[]}
 */
export function clashes(view) {
  const { words } = view;
  return view.atlas.data.clashes.map(([kind, start, rows]) => {
    const key = kind === 'clash' ? 'clash' : 'clashStrong';
    return element('section', {}, element('h2', {}, words.say(key)), element('p', {}, words.say(`${key}Says`)), chainList(view, start, rows));
  });
}

/**
 * What is said where a label, or the chain that decides it here, rests on a proof of our own.
 * @param {View} view
 * @param {number} at
 * @returns {string}
 */
export function ownRemark(view, at) {
  const { words, atlas: { all, published, data } } = view;
  if (!published) return '';
  if (view.published) return restsOnOwn(view, at) ? words.say('withOwn', labelled(view, all.labels[at])) : '';
  if (restsOnOwn(view, at)) return words.say('restsOnOwn', labelled(view, published.labels[at]));
  const own = decidedBy(view.atlas, false, at).some(it => isOwn(data, it));
  return own ? words.say('endsAtOwn') : '';
}

/**
 * What has to be said of a label: why it is open, other speeds, the published results alone, the same problem.
 * @param {View} view
 * @param {number} at
 * @returns {Node[]}
 */
function remarks(view, at) {
  const { atlas, words } = view, found = [...openRemark(view, at), ...speedsRemark(view, at)];
  const own = ownRemark(view, at), same = atlas.problem(at).filter(it => it !== at);
  if (own) found.push(element('p', { class: 'warned' }, own));
  if (same.length) {
    const those = element('span', {}, ...same.flatMap((it, place) => [place ? ', ' : '', classLink(view, it)]));
    found.push(element('p', { class: 'quiet' }, ...words.parts('sameProblem', those)));
  }
  return found;
}

/**
 * Why a class is open, where something is known of that.
 * @param {View} view
 * @param {number} at
 * @returns {Node[]}
 */
export function openRemark(view, at) {
  const opened = view.atlas.data.open[at];
  if (!opened || told(view).labels[at] !== 'open') return [];
  const said = opened.map(it => translated(view.words, it)), lang = (/** @type {{known: boolean}} */ it) => it.known ? null : 'en';
  return [element('p', {}, element('b', { lang: lang(said[0]) }, `${said[0].text}. `), element('span', { lang: lang(said[1]) }, said[1].text))];
}

/**
 * The solver of a class, or that there is none.
 * @param {View} view
 * @param {number} at
 * @returns {Node[]}
 */
function solverPart(view, at) {
  const { words, atlas } = view, head = element('h3', {}, words.say('solverHead')), { solvers } = atlas.data, solver = atlas.solver(at);
  if (!solvers) return [head, element('p', {}, words.say('solversUnknown', `'${NAMES[at]}'`))];
  if (!solver) return [head, element('p', {}, words.say('solverNone'))];
  const [name, rows, chain] = solver, how = rows ? `solver ${rows > 1 ? 'n' : '1'} row` : 'solverItself';
  return [head, element('p', {}, ...words.parts(how, element('b', {}, name), String(rows))), ...(rows && chain ? [chainList(view, at, chain)] : [])];
}

/**
 * Rows to or from a class.
 * @param {View} view
 * @param {string} title
 * @param {import('../chains.js').Step[]} steps
 */
function neighbourList(view, title, steps) {
  const lines = steps.map(([row, to]) => element('li', {}, classLink(view, to), ' ', element('span', { class: 'step' }, rowText(view, row))));
  return element('div', {}, element('h3', {}, view.words.say('neighbours', title, steps.length)),
    lines.length ? element('ul', { class: 'plain' }, ...lines) : element('p', { class: 'quiet' }, view.words.say('none')));
}

/**
 * What stands around a class: a picture of the reductions, and its neighbours.
 * @param {View} view
 * @param {number} at
 * @returns {Node[]}
 */
export function aroundView(view, at) {
  const { atlas, words } = view, chains = told(view).chainsOf(at);
  const neighbours = element('section', { class: 'neighbours' }, neighbourList(view, words.say('above'), atlas.above(at)),
    neighbourList(view, words.say('below'), atlas.below(at)));
  const picture = drawn(view, around(atlas, chains.map(([, it]) => it), at), at, words.say('aroundTitle', NAMES[at]));
  return [element('section', {}, element('h3', {}, words.say('aroundHead')), picture), neighbours];
}

/**
 * All that is said of a class.
 * @param {View} view
 * @param {number} at
 * @returns {Node[]}
 */
export function classView(view, at) {
  const { atlas, words } = view, label = told(view).labels[at], chains = told(view).chainsOf(at);
  const box = element('section', {}, element('h2', { tabindex: '-1' }, element('span', { class: 'name' }, NAMES[at]), ' ', badge(view, label)),
    element('p', {}, words.say(`meaning ${label}`)), ...remarks(view, at), ...reasons(view, chains));
  if (chains.length) box.append(element('p', { class: 'quiet' }, words.say('notFirst')));
  else if (label !== 'open') box.append(element('p', { class: 'quiet' }, words.say('chainsOf', atlas.data.asked, `'${NAMES[at]}'`)));
  box.append(...solverPart(view, at), keeper(view, at));
  return [...clashes(view), box];
}

/**
 * A button that takes a class into the selection, or out of it.
 * @param {View} view
 * @param {number} at
 */
function keeper(view, at) {
  const { words } = view, text = words.say(view.selection.includes(at) ? 'unselect' : 'select');
  const line = element('p', {}, element('button', { type: 'button', class: 'act', 'data-select': String(at) }, text));
  if (view.selection.length) line.append(' ', linkTo(view, selected(view), words.say('selectionOf', view.selection.length)));
  return line;
}

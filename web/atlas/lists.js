// Lists of classes: by label, of the frontier, of a search, of the selection; each can be saved as CSV, as a table of LaTeX and as BibTeX.
import { FRONTIER } from '../classes.js';
import { element } from '../elements.js';
import { ENVIRONMENTS, MACHINES, partsOf } from '../names.js';
import { frontier } from '../picture.js';
import { asBibtex, asCsv, asLatex } from '../results.js';
import { drawn } from './drawing.js';
import { address, classLink, dot, labelled, told } from './parts.js';
import { saveButton } from './saving.js';

/** @typedef {import('./parts.js').View} View */

const MOST = 700;

/**
 * Those classes that the filter lets through.
 * @param {View} view
 * @param {number[]} those
 */
function filtered(view, those) { return view.solved ? those.filter(at => view.atlas.solver(at)) : those; }

/**
 * Buttons that show a list as a file.
 * @param {View} view
 * @param {number[]} those
 */
function savers(view, those) {
  const panel = element('div', { class: 'saved' }), { words, atlas, published } = view;
  return element('div', {}, element('p', {}, saveButton(view, words.say('asCsv'), 'classes.csv', () => asCsv(atlas, those), panel), ' ',
    saveButton(view, words.say('asLatex'), 'classes.tex', () => asLatex(atlas, published, those), panel), ' ',
    saveButton(view, words.say('asBibtex'), 'classes.bib', () => asBibtex(atlas, published, those), panel)), panel);
}

/**
 * A list of classes, those of one problem in one line.
 * @param {View} view
 * @param {string} title
 * @param {number[]} all
 * @param {string} text
 */
export function classList(view, title, all, text) {
  const those = filtered(view, all), inside = new Set(those), done = new Set(), lines = [];
  for (const at of those) {
    if (done.has(at)) continue;
    const line = element('li', {});
    view.atlas.problem(at).filter(it => inside.has(it)).forEach((it, place) => {
      done.add(it);
      line.append(place ? ' = ' : '', classLink(view, it));
    });
    lines.push(line);
  }
  const { words } = view, left = all.length - those.length, veiled = left ? ` ${words.say('unsolvedLeft', words.count(left, 'class'))}` : '';
  const head = words.say('listHead', title, words.count(those.length, 'class'), words.count(lines.length, 'problem'));
  return element('section', {}, element('h2', { tabindex: '-1' }, head),
    element('p', { class: 'quiet' }, `${text} ${words.say('together')}${veiled}`),
    savers(view, those), element('ul', { class: 'columns' }, ...lines));
}

/**
 * Links to places of a kind, the one that is shown marked.
 * @param {View} view
 * @param {string} kind
 * @param {[string, (Node | string)[]][]} places
 * @param {string} here
 */
function tabs(view, kind, places, here) {
  const links = places.map(([place, children]) => element('a', { class: 'text', href: address(view, `${kind}=${place}`),
    'aria-current': place === here ? 'page' : null }, ...children));
  return element('nav', { class: 'legend box', 'aria-label': view.words.say(`tabs ${kind}`) }, ...links);
}

/**
 * What is said of a place that is none.
 * @param {View} view
 * @param {string} text
 */
function nothing(view, text) {
  return element('section', {}, element('h2', { tabindex: '-1' }, text), element('p', {}, view.words.say('theseThere')));
}

/**
 * The picture of the frontier on some machines.
 * @param {View} view
 * @param {number} machines a place in MACHINES
 * @param {string} name
 */
function frontierPicture(view, machines, name) {
  const picture = frontier(view.atlas, told(view).labels, machines), title = view.words.say('frontierOn', name);
  return element('section', {}, element('h2', { tabindex: '-1' }, title),
    element('p', { class: 'quiet' }, view.words.say('frontierSays', name)),
    drawn(view, picture, -1, title), savers(view, picture.boxes.map(it => it.at)));
}

/**
 * The lists of the frontier, and its picture on some machines.
 * @param {View} view
 * @param {string} place
 * @returns {Node[]}
 */
export function frontierView(view, place) {
  const lists = told(view).frontier, names = MACHINES.map(it => [it.environment, it.short].filter(Boolean).join(' '));
  const here = place || FRONTIER[2], said = (/** @type {string} */ it) => view.words.say(`list ${it}`);
  const both = [tabs(view, 'frontier', FRONTIER.map(it => [it, [`${said(it)} (${(lists[it] || []).length})`]]), here),
    tabs(view, 'frontier', names.map(it => [it, [it]]), here)];
  if (names.includes(here)) return [...both, frontierPicture(view, names.indexOf(here), here)];
  if (!FRONTIER.includes(here)) return [nothing(view, view.words.say('noFrontier', here)), ...both];
  return [...both, classList(view, said(here)[0].toUpperCase() + said(here).slice(1), lists[here] || [], view.words.say(`says ${here}`))];
}

/**
 * The classes with a label; long lists by their machines.
 * @param {View} view
 * @param {string} place
 * @returns {Node[]}
 */
export function labelView(view, place) {
  const { words } = view, { labels } = told(view), [label, among] = (place || 'open').split(','), known = view.atlas.data.label_names;
  const those = filtered(view, labels.flatMap((it, at) => it === label ? [at] : []));
  /** @type {(environment: string) => number[]} */
  const on = environment => environment === 'all' ? those : those.filter(at => partsOf(at).environment === environment);
  const environments = ['all', ...ENVIRONMENTS].filter(it => it === 'all' ? those.length <= MOST : on(it).length);
  const here = among || environments[0] || 'all', there = known.filter(it => labels.includes(it));
  const names = tabs(view, 'lists', there.map(it => [it, [dot(view, it), labelled(view, it)]]), label);
  if (!known.includes(label)) return [nothing(view, words.say('noLabel', label)), names];
  const tab = (/** @type {string} */ it) => `${it === 'all' ? words.say('all') : it} (${on(it).length})`;
  const machines = tabs(view, 'lists', environments.map(it => [`${label},${it}`, [tab(it)]]), `${label},${here}`);
  if (here !== 'all' && !ENVIRONMENTS.includes(here)) return [nothing(view, words.say('noMachines', here)), names, machines];
  const head = here === 'all' ? words.say('labelHead', labelled(view, label)) : words.say('labelHeadOn', labelled(view, label), here);
  return [names, machines, classList(view, head, on(here), words.say(`meaning ${label}`))];
}

/**
 * The classes that were selected.
 * @param {View} view
 * @param {string[]} wrong what an address has among them that is no class
 * @returns {Node[]}
 */
export function selectionView(view, wrong) {
  const { words } = view, box = classList(view, words.say('selection'), view.selection, words.say('selectionSays'));
  if (wrong.length) box.append(element('p', { class: 'warned' }, words.say('leftOutOf', wrong.join('; '))));
  box.append(element('p', {}, element('button', { type: 'button', class: 'act', 'data-select': 'none' }, words.say('selectNone'))));
  return [box];
}

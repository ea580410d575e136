// The parts of a class to pick, and the tables of all classes that differ in two of them.
import { element } from '../elements.js';
import { changed, CRITERIA, ENVIRONMENTS, ITEMS, MACHINES, nameOf, NAMES, PARTS, partsOf, rankOf, VALUES } from '../names.js';
import { address, dot, labelled, letter, linkTo, named, told } from './parts.js';

/** @typedef {import('./parts.js').View} View */
/** @typedef {import('../names.js').Parts} Parts */

/**
 * What is said of a class in a cell to those who do not see its colour.
 * @param {View} view
 * @param {number} at
 */
function said(view, at) {
  const text = `${NAMES[at]} ${labelled(view, told(view).labels[at])}`;
  return view.atlas.solver(at) ? view.words.say('withSolver', text) : text;
}

/**
 * The class of styles of a cell or a button: the label, a mark for a solver, and a veil where the filter leaves it out.
 * @param {View} view
 * @param {number} at
 */
function look(view, at) {
  const solver = view.atlas.solver(at);
  return `${told(view).labels[at]}${solver ? ' solved' : view.solved ? ' veiled' : ''}`;
}

/**
 * A form of links: each leads to the class that differs in one part.
 * @param {View} view
 * @param {number} at
 */
export function picker(view, at) {
  const { words } = view, parts = partsOf(at), title = words.say('pickParts');
  const box = element('section', { 'aria-label': title }, element('h3', {}, title));
  for (const part of PARTS) {
    if (part === 'short' && parts.environment[0] !== 'J') continue;
    const links = VALUES[part].map(word => {
      const to = changed(parts, part, word), here = parts[part] === word ? 'true' : null;
      return element('a', { class: `pick ${look(view, to)}`, href: address(view, NAMES[to]), title: said(view, to), 'aria-current': here },
        word || words.say(`absent ${part}`), ' ', element('b', {}, letter(view, told(view).labels[to])));
    });
    box.append(element('div', { class: 'row' }, element('span', {}, words.say(`pick ${part}`)), element('div', {}, ...links)));
  }
  box.append(element('p', { class: 'quiet' }, words.say('pickSays')));
  return box;
}

/**
 * A cell of a table.
 * @param {View} view
 * @param {number} to
 * @param {number} at the class that is shown
 */
function cell(view, to, at) {
  if (to < 0) return element('td', {});
  return element('td', {}, element('a', { class: `cell ${look(view, to)}`, href: address(view, NAMES[to]), title: said(view, to),
    'aria-label': said(view, to),
    'aria-current': to === at ? 'true' : null }, letter(view, told(view).labels[to])));
}

/**
 * The head of a row or a column.
 * @param {string} scope
 * @param {string} text
 */
function head(scope, text) { return element('th', { scope }, element('span', {}, text)); }

/**
 * All machines and criteria, with the items of a class.
 * @param {View} view
 * @param {number} at
 */
function machineTable(view, at) {
  const parts = partsOf(at);
  const rows = MACHINES.map(({ environment, short }) => element('tr', {}, head('row', `${environment}${short ? ` ${short}` : ''}`),
    ...CRITERIA.map(criterion => cell(view, rankOf(nameOf({ ...parts, environment, short, criterion })), at))));
  return element('table', {}, element('thead', {}, element('tr', {}, element('td', {}), ...CRITERIA.map(it => head('col', it)))), element('tbody',
    {}, ...rows));
}

/**
 * All items with the machines and the criterion of a class, for some times.
 * @param {View} view
 * @param {number} at
 * @param {string} times
 */
function itemTable(view, at, times) {
  const { words } = view, parts = partsOf(at), orders = [words.say('absent order'), 'ch', 'in', 'out', 'prec'];
  const named = (/** @type {string} */ cut, /** @type {string} */ release) => [cut || words.say('word uncut'), release].filter(Boolean).join(', ');
  const rows = ITEMS.cut.flatMap(cut => ITEMS.release.map(release => element('tr', {}, head('row', named(cut, release)),
    ...ITEMS.order.map(order => cell(view, rankOf(nameOf({ ...parts, cut, release, times, order })), at)))));
  return element('table', { class: 'small' }, element('caption', {}, words.say('tableTimes', times || words.say('absent times'))),
    element('thead', {}, element('tr', {}, element('td', {}), ...orders.map(it => head('col', it)))), element('tbody', {}, ...rows));
}

/**
 * The tables beside a class.
 * @param {View} view
 * @param {number} at
 */
export function maps(view, at) {
  const { words } = view, parts = partsOf(at), counts = told(view).counts();
  const items = [parts.cut, parts.order, parts.release, parts.times].filter(Boolean).join(',') || words.say('noItems');
  const machines = `${parts.environment}${parts.short ? ` ${parts.short}` : ''}`;
  return element('section', { 'aria-label': words.say('tables') }, element('h3', {}, ...words.parts('tableMachines', named(items))),
    machineTable(view, at),
    element('h3', {}, ...words.parts('tableItems', named(machines), named(parts.criterion))),
    element('div', { class: 'three' }, ...ITEMS.times.map(it => itemTable(view, at, it))),
    element('p', { class: 'legend' }, ...view.atlas.data.label_names.filter(it => counts[it]).map(it => linkTo(view, `lists=${it}`, dot(view, it),
      `${labelled(view, it)} ${words.number(counts[it])}`))),
    element('p', { class: 'legend' }, ...ENVIRONMENTS.map(it => linkTo(view, `frontier=${it}`, it)),
      element('span', { class: 'quiet' }, words.say('onThese'))));
}

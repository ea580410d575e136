// Pieces of the atlas that several of its views show: links to classes with their labels, chains, entries.
import { KINDS, leadsToEntry } from '../chains.js';
import { withAnySpeeds } from '../classes.js';
import { element } from '../elements.js';
import { NAMES } from '../names.js';
import { isOwn, keysOf, sourceOf } from '../results.js';
import { behindIn, sourceIn } from './german.js';

/** @typedef {import('../classes.js').Atlas} Atlas */
/** @typedef {import('../chains.js').Chain} Chain */
/** @typedef {import('../chains.js').Kind} Kind */
/**
 * What the views show: the table, the switches of the page, and its words.
 * @typedef {Object} View
 * @property {Atlas} atlas
 * @property {boolean} published whether the published results alone are told
 * @property {boolean} solved whether classes with a solver alone are listed
 * @property {number} current the class that was looked at last
 * @property {number[]} selection
 * @property {string} prefix with which the addresses of its places begin
 * @property {import('../words.js').Words} words
 */

/**
 * What is known under the switch between all results and the published ones.
 * @param {View} view
 */
export function told(view) { return view.published && view.atlas.published || view.atlas.all; }

/**
 * The address of a place in the page, with the switches.
 * @param {View} view
 * @param {string} place
 */
export function address(view, place) {
  return `#${view.prefix}${encodeURIComponent(place)}${view.published ? '&published' : ''}${view.solved ? '&solved' : ''}`;
}

/**
 * The place of a selection, which a link to it keeps.
 * @param {View} view
 */
export function selected(view) { return `selection=${view.selection.map(it => NAMES[it]).join(';')}`; }

/**
 * A link to a place in the page.
 * @param {View} view
 * @param {string} place
 * @param {...(Node | string)} children
 */
export function linkTo(view, place, ...children) { return element('a', { class: 'text', href: address(view, place) }, ...children); }

/**
 * @param {View} view
 * @param {string} label
 */
export function labelled({ words }, label) { return words.say(`label ${label}`); }

/**
 * @param {View} view
 * @param {string} label
 */
export function letter({ words }, label) { return words.say(`letter ${label}`); }

/**
 * @param {View} view
 * @param {string} label
 */
export function dot(view, label) {
  return element('span', { class: `dot ${label}`, 'aria-label': labelled(view, label), role: 'img' }, letter(view, label));
}

/**
 * @param {View} view
 * @param {string} label
 */
export function badge(view, label) {
  return element('span', { class: `badge ${label}`, title: view.words.say(`meaning ${label}`) }, labelled(view, label));
}

/**
 * A name of a class as text.
 * @param {string} text
 */
export function named(text) { return element('span', { class: 'name' }, text); }

/**
 * Whether the published results alone say less of a class.
 * @param {View} view
 * @param {number} at
 */
export function restsOnOwn(view, at) {
  const { all, published } = view.atlas;
  return published !== null && all.labels[at] !== published.labels[at];
}

/**
 * The marks of a class: a solver, and a label that rests on a proof of our own.
 * @param {View} view
 * @param {number} at
 * @returns {Node[]}
 */
export function marks(view, at) {
  const { words } = view;
  const found = view.atlas.solver(at) ? [element('span', { class: 'mark', title: words.say('solverMark') }, words.say('solver'))] : [];
  return !view.published && restsOnOwn(view, at)
    ? found.concat(element('span', { class: 'mark own', title: words.say('ownMark') }, words.say('ownProof'))) : found;
}

/**
 * A link to a class, with its label and its marks.
 * @param {View} view
 * @param {number} at
 */
export function classLink(view, at) {
  return element('span', { class: 'class' }, element('a', { href: address(view, NAMES[at]) }, dot(view, told(view).labels[at]), NAMES[at]),
    ...marks(view, at));
}

/**
 * What is said of unit times on uniform machines where the class of the books, with any speeds, has another label; nothing elsewhere.
 * @param {View} view
 * @param {number} at
 * @returns {Node[]}
 */
export function speedsRemark(view, at) {
  const { labels } = told(view), fast = withAnySpeeds(labels, at);
  if (fast < 0) return [];
  return [element('p', { class: 'warned' }, ...view.words.parts('speeds', classLink(view, fast), labelled(view, labels[fast])))];
}

/**
 * A row by its number and its text.
 * @param {View} view
 * @param {number} row
 */
export function rowText(view, row) {
  const { words, atlas } = view, said = atlas.data.rows[row], [, from, to, way] = said.match(/^(.*) to (.*?)(?: by (\w+))?$/) || [];
  const word = (/** @type {string} */ it) => words.has(`word ${it}`) ? words.say(`word ${it}`) : it;
  if (!from) return words.say('row', row, said);
  const text = way ? words.say('rowBy', word(from), word(to), words.say(`by ${way}`)) : words.say('rowText', word(from), word(to));
  return words.say('row', row, text);
}

/**
 * A chain as a list, from the easiest class to the hardest.
 * @param {View} view
 * @param {number} start
 * @param {import('../chains.js').Step[]} rows
 */
export function chainList(view, start, rows) {
  return element('ol', { class: 'chain' }, element('li', {}, classLink(view, start)),
    ...rows.map(([row, to]) => element('li', {}, element('span', { class: 'step' }, `${rowText(view, row)} \u2192 `), classLink(view, to))));
}

/**
 * A reference as text with a link to its DOI, and as BibTeX to unfold.
 * @param {View} view
 * @param {string} key
 * @param {string} decides
 * @returns {Node[]}
 */
export function reference(view, key, decides) {
  const [text, bibtex] = view.atlas.data.texts[key], [said, doi] = text.split(/, doi:(\S+)/);
  const rest = doi ? text.slice(said.length + doi.length + ', doi:'.length) : '';
  const line = element('p', { class: 'reference', lang: 'en' }, said);
  if (doi) line.append(', ', element('a', { class: 'text', href: `https://doi.org/${doi}`, rel: 'noreferrer' }, `doi:${doi}`), rest);
  return [line, element('details', {}, element('summary', {}, 'BibTeX'), element('pre', { lang: 'en' }, `${decides}\n${bibtex}`))];
}

/**
 * What is known of the time of the rule, or of the problem from which an entry was reduced; empty where nothing is sure.
 * @param {View} view
 * @param {number} record
 * @returns {Node[]}
 */
function factLines(view, record) {
  const [time, from, said] = (view.atlas.data.facts || {})[record] || ['', '', ''], lines = [], { words } = view;
  const source = said.endsWith('.md') ? words.say('ourProof') : sourceIn(words, said), behind = source ? ` (${source})` : '';
  if (time) lines.push(element('p', { class: 'reference' }, words.say('factTime', time, behind)));
  if (from) lines.push(element('p', { class: 'reference' }, words.say('factFrom', from, behind)));
  return lines;
}

/**
 * The source of an entry, as a link to all that it decides.
 * @param {View} view
 * @param {number} record
 * @returns {(Node | string)[]}
 */
export function sourceLink(view, record) {
  const source = view.atlas.data.entries[record][2], said = sourceOf(source), { words } = view;
  if (!said) return [words.say('noSource')];
  return [linkTo(view, said, sourceIn(words, said)), behindIn(words, source.slice(source.indexOf(said) + said.length))];
}

/**
 * What is to be read of an entry: its references, what is known of it, and its proof.
 * @param {View} view
 * @param {number} record
 * @returns {Node[]}
 */
export function readings(view, record) {
  const { words, atlas: { data } } = view, [at, kind, source] = data.entries[record], keys = keysOf(data, record), own = isOwn(data, record);
  const found = keys.flatMap(key => reference(view, key, `% decides by ${NAMES[at]}, listed ${kind}`)), heading = data.proofs[at];
  const say = (/** @type {string} */ key, /** @type {(Node | string)[]} */ ...values) =>
    found.push(element('p', { class: 'reference' }, ...words.parts(key, ...values)));
  if (!keys.length && !/^(own proof|from CLIQUE|from VERTEX COVER)$/.test(sourceOf(source))) say('noReference');
  found.push(...factLines(view, record));
  if (own) say('unpublished');
  if (heading) {
    const there = data.sections && data.sections[heading], english = element('span', { lang: 'en' }, heading);
    say(own ? 'theProof' : 'proofBeside', there ? linkTo(view, `proof=${heading}`, english) : `docs/results/proofs-of-results.md, ${heading}`);
  }
  return found;
}

/**
 * The entry of the results that decides, with its references and proofs.
 * @param {View} view
 * @param {number} record
 */
export function entryBox(view, record) {
  const { words, atlas: { data } } = view, [at, kind] = data.entries[record];
  const source = element('b', {}, ...sourceLink(view, record));
  return element('div', { class: 'entry' },
    element('p', {}, ...words.parts('decides', classLink(view, at), words.say(`listed ${kind}`), String(record), source)), ...readings(view, record));
}

/**
 * The reasons of a label: each chain with the entry that decides.
 * @param {View} view
 * @param {[Kind, Chain][]} chains
 * @returns {Node[]}
 */
export function reasons(view, chains) {
  /** @type {Node[]} */
  const found = [], seen = new Set();
  for (const kind of KINDS) {
    for (const [, chain] of chains.filter(([it]) => it === kind)) {
      found.push(element('h3', {}, view.words.say(`why ${kind}`)));
      const same = JSON.stringify(chain);
      if (seen.has(same)) found.push(element('p', {}, view.words.say('sameChain')));
      else {
        const both = [entryBox(view, chain.record), chainList(view, chain.start, chain.rows)];
        found.push(...(leadsToEntry(kind) ? both.reverse() : both));
      }
      seen.add(same);
    }
  }
  return found;
}

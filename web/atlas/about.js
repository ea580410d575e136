// What the page is, how to cite it, and the proofs of our own.
import { FRONTIER } from '../classes.js';
import { element } from '../elements.js';
import { NAMES } from '../names.js';
import { ownBibtex } from '../results.js';
import { translated } from './german.js';
import { dot, labelled, linkTo, named } from './parts.js';

/** @typedef {import('./parts.js').View} View */

/**
 * A text with the indices and powers that it writes as x_j, S_{a-1}, C_(k) and 2^n.
 * @param {string} text
 * @returns {(Node | string)[]}
 */
function indexed(text) {
  return text.split(/([_^](?:\{[^{}]*\}|\([^()]*\)|[\p{L}\p{N}]+))/u).map((it, place) => place % 2 === 0 ? it
    : element(it[0] === '_' ? 'sub' : 'sup', {}, it.slice(1).replace(/^\{(.*)\}$/, '$1')));
}

/**
 * A part of a line between marks: code, strong or weak stress; links of the documents become their texts.
 * @param {string} text
 * @returns {(Node | string)[]}
 */
function inline(text) {
  return text.replace(/\[([^\]]*)\]\([^)]*\)/g, '$1').split(/(`[^`]+`|\*\*[^*]+\*\*|\*[^*\s][^*]*\*)/).flatMap((it, place) => {
    if (place % 2 === 0) return indexed(it);
    return it[0] === '`' ? named(it.slice(1, -1)) : it.startsWith('**') ? element('b', {}, ...inline(it.slice(2, -2))) : element('em', {},
      ...inline(it.slice(1, -1)));
  });
}

/**
 * A text of the documents: paragraphs, and lists whose lines begin with a dash or a number.
 * @param {string} text
 * @returns {Node[]}
 */
export function prose(text) {
  return text.split(/\n\s*\n/).filter(it => it.trim()).map(block => {
    const lines = block.split('\n');
    if (!/^(- |\d+\. )/.test(lines[0])) return element('p', {}, ...inline(lines.join(' ')));
    return element(lines[0][0] === '-' ? 'ul' : 'ol', {}, ...lines.map(it => element('li', {}, ...inline(it.replace(/^\s*(- |\d+\. )/, '')))));
  });
}

/**
 * The list of all proofs, as links, by the chapters of the document.
 * @param {View} view
 * @param {string} title
 */
function proofList(view, title) {
  const chapters = Object.entries(view.atlas.data.chapters || {}).flatMap(([chapter, those]) => [
    element('h4', {}, translated(view.words, chapter).text),
    element('ul', { class: 'columns', lang: 'en' }, ...those.map(it => element('li', {}, linkTo(view, `proof=${it}`, it))))]);
  return element('section', {}, element('h3', {}, title), ...chapters);
}

/**
 * A proof of our own.
 * @param {View} view
 * @param {string} heading
 * @returns {Node[]}
 */
export function proofView(view, heading) {
  const text = (view.atlas.data.sections || {})[heading];
  const { words } = view, said = text ? heading : heading ? words.say('proofNone', heading) : words.say('proofsOwn');
  const title = element('h2', { tabindex: '-1', lang: text ? 'en' : null }, said);
  const box = element('section', { class: 'prose' }, title, element('div', { lang: 'en' }, ...prose(text || '')),
    element('p', { class: 'quiet' }, words.say('onPaper')));
  return [box, proofList(view, words.say('proofsAll'))];
}

/**
 * Whose word the labels are.
 * @param {View} view
 */
function trust(view) {
  const { words, atlas: { data, published, all } } = view, own = (data.own || []).length;
  if (!published) return words.say('trustListed');
  return words.say('trust', own, words.number(published.counts().open || 0), words.number(all.counts().open || 0));
}

/**
 * Version, how to cite, and where to send a correction.
 * @param {View} view
 * @returns {Node[]}
 */
function citing(view) {
  const { words, atlas: { data } } = view, { citation } = data;
  if (!citation) return [];
  return [element('h3', {}, words.say('citeHead')), element('p', {}, ...words.parts('cite', citation.version, citation.released, citation.author,
    element('span', { lang: 'en' }, citation.title))),
    element('pre', { lang: 'en' }, ownBibtex(data)), element('h3', {}, words.say('correctionsHead')), ...prose(words.say('corrections'))];
}

/**
 * The page about the page.
 * @param {View} view
 * @returns {Node[]}
 */
export function aboutView(view) {
  const { words } = view;
  const box = element('section', { class: 'prose' }, element('h2', { tabindex: '-1' }, words.say('aboutHead')),
    ...prose(words.say('about', words.number(NAMES.length))), element('p', {}, trust(view)));
  const labels = view.atlas.data.label_names.map(it => element('p', {}, dot(view, it), words.say('labelIs', labelled(view, it),
    words.say(`meaning ${it}`))));
  const lists = FRONTIER.map(it => element('p', {}, element('b', {}, words.say(`list ${it}`)), `: ${words.say(`says ${it}`)}`));
  box.append(...citing(view), element('h3', {}, words.say('labelsHead')), ...labels, element('h3', {}, words.say('frontierHead')), ...lists);
  return Object.keys(view.atlas.data.sections || {}).length ? [box, proofList(view, words.say('proofsOwn'))] : [box];
}

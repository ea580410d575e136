// The box of the search: hits while one types, chosen by arrow keys.
import { element } from '../elements.js';
import { NAMES } from '../names.js';
import { near } from '../reading.js';
import { answer, notUnderstood } from './asked.js';
import { behindIn } from './german.js';
import { address, classLink } from './parts.js';

/** @typedef {import('./parts.js').View} View */

const SHOWN = 40, NEAR = 12;

/**
 * A hit: a class with a word beside it, or a place that has all hits.
 * @typedef {{place: string, nodes: (Node | string)[]}} Hit
 */

/**
 * Classes as hits.
 * @param {View} view
 * @param {number[]} those
 * @returns {Hit[]}
 */
function classHits(view, those) { return those.map(it => ({ place: NAMES[it], nodes: [classLink(view, it)] })); }

/**
 * Entries of the results as hits.
 * @param {View} view
 * @param {number[]} records
 * @returns {Hit[]}
 */
function entryHits(view, records) {
  return records.map(it => view.atlas.data.entries[it]).map(([at, , source]) =>
    ({ place: NAMES[at], nodes: [classLink(view, at), ` ${behindIn(view.words, source)}`] }));
}

/**
 * What is said of a fixed number of machines.
 * @param {View} view
 * @param {import('../reading.js').Fixed | null} fixed
 * @returns {string[]}
 */
function fixedNote({ words }, fixed) {
  if (!fixed) return [];
  return [fixed.machines === null ? words.say('fixedAny') : words.say('fixedOne', `${fixed.kind}${fixed.machines}`)];
}

/**
 * The hits of a text, and what is said of them.
 * @param {View} view
 * @param {string} text
 * @returns {{notes: string[], hits: Hit[]}}
 */
function hitsOf(view, text) {
  const { words } = view, { reading, entries, found, at } = answer(view, text), many = entries.length || found.length;
  /** @type {Hit[]} */
  const all = many > SHOWN || reading.fixed ? [{ place: text, nodes: [words.say('allHits', words.number(many))] }] : [];
  if (entries.length) return { notes: [words.count(many, 'entry')], hits: [...entryHits(view, entries.slice(0, SHOWN)), ...all] };
  if (reading.unknown.length) {
    const those = near(reading).slice(0, NEAR);
    return { notes: [...notUnderstood(view, reading), ...(those.length ? [words.say('near')] : [])], hits: classHits(view, those) };
  }
  if (!found.length) return { notes: [words.say('noClass')], hits: [] };
  const first = at >= 0 ? [at, ...found.filter(it => it !== at)] : found;
  const hits = classHits(view, first.slice(0, SHOWN));
  return { notes: fixedNote(view, reading.fixed), hits: reading.fixed ? [...all, ...hits] : [...hits, ...all] };
}

/**
 * The box of the search.
 * @param {() => View} view
 * @param {HTMLInputElement} input
 * @param {HTMLElement} list
 * @param {(text: string) => void} say tells readers of screens
 */
export function searchBox(view, input, list, say) {
  /** @type {HTMLElement[]} */
  let options = [];
  let active = -1;
  const close = () => { list.hidden = true; options = []; active = -1; input.setAttribute('aria-expanded',
    'false'); input.removeAttribute('aria-activedescendant'); };
  /** @param {number} to */
  const choose = to => {
    if (!options.length) return;
    active = (to + options.length) % options.length;
    options.forEach((it, place) => it.setAttribute('aria-selected', String(place === active)));
    options[active].scrollIntoView({ block: 'nearest' });
    input.setAttribute('aria-activedescendant', options[active].id);
  };
  const suggest = () => {
    close();
    if (!input.value.trim()) return;
    const { notes, hits } = hitsOf(view(), input.value);
    options = hits.map(({ place, nodes }, it) => element('div', { id: `hit${it}`, role: 'option', 'aria-selected': 'false', 'data-place': place },
      ...nodes));
    list.replaceChildren(...notes.map(it => element('p', {}, it)), ...options);
    list.hidden = false;
    input.setAttribute('aria-expanded', 'true');
    say(notes.join(' ') || view().words.count(hits.length, 'hit'));
  };
  /** @param {string} place */
  const open = place => { close(); location.hash = address(view(), place); };
  input.addEventListener('input', suggest);
  input.addEventListener('keydown', event => {
    if (event.key === 'ArrowDown' || event.key === 'ArrowUp') {
      if (list.hidden) suggest();
      choose(active < 0 && event.key === 'ArrowUp' ? -1 : active + (event.key === 'ArrowDown' ? 1 : -1));
      event.preventDefault();
    } else if (event.key === 'Enter' && input.value.trim()) {open(active >= 0 ? options[active].dataset.place || '' : placeOf(view(),
      input.value.trim()));}
    else if (event.key === 'Escape') close();
  });
  list.addEventListener('click', event => {
    const option = event.target instanceof Element ? event.target.closest('[data-place]') : null;
    if (option instanceof HTMLElement) { event.preventDefault(); open(option.dataset.place || ''); }
  });
  document.addEventListener('click', event => { if (event.target instanceof Element && !event.target.closest('#search')) close(); });
}

/**
 * The place that a text opens: the class that was asked, or else the text itself, under which stands what was not understood.
 * @param {View} view
 * @param {string} text
 */
export function placeOf(view, text) {
  const { reading, at, found } = answer(view, text);
  if (at >= 0) return NAMES[at];
  return found.length === 1 && !reading.fixed && !reading.labels.length ? NAMES[found[0]] : text;
}

// The atlas in a frame: one view at a time, by the address behind #. The page of all classes has it, and the page for planners too.
import { element } from '../elements.js';
import { NAMES, rankOf } from '../names.js';
import { aboutView, proofView } from './about.js';
import { askedView } from './asked.js';
import { aroundView, classView } from './class.js';
import { frontierView, labelView, selectionView } from './lists.js';
import { address, dot, labelled, linkTo, selected, told } from './parts.js';
import { placeOf, searchBox } from './search.js';
import { maps, picker } from './tables.js';
import { Words } from '../words.js';
import { WORDS } from './words.js';

/** @typedef {import('./parts.js').View} View */
/**
 * Where the atlas stands in a page: its views, the box of the search with its hits, the links to its parts, its key, and what is said to
 * readers of screens.
 * @typedef {{main: HTMLElement, input: HTMLInputElement, found: HTMLElement, places: HTMLElement, key: HTMLElement, said: HTMLElement}} Frame
 */

/**
 * A link that turns a switch.
 * @param {string} text
 * @param {boolean} on
 * @param {string} href
 * @param {string} title
 */
function turn(text, on, href, title) { return element('a', { class: 'turn', href, role: 'switch', 'aria-checked': String(on), title }, text); }

/** The atlas in a frame. */
export class Shown {
  /**
   * @param {import('../classes.js').Atlas} atlas
   * @param {Frame} frame
   * @param {string} prefix with which the addresses of its places begin
   * @param {import('../words.js').Language} language
   */
  constructor(atlas, frame, prefix, language) {
    this.frame = frame;
    const current = rankOf('P2|pmtn,r|Cmax'), words = new Words(WORDS, language);
    /** @type {View} */
    this.view = { atlas, published: false, solved: false, current, selection: [], prefix, words };
    this.title = '';
    frame.main.addEventListener('click', event => this.click(event));
    searchBox(() => this.view, frame.input, frame.found, text => this.say(text));
    window.addEventListener('hashchange', () => {
      if (this.isHere()) this.moved();
    });
  }

  /** Whether the address is one of its places. */
  isHere() { return location.hash.slice(1).startsWith(this.view.prefix); }

  /** @param {string} text */
  say(text) { this.frame.said.textContent = text; }

  /** @param {import('../words.js').Language} language */
  speak(language) {
    this.view.words = new Words(WORDS, language);
    this.show();
  }

  /**
   * The place that the address names, without its switches, which are set.
   * @returns {string}
   */
  place() {
    const { view } = this, behind = location.hash.slice(1 + view.prefix.length);
    const [, text, switches] = behind.match(/^(.*?)((?:&(?:published|solved))*)$/s) || ['', '', ''];
    view.published = view.atlas.published !== null && switches.includes('&published');
    view.solved = switches.includes('&solved');
    try {
      return decodeURIComponent(text);
    } catch (fault) {
      return text;
    }
  }

  /**
   * A view of one class, with the tables beside it. Where all but the answer is below the screen, the first view is drawn without, so that
   * the answer is there at once, and the rest comes behind it.
   * @param {number} at
   * @returns {string} its title
   */
  showClass(at) {
    const { view, frame: { main } } = this, answer = element('div', { class: 'answer' }, ...classView(view, at)), tables = element('div', { class:
      'tables' });
    const rest = () => {
      answer.append(...aroundView(view, at));
      tables.append(picker(view, at), maps(view, at));
    };
    view.current = at;
    main.className = 'pair';
    main.replaceChildren(answer, tables);
    if (this.title || !window.matchMedia('(max-width: 960px)').matches) rest();
    else requestAnimationFrame(() => setTimeout(rest));
    return view.words.say('classIs', NAMES[at], labelled(view, told(view).labels[at]));
  }

  /**
   * A view over the whole width; its title is its first heading.
   * @param {Node[]} nodes
   */
  showWide(nodes) {
    const { main } = this.frame;
    main.className = 'wide';
    main.replaceChildren(element('div', {}, ...nodes));
    const head = main.querySelector('h2'), title = this.view.words.say('title');
    return head ? `${head.textContent} \u2013 ${title}` : title;
  }

  /**
   * Shows the selection, which an address may have; each class there is read as the search reads it.
   * @param {string | undefined} rest
   */
  showSelection(rest) {
    const places = (rest || '').split(';').filter(it => it.trim()), ranks = places.map(it => rankOf(placeOf(this.view, it.trim())));
    if (rest !== undefined) this.view.selection = Array.from(new Set(ranks.filter(it => it >= 0)));
    return this.showWide(selectionView(this.view, places.filter((_, it) => ranks[it] < 0)));
  }

  /**
   * A place that is written as a word, and what stands behind its sign of equality; no title where it is no such place.
   * @param {string} word
   * @param {string | undefined} rest
   * @returns {string | null}
   */
  showWord(word, rest) {
    const { view } = this, behind = rest || '';
    switch (word) {
    case 'lists': return this.showWide(labelView(view, behind));
    case 'frontier': return this.showWide(frontierView(view, behind));
    case 'proof': return this.showWide(proofView(view, behind));
    case 'search': return this.showText(behind);
    case 'selection': return this.showSelection(rest);
    default:
      if (rest !== undefined) return null;
      return word === 'about' ? this.showWide(aboutView(view)) : word === 'class' ? this.showClass(view.current) : null;
    }
  }

  /**
   * The class that a text asks for, or what was understood of it and what not.
   * @param {string} text
   * @returns {string} the title
   */
  showText(text) {
    const { view } = this, name = placeOf(view, text), at = rankOf(name);
    if (at < 0) {
      this.frame.input.value = text;
      return this.showWide(askedView(view, text));
    }
    if (name !== text) history.replaceState(null, '', address(view, name));
    return this.showClass(at);
  }

  /**
   * Shows a place.
   * @param {string} place
   * @returns {string} the title
   */
  showPlace(place) {
    if (place === '') {
      this.showClass(this.view.current);
      return this.view.words.say('title');
    }
    const [, word, rest] = place.match(/^([a-z]+)(?:=(.*))?$/s) || ['', '', ''];
    return this.showWord(word, rest) || this.showText(place);
  }

  /** What the frame says of itself. */
  showFrame() {
    const { frame: { input, found, places }, view: { words } } = this;
    input.placeholder = words.say('searchHint');
    input.setAttribute('aria-label', words.say('searchSays'));
    found.setAttribute('aria-label', words.say('hits'));
    places.setAttribute('aria-label', words.say('atlasParts'));
  }

  /**
   * The links at the top: the views, the labels, and the switches.
   * @param {string} place
   */
  showTop(place) {
    const { view, frame } = this, { words } = view, here = frame.main.className === 'pair' ? 'class' : place.split('=')[0];
    const links = ['class', 'frontier', 'lists', 'about'].map(it => element('a', { href: address(view, it), 'aria-current': it === here ? 'page'
      : null }, words.say(`part ${it}`)));
    if (view.selection.length) {
      links.push(element('a', { href: address(view, selected(view)), 'aria-current': here === 'selection' ? 'page' : null },
        words.say('selectionLink', view.selection.length)));
    }
    frame.places.replaceChildren(...links);
    const { labels } = told(view), names = view.atlas.data.label_names.filter(it => labels.includes(it));
    const turns = [turn(words.say('solvedAlone'), view.solved, address({ ...view, solved: !view.solved }, place), words.say('solvedAloneSays'))];
    if (view.atlas.published) {
      turns.push(turn(words.say('publishedAlone'), view.published, address({ ...view, published: !view.published }, place),
        words.say('publishedAloneSays')));
    }
    frame.key.replaceChildren(...names.map(it => linkTo(view, `lists=${it}`, dot(view, it), labelled(view, it))), ...turns);
  }

  /** Shows the place that the address names. */
  show() {
    const place = this.place();
    this.title = this.showPlace(place);
    document.title = this.title;
    this.showFrame();
    this.showTop(place);
  }

  /**
   * Puts the focus where the view changed: to the same field of a table, or to the heading.
   * @param {string | null} field the address of the field that had it
   */
  follow(field) {
    const { main } = this.frame;
    const same = field === null ? undefined : Array.from(main.querySelectorAll('.tables a')).find(it => it.getAttribute('href') === field);
    const target = same || main.querySelector('h2');
    if (target instanceof HTMLElement) target.focus({ preventScroll: true });
    if (!same) window.scrollTo(0, 0);
  }

  /** The address changed to another of its places. */
  moved() {
    const before = document.activeElement;
    const field = before instanceof HTMLAnchorElement && before.closest('.tables') ? before.getAttribute('href') : null;
    this.show();
    this.say(this.title);
    this.follow(field);
  }

  /**
   * A button that takes a class into the selection, or out of it.
   * @param {Event} event
   */
  click(event) {
    const button = event.target instanceof Element ? event.target.closest('[data-select]') : null, { view } = this;
    if (!(button instanceof HTMLElement)) return;
    const which = button.dataset.select || '', at = Number(which), place = this.place();
    if (which === 'none') view.selection = [];
    else view.selection = view.selection.includes(at) ? view.selection.filter(it => it !== at) : [...view.selection, at];
    if (place.startsWith('selection')) history.replaceState(null, '', address(view, selected(view)));
    this.show();
    const again = this.frame.main.querySelector('[data-select]');
    if (again instanceof HTMLElement) again.focus();
    this.say(view.words.say('selected', view.selection.length));
  }
}

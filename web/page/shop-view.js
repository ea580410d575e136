// A shop's words in the page: what is kept can be seen, taken over and deleted, and nothing is kept that was not asked for.
import { element, fill } from '../elements.js';
import { button, folded } from './controls.js';
import { hasWords, shopOf } from './shop-words.js';

/** @typedef {import('./app.js').App} App */
/** @typedef {import('./shop-words.js').Shop} Shop */

/** What is kept of a shop, beside the problem. */
export class ShopView {
  /**
   * @param {App} app
   * @param {import('./shop-words.js').Shelf} shelf
   */
  constructor(app, shelf) {
    this.app = app;
    this.shelf = shelf;
    this.root = element('div', { id: 'shop' });
    this.state = element('div', {});
    /** @type {HTMLButtonElement[]} */
    this.buttons = [];
    this.answer = element('p', { class: 'quiet', role: 'status' });
    this.shown = '';
    this.shape = '';
  }

  /** @param {string} key
   * @param {...(string | number)} values */
  say(key, ...values) { return this.app.words.say(key, ...values); }

  /** Takes the words that are kept into the problem, where there are some; whether there are. */
  take() {
    const { shop } = this.shelf.kept;
    if (shop) this.app.change(shop);
    return shop !== null;
  }

  /**
   * Does something with the store, and says how it went.
   * @param {boolean} done
   * @param {string} well
   */
  tell(done, well) {
    this.answer.textContent = this.say(done ? well : 'shopRefused');
    this.render();
  }

  /**
   * What is set, each by its word, and how.
   * @param {Shop} shop
   */
  lines(shop) {
    const { words } = this.app, unit = `unit ${shop.unit}`;
    return [['unit', shop.unit && words.has(unit) ? words.say(unit) : shop.unit], ['shifts', shop.shifts], ['holidays', shop.holidays],
      ['machineNames', shop.machineNames.join(', ')]].filter(it => it[1]).map(([key, said]) => [this.say(key), said]);
  }

  /**
   * What is set, in one line.
   * @param {Shop} shop
   */
  said(shop) { return this.lines(shop).map(([key, said]) => `${key} ${said}`).join('; '); }

  /**
   * What is set, as a table.
   * @param {Shop} shop
   */
  table(shop) {
    return element('table', { class: 'plain', id: 'shop-kept' }, element('caption', {}, this.say('shopKept')), element('tbody', {},
      ...this.lines(shop).map(([key, said]) => element('tr', {}, element('th', { scope: 'row' }, key), element('td', { dir: 'auto' }, said)))));
  }

  /** Keeps the words of the problem, where it has some. */
  keep() {
    const now = shopOf(this.app.problem);
    if (hasWords(now)) this.tell(this.shelf.keep(now), 'shopIsKept');
    else this.answer.textContent = this.say('shopNothing');
  }

  /** Builds what stays, in the words of the page: a button that is pressed is never another one when it is let go. */
  build() {
    const act = (/** @type {string} */ id, /** @type {() => void} */ done) => button('', done, { id: `shop-${id}` });
    this.buttons = [act('keep', () => this.keep()), act('take', () => this.tell(this.take(), 'shopTaken')),
      act('drop', () => this.tell(this.shelf.drop(), 'shopDropped'))];
    this.answer.textContent = '';
    fill(this.root, folded(this.say('shop'), element('p', { class: 'quiet' }, this.say('shopSays')), this.state,
      element('p', { class: 'buttons' }, ...this.buttons), this.answer));
  }

  render() {
    const { words } = this.app, { shop, open } = this.shelf.kept, shape = JSON.stringify([words.language, shop, open]);
    if (shape === this.shape) return;
    this.shape = shape;
    if (this.shown !== words.language) this.build();
    this.shown = words.language;
    fill(this.state, shop ? this.table(shop) : element('p', { id: 'shop-none' }, this.say(open ? 'shopNone' : 'shopRefused')));
    const [keep, take, drop] = this.buttons, lost = document.activeElement === drop && !shop;
    keep.textContent = this.say(shop ? 'shopKeepNow' : 'shopKeep');
    take.textContent = this.say('shopTake');
    drop.textContent = this.say('shopDrop');
    take.hidden = drop.hidden = !shop;
    if (lost) keep.focus();
  }
}

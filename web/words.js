// Words in English and in German, by their keys, which page/words.json and atlas/words.js have. A number in braces stands for a value.

/** @typedef {'en' | 'de'} Language */
/** @typedef {Object<string, [string, string]>} Table */

/** Signs of scripts from right to left, and those that turn what stands behind them. */
const TURNING = /[\u0590-\u08ff\u200e\u200f\u202a-\u202e\u2066-\u2069\ufb1d-\ufdff\ufe70-\ufefc]/, TURNS = /[\u200e\u200f\u202a-\u202e]/g;

/**
 * A value as it stands in a sentence: it turns nothing of what stands around it.
 * @param {string | number} value
 */
function apart(value) {
  const text = String(value);
  return TURNING.test(text) ? `\u2068${text.replace(TURNS, '')}\u2069` : text;
}

/**
 * A number as it stands in a sentence.
 * @param {number} many
 * @param {boolean} german
 */
const grouped = (many, german) => many.toLocaleString(german ? 'de' : 'en');

/**
 * The language of the browser, where the page speaks it.
 * @returns {Language}
 */
export function firstLanguage() { return (navigator.language || '').toLowerCase().startsWith('de') ? 'de' : 'en'; }

/** The words of a language. */
export class Words {
  /**
   * @param {Table} table
   * @param {Language} language
   */
  constructor(table, language) {
    this.table = table;
    this.language = language;
  }

  get german() { return this.language === 'de'; }

  /** The decimal mark. */
  get mark() { return this.german ? ',' : '.'; }

  /**
   * Whether there are words for a key.
   * @param {string} key
   */
  has(key) { return Object.prototype.hasOwnProperty.call(this.table, key); }

  /** @param {string} key */
  template(key) {
    if (!this.has(key)) throw new Error(`there are no words for ${key}`);
    return this.table[key][this.german ? 1 : 0];
  }

  /**
   * @param {string} key
   * @param {...(string | number)} values
   * @returns {string}
   */
  say(key, ...values) { return this.template(key).replace(/\{(\d)\}/g, (_, at) => apart(values[Number(at)])); }

  /**
   * A sentence in which elements may stand for values.
   * @param {string} key
   * @param {...(Node | string)} values
   * @returns {(Node | string)[]}
   */
  parts(key, ...values) {
    const said = (/** @type {Node | string} */ it) => typeof it === 'string' ? apart(it) : it;
    return this.template(key).split(/\{(\d)\}/).map((it, at) => at % 2 ? said(values[Number(it)]) : it).filter(it => it !== '');
  }

  /**
   * A number with its word: the keys are that of one and that of several, as `1 class` and `n class`.
   * @param {number} many
   * @param {string} what
   */
  count(many, what) { return this.say(`${many === 1 ? '1' : 'n'} ${what}`, grouped(many, this.german)); }

  /** @param {number} many */
  number(many) { return grouped(many, this.german); }
}

// How steps are told: cells, and a table that grows.

/** @typedef {import('./types.js').Cell} Cell */
/** @typedef {import('./types.js').Mark} Mark */
/** @typedef {import('./types.js').Piece} Piece */
/** @typedef {import('./types.js').Said} Said */
/** @typedef {import('./types.js').Step} Step */
/** @typedef {import('../fractions.js').Fraction} Fraction */

/**
 * Words of words.js.
 * @param {string} key
 * @param {...Cell} values
 * @returns {Said}
 */
export function said(key, ...values) { return { key, values }; }

/**
 * Jobs in a row.
 * @param {number[]} jobs
 * @returns {import('./types.js').JobsCell}
 */
export function listed(jobs) { return { jobs: jobs.map(job => ({ job, value: null })) }; }

/**
 * Jobs in a row, each with a value.
 * @param {number[]} jobs
 * @param {(job: number) => Fraction} value
 * @returns {import('./types.js').JobsCell}
 */
export function valued(jobs, value) { return { jobs: jobs.map(job => ({ job, value: value(job) })) }; }

/** Steps, told one after another. */
export class Telling {
  /** @param {...Said} columns */
  constructor(...columns) {
    /** @type {Step[]} */
    this.steps = [];
    this.columns = columns;
    /** @type {Cell[][]} */
    this.rows = [];
    /** @type {Piece[]} */
    this.pieces = [];
  }

  /**
   * Begins another table.
   * @param {...Said} columns
   */
  table(...columns) {
    this.columns = columns;
    this.rows = [];
  }

  /** @param {...Cell} cells a row behind the others */
  row(...cells) { this.rows = [...this.rows, cells]; }

  /** @param {...Cell} cells a row in front of the others */
  above(...cells) { this.rows = [cells, ...this.rows]; }

  /**
   * A step that speaks of the table as it stands.
   * @param {Said} title
   * @param {...Mark} marks
   */
  tell(title, ...marks) { this.steps.push({ title, columns: this.columns, rows: this.rows, marks, pieces: this.pieces }); }

  /**
   * A step that speaks of the last row, and of a cell in it.
   * @param {Said} title
   * @param {number} [column]
   * @param {'chosen' | 'dropped'} [kind]
   */
  last(title, column = -1, kind = 'chosen') {
    const row = this.rows.length - 1;
    /** @type {Mark[]} */
    const marks = [{ row, column: -1, kind: 'now' }];
    if (column >= 0) marks.push({ row, column, kind });
    this.tell(title, ...marks);
  }

  /** @param {...Piece} pieces pieces behind the others; one that does not last is none */
  put(...pieces) { this.pieces = [...this.pieces, ...pieces.filter(it => it.from.n * it.to.d < it.to.n * it.from.d)]; }
}

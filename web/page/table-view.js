// The table of jobs: its cells are typed in or pasted, and each fault stands in its cell.
import { element, fill } from '../elements.js';
import { columnsOf } from './columns.js';
import { button, put } from './controls.js';
import { machinesOf } from './instance.js';
import { listOf } from './spreadsheet.js';

/** @typedef {import('./app.js').App} App */
/** @typedef {import('./instance.js').Row} Row */
/** @typedef {import('./instance.js').Fault} Fault */

/**
 * Rows with one cell as it was typed.
 * @param {Row[]} rows
 * @param {number} id
 * @param {string} key
 * @param {string} text
 * @returns {Row[]}
 */
export function withCell(rows, id, key, text) {
  return rows.map(it => it.id !== id ? it : key === 'job' ? { ...it, name: text } : { ...it, cells: { ...it.cells, [key]: text } });
}

/**
 * A row that has nothing in it yet.
 * @param {Row[]} rows
 * @returns {Row}
 */
export function newRow(rows) { return { id: Math.max(0, ...rows.map(it => it.id)) + 1, name: '', cells: {} }; }

/** The table of jobs. */
export class TableView {
  /**
   * @param {App} app
   * @param {(text: string) => void} takeList
   */
  constructor(app, takeList) {
    this.app = app;
    this.takeList = takeList;
    this.root = element('div', { class: 'scroll jobs', tabindex: '-1' });
    /** What decides whether the table is built anew. */
    this.shape = '';
    /** The rows whose cells stand there, and the faults that are marked.
     * @type {Row[] | null} */
    this.filledOf = null;
    this.markedOf = '';
    this.root.addEventListener('change', event => this.typed(event));
    this.root.addEventListener('paste', event => this.paste(event));
    this.root.addEventListener('keydown', event => this.key(event));
  }

  get columns() { return ['job', ...columnsOf(this.app.problem.parts, machinesOf(this.app.problem))]; }

  /**
   * How a column is called.
   * @param {string} key
   */
  title(key) {
    const { words, problem } = this.app, { unit } = problem, machine = key.match(/^p(\d+)$/);
    const said = machine ? words.say('pOn', this.app.machineName(Number(machine[1])))
      : key === 'route' && problem.parts.times ? words.say('routeMachines1') : words.say(key);
    return unit && /^p\d*$/.test(key) ? `${said} (${unit})` : said;
  }

  /**
   * The place of a control in the table: its row and its column.
   * @param {EventTarget | null} target
   */
  placeOf(target) {
    const cell = target instanceof HTMLInputElement ? target.closest('td') : null;
    return cell ? { id: Number(cell.dataset.row), key: cell.dataset.key || '' } : null;
  }

  /** @param {Event} event */
  typed(event) {
    const place = this.placeOf(event.target);
    if (!place || !(event.target instanceof HTMLInputElement)) return;
    const { rows } = this.app.problem, row = rows.find(it => it.id === place.id), text = event.target.value;
    if (!row || (place.key === 'job' ? row.name : row.cells[place.key] || '') === text) return;
    this.app.change({ rows: withCell(rows, place.id, place.key, text) });
  }

  /** @param {ClipboardEvent} event */
  paste(event) {
    const text = event.clipboardData ? event.clipboardData.getData('text/plain') : '', place = this.placeOf(event.target);
    if (!place || !/[\t\n]/.test(text.trim())) return;
    event.preventDefault();
    const list = listOf(text);
    if (!list || list.header.some(Boolean)) this.takeList(text);
    else this.fillFrom(place, list.rows);
  }

  /**
   * Fills cells from a place on.
   * @param {{id: number, key: string}} place
   * @param {string[][]} records
   */
  fillFrom({ id, key }, records) {
    const keys = this.columns.slice(this.columns.indexOf(key));
    let { rows } = this.app.problem, at = rows.findIndex(it => it.id === id);
    for (const record of records) {
      if (at >= rows.length) rows = [...rows, newRow(rows)];
      const row = rows[at++];
      record.slice(0, keys.length).forEach((text, place) => { rows = withCell(rows, row.id, keys[place], text); });
    }
    this.app.change({ rows });
  }

  /**
   * Enter and arrows go up and down; from the last row a new one begins.
   * @param {KeyboardEvent} event
   */
  key(event) {
    const place = this.placeOf(event.target), step = event.key === 'ArrowUp' ? -1 : ['ArrowDown', 'Enter'].includes(event.key) ? 1 : 0;
    if (!place || !step || !(event.target instanceof HTMLInputElement)) return;
    event.preventDefault();
    const { value } = event.target;
    let rows = withCell(this.app.problem.rows, place.id, place.key, value);
    const at = rows.findIndex(it => it.id === place.id) + step;
    if (at >= rows.length && event.key === 'Enter') rows = [...rows, newRow(rows)];
    if (JSON.stringify(rows) !== JSON.stringify(this.app.problem.rows)) this.app.change({ rows });
    if (rows[at]) this.focus(rows[at].id, place.key);
  }

  /**
   * @param {number} id
   * @param {string} key
   */
  focus(id, key) {
    const input = this.root.querySelector(`td[data-row="${id}"][data-key="${key}"] input`);
    if (input instanceof HTMLInputElement) {
      input.focus();
      input.select();
    }
  }

  /**
   * @param {Row} row
   * @param {number} at
   */
  row(row, at) {
    const name = row.name.trim() || `j${at + 1}`;
    const cells = this.columns.map(key => {
      const input = element('input', { 'aria-label': `${this.title(key)}, ${name}`, spellcheck: 'false', autocomplete: 'off', autocapitalize: 'off',
        placeholder: key === 'job' ? `j${at + 1}` : key === 'r' ? '0' : null, inputmode: /^(p\d*|w)$/.test(key) ? 'decimal' : null, dir: 'auto' });
      put(input, key === 'job' ? row.name : row.cells[key] || '');
      return element('td', { 'data-row': String(row.id), 'data-key': key, class: `cell-${key.replace(/\d+/, '')}` }, input);
    });
    const drop = button('\u00d7', () => this.drop(row.id), { class: 'drop', 'aria-label': this.app.words.say('dropRow', name) });
    return element('tr', {}, element('th', { scope: 'row' }, String(at + 1)), ...cells, element('td', {}, drop));
  }

  /** @param {number} id */
  drop(id) {
    const { rows } = this.app.problem, at = rows.findIndex(it => it.id === id);
    this.app.change({ rows: rows.filter(it => it.id !== id) });
    const next = this.app.problem.rows[Math.min(at, rows.length - 2)];
    if (next) this.focus(next.id, 'job');
  }

  /** Builds the table. */
  build() {
    const { words, problem } = this.app;
    const head = element('tr', {}, element('th', { scope: 'col' }, '#'), ...this.columns.map(key => element('th', { scope: 'col' }, this.title(key))),
      element('td', {}));
    fill(this.root, element('table', { class: 'typed', 'aria-label': words.say('jobs') }, element('thead', {}, head),
      element('tbody', {}, ...problem.rows.map((row, at) => this.row(row, at)))));
  }

  /** Puts what changed elsewhere into the cells; where the rows are the same, nothing did. */
  refresh() {
    if (this.filledOf === this.app.problem.rows) return;
    this.filledOf = this.app.problem.rows;
    const rows = new Map(this.app.problem.rows.map(it => [it.id, it]));
    this.root.querySelectorAll('td[data-key] input').forEach(input => {
      const place = this.placeOf(input), row = place && rows.get(place.id);
      if (!row || !place || !(input instanceof HTMLInputElement)) return;
      put(input, place.key === 'job' ? row.name : row.cells[place.key] || '');
    });
  }

  render() {
    const { words, problem } = this.app;
    const shape = JSON.stringify([words.language, this.columns.map(it => this.title(it)), problem.rows.map(it => it.id)]);
    const focus = this.placeOf(document.activeElement);
    if (shape !== this.shape) {
      this.shape = shape;
      this.build();
      [this.filledOf, this.markedOf] = [problem.rows, ''];
      if (focus) this.focus(focus.id, focus.key);
    } else this.refresh();
    this.mark();
  }

  /** Marks the cells with a fault, and says it in words below them. */
  mark() {
    const faults = JSON.stringify(this.app.faults);
    if (faults === this.markedOf) return;
    this.markedOf = faults;
    this.root.querySelectorAll('.fault').forEach(it => it.remove());
    this.root.querySelectorAll('[aria-invalid]').forEach(it => {
      it.removeAttribute('aria-invalid');
      it.removeAttribute('aria-describedby');
    });
    this.app.faults.forEach((fault, at) => this.markOne(fault, `fault-${at}`));
  }

  /**
   * @param {Fault} fault
   * @param {string} id
   */
  markOne({ row, key, code, values }, id) {
    const at = (/** @type {string} */ column) => this.root.querySelector(`td[data-row="${row}"][data-key="${column}"]`);
    const cell = at(key) || at('job');
    const input = cell && cell.querySelector('input');
    if (!cell || !input) return;
    input.setAttribute('aria-invalid', 'true');
    input.setAttribute('aria-describedby', id);
    cell.append(element('span', { class: 'fault', id }, this.app.words.say(code, ...values)));
  }
}

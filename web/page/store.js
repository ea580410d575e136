// What stands in the page, and what stood there before: each change can be taken back, and made again.

const MOST = 200;

/**
 * A value with its history. Values are never changed in place.
 * @template Value
 */
export class Store {
  /** @param {Value} value */
  constructor(value) {
    this.value = value;
    /** @type {Value[]} */
    this.past = [];
    /** @type {Value[]} */
    this.future = [];
    /** @type {((value: Value, before: Value) => void)[]} */
    this.listeners = [];
  }

  /** @param {(value: Value, before: Value) => void} listener */
  listen(listener) { this.listeners.push(listener); }

  /**
   * @param {Value} value
   */
  set(value) {
    const before = this.value;
    this.value = value;
    for (const listener of this.listeners) listener(value, before);
  }

  /**
   * A change that can be taken back.
   * @param {Value} value
   */
  change(value) {
    this.past = [...this.past.slice(-MOST), this.value];
    this.future = [];
    this.set(value);
  }

  undo() {
    const value = this.past.pop();
    if (value === undefined) return;
    this.future.push(this.value);
    this.set(value);
  }

  redo() {
    const value = this.future.pop();
    if (value === undefined) return;
    this.past.push(this.value);
    this.set(value);
  }
}

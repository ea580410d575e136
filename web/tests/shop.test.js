// A shop's words in a store that keeps them, and in stores that refuse.
import assert from 'node:assert/strict';
import test from 'node:test';
import { PLACE, Shelf, shopIn, shopOf, shopText } from '../page/shop-words.js';
import { emptyProblem } from '../page/texts.js';
import { partsOf } from '../names.js';

const SHOP = { unit: 'h', shifts: 'Mo-Fr 06:00-14:00', holidays: '2026-12-24..2027-01-01', machineNames: ['Waschen', 'Mangeln'] };

/** @param {Object<string, string>} has */
function storage(has) {
  /** @type {Partial<Storage>} */
  const made = {
    getItem: key => key in has ? has[key] : null,
    setItem: (key, text) => { has[key] = text; },
    removeItem: key => { delete has[key]; },
  };
  return /** @type {Storage} */ (made);
}

test('what is kept is read again, and deleted', () => {
  /** @type {Object<string, string>} */
  const has = {}, shelf = new Shelf(() => storage(has));
  assert.deepEqual(shelf.kept, { shop: null, open: true });
  assert.ok(shelf.keep(SHOP));
  assert.deepEqual(Object.keys(has), [PLACE]);
  assert.deepEqual(shelf.kept, { shop: SHOP, open: true });
  assert.ok(shelf.drop());
  assert.deepEqual([shelf.kept, has], [{ shop: null, open: true }, {}]);
});

test('a store that refuses, or is not there, is no fault', () => {
  const refuse = () => { throw new Error('refused'); };
  /** @type {(more: Partial<Storage>) => Storage} */
  const odd = more => ({ ...storage({}), ...more });
  /** @type {[() => Storage | null | undefined, boolean][]} */
  const stores = [[refuse, false], [() => null, false], [() => undefined, false], [() => odd({ setItem: refuse }), true],
    [() => odd({ getItem: refuse, setItem: refuse, removeItem: refuse }), false], [() => odd({ setItem: () => undefined }), true]];
  for (const [where, open] of stores) {
    const shelf = new Shelf(where);
    assert.deepEqual([shelf.kept, shelf.keep(SHOP), shelf.drop()], [{ shop: null, open }, false, open]);
  }
});

test('what others wrote under the name is refused, or cut to words', () => {
  for (const text of ['', 'x', '[]', '{}', '{"is":"msp-shop 2","unit":"h"}', '{"is":"msp-shop 1"}', '{"is":"msp-shop 1","unit":5}', 'null']) {
    assert.equal(shopIn(text), null, text);
  }
  const more = { unit: 'h', shifts: 'x'.repeat(9999), machineNames: Array(999).fill('<b>'), rows: [1], onclick: 'y' };
  const long = shopIn(JSON.stringify({ is: 'msp-shop 1', ...more }));
  assert.deepEqual(long && [long.shifts.length, long.machineNames.length, Object.keys(long)],
    [400, 64, ['unit', 'shifts', 'holidays', 'machineNames']]);
});

test('the words of a problem, without names that are empty', () => {
  const problem = { ...emptyProblem({ ...partsOf(0) }), ...SHOP, start: '2026-03-02' };
  assert.deepEqual(shopIn(shopText(shopOf(problem))), SHOP);
  assert.deepEqual(shopOf({ ...problem, machineNames: ['', ' '] }).machineNames, []);
});

// Two plans side by side: what differs, and both in saved files and links.
import assert from 'node:assert/strict';
import { readFileSync } from 'node:fs';
import test from 'node:test';
import { run } from '../engine.js';
import { fraction, print } from '../fractions.js';
import { clockOf } from '../page/clock.js';
import { countAlike, differenceOf } from '../page/difference.js';
import { differing } from '../page/history.js';
import { built } from '../page/instance.js';
import { solvedOf } from '../page/schedule.js';
import { packed, stateIn, textOf, unpacked } from '../page/state.js';
import { problemOf } from '../page/texts.js';

const list = (/** @type {string} */ text) => {
  const found = problemOf(text);
  if (!found) throw new Error('no problem');
  return found;
};

/**
 * @param {import('../page/instance.js').Problem} problem
 * @param {[number, number, number, number][]} pieces rows, machines, begins and ends
 */
function side(problem, pieces) {
  return { problem, built: built(problem, clockOf(problem)), machineName: (/** @type {number} */ it) => `machine ${it}`,
    pieces: pieces.map(([row, machine, from, to]) => ({ row, op: 1, machine, from: fraction(from), to: fraction(to) })) };
}

test('what two plans differ in', () => {
  const one = list('msp 1\nclass P2||Lmax\njob a p=2 d=2\njob b p=3 d=5\njob c p=1 d=9\njob x p=1 d=1\nend\n');
  const two = list('msp 1\nclass P2||Lmax\njob c p=1 d=9\njob a p=2 d=2\njob b p=3 d=9\njob new p=1 d=9\nend\n');
  const before = side(one, [[1, 1, 0, 2], [2, 1, 2, 6], [3, 2, 0, 1], [4, 2, 1, 2]]);
  const now = side(two, [[2, 2, 1, 3], [3, 1, 2, 5], [1, 2, 0, 1], [4, 1, 0, 1]]);
  const { later, earlier, same, late, inTime, moved, come, gone } = differenceOf(before, now);
  assert.deepEqual(later.map(it => [it.row, print(it.by)]), [[2, '1']]);
  assert.deepEqual(earlier.map(it => [it.row, print(it.by)]), [[3, '1']]);
  assert.deepEqual([same, late, inTime, gone], [1, [2], [3], [4]]);
  assert.deepEqual(moved, [{ row: 2, from: 'machine 1', to: 'machine 2' }]);
  assert.deepEqual(come.map(it => [it.row, print(it.end)]), [[4, '1']]);
  const none = differenceOf(before, before);
  assert.deepEqual([none.same, none.later, none.moved, none.come, none.gone], [4, [], [], [], []]);
  assert.equal(countAlike(one, two), true);
  assert.equal(countAlike(one, { ...two, unit: 'h' }), false);
});

test('rows without names are the same where their numbers are', () => {
  const problem = list('msp 1\nclass 1||Cmax\njob a p=1\njob b p=2\nend\n');
  problem.rows = problem.rows.map(it => ({ ...it, name: '' }));
  const { same, gone, come } = differenceOf(side(problem, [[1, 1, 0, 1], [2, 1, 1, 3]]),
    side({ ...problem, rows: problem.rows.slice(1) }, [[2, 1, 1, 3]]));
  assert.deepEqual([same, gone, come], [1, [1], []]);
});

test('the plan beside is in the text of a state, and in links', async () => {
  const text = readFileSync(new URL('../../examples/late-orders.txt', import.meta.url), 'utf8'), problem = list(text);
  const { pieces } = solvedOf((await run(['solve'], text)).report, built(problem, clockOf(problem)));
  const other = { ...problem, machineNames: ['Saw'], unit: 'h', rows: problem.rows.slice(1) };
  /** @type {import('../page/state.js').State} */
  const state = { problem, plan: { pieces, from: 'own' }, kept: { problem: other, plan: { pieces: pieces.slice(1), from: 'rules' } } };
  const back = stateIn(await unpacked(await packed(textOf(state))));
  assert.deepEqual(back, state);
  const { kept } = state, swapped = kept && { problem: kept.problem, plan: kept.plan, kept: { problem, plan: kept.plan } };
  assert.deepEqual([{ ...state, kept: null }, swapped || state, { ...state, plan: null }].map(it => differing(state, it)),
    ['beside', 'beside', 'thePlan']);
  const alone = textOf({ problem, plan: null, kept: null });
  for (const kept of ['{}', 'null', '[]', '{"problem":{"class":"nonsense"}}', `{"problem":${alone},"plan":null}`]) {
    const found = stateIn(alone.replace('"kept":null', `"kept":${kept}`));
    assert.ok(found && found.kept === null, kept);
  }
});

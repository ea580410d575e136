// Undo and redo: each kind of change of the page is taken back and made again, and nothing else with it.
import assert from 'node:assert/strict';
import { existsSync, readFileSync } from 'node:fs';
import test from 'node:test';
import { partsOf, rankOf } from '../names.js';
import { App } from '../page/app.js';
import { turned } from '../page/arcs.js';
import { drawnProblem } from '../page/draw-view.js';
import { differing } from '../page/history.js';
import { taken } from '../page/list.js';
import { early, moved, split } from '../page/own.js';
import { listOf } from '../page/spreadsheet.js';
import { stateIn, textOf } from '../page/state.js';
import { withCell } from '../page/table-view.js';
import { problemOf } from '../page/texts.js';
import { Words } from '../words.js';
import { fraction } from '../fractions.js';

const missing = existsSync(new URL('../../released/msp.wasm', import.meta.url)) ? false : 'there is no released/msp.wasm here';
const words = new Words(JSON.parse(readFileSync(new URL('../page/words.json', import.meta.url), 'utf8')), 'en');
const example = (/** @type {string} */ name) => readFileSync(new URL(`../../examples/${name}`, import.meta.url), 'utf8');
const classOf = (/** @type {string} */ name) => ({ ...partsOf(rankOf(name)) });

/** @param {string} name */
function page(name) {
  const problem = problemOf(example(name));
  if (!problem) throw new Error(name);
  return new App({ problem, plan: null, kept: null }, words);
}

const piecesOf = (/** @type {App} */ app) => app.state.plan ? app.state.plan.pieces : [];

/** What can be done in the page, with the word that undo says of it.
 * @type {[string, (app: App) => void | Promise<void>][]} */
const CHANGES = [
  ['thePlan', app => app.solve()],
  ['thePlan', app => app.plan({ pieces: moved(piecesOf(app), 0, fraction(7, 2), 1, app.built), from: 'own' })],
  ['thePlan', app => app.plan({ pieces: split(piecesOf(app), 1), from: 'own' })],
  ['thePlan', app => app.plan({ pieces: early(piecesOf(app), app.built), from: 'own' })],
  ['jobs', app => app.change({ rows: withCell(app.problem.rows, app.problem.rows[0].id, 'p', '6,5') })],
  ['jobs', app => app.change({ rows: withCell(app.problem.rows, app.problem.rows[0].id, 'job', 'another') })],
  ['jobs', app => app.change({ rows: app.problem.rows.slice(1) })],
  ['className', app => app.change({ parts: classOf('Q|prec|Lmax'), machines: '3' })],
  ['jobs', app => {
    const found = turned(app.problem, 0, 1);
    app.change({ rows: 'rows' in found ? found.rows : [] });
  }],
  ['machines', app => app.change({ machines: '2' })],
  ['speeds', app => app.change({ speeds: '2 1' })],
  ['machineNames', app => app.change({ machineNames: ['Waschen', 'Mangeln'] })],
  ['clock', app => app.change({ unit: 'h' })],
  ['clock', app => app.change({ start: '2026-03-02 06:00' })],
  ['clock', app => app.change({ shifts: 'Mo-Fr 06:00-14:00' })],
  ['clock', app => app.change({ holidays: '2026-03-03' })],
  ['className', app => app.change({ parts: classOf('1|p=p|sumC') })],
  ['time', app => app.change({ time: '5' })],
  ['className', app => {
    const list = listOf('job;time;due\na;2;3\nb;4;5');
    if (list) app.store.change({ ...app.state, problem: taken(list, app.problem, false).problem, plan: null });
  }],
  ['jobs', app => app.store.change({ ...app.state, problem: drawnProblem(app.problem, 6, 74), plan: null })],
  ['className', app => app.store.change({ problem: problemOf(example('weighted-sum.txt')) || app.problem, plan: null, kept: null })],
];

test('each change is taken back and made again', { skip: missing }, async () => {
  const app = page('late-orders.txt'), texts = [textOf(app.state)];
  for (const [, act] of CHANGES) {
    await act(app);
    texts.push(textOf(app.state));
  }
  assert.equal(new Set(texts).size, CHANGES.length + 1);
  for (let at = CHANGES.length; at > 0; at--) {
    const { state } = app;
    app.store.undo();
    assert.equal(textOf(app.state), texts[at - 1], `undo ${at}`);
    assert.equal(differing(state, app.state), CHANGES[at - 1][0], `undo ${at}`);
  }
  assert.equal(app.store.past.length, 0);
  for (let at = 1; at <= CHANGES.length; at++) {
    app.store.redo();
    assert.equal(textOf(app.state), texts[at], `redo ${at}`);
  }
  for (const key of ['className', 'jobs', 'machines', 'speeds', 'time', 'machineNames', 'clock', 'thePlan']) assert.ok(words.say(key));
});

test('what changes nothing is no step, and a new change ends what could be made again', () => {
  const app = page('late-orders.txt'), { parts, machines } = app.problem;
  app.change({ machines, parts: { ...parts } });
  assert.equal(app.store.past.length, 0);
  app.change({ unit: 'h' });
  app.store.undo();
  assert.equal(app.store.future.length, 1);
  app.change({ unit: '' });
  assert.equal(app.store.future.length, 1);
  app.change({ unit: 'd' });
  assert.deepEqual([app.store.future.length, app.store.past.length], [0, 1]);
});

test('a plan that follows a change goes back with it', { skip: missing }, async () => {
  const app = page('late-orders.txt');
  await app.solve(true);
  assert.deepEqual([app.state.plan !== null, app.store.past.length], [true, 0]);
  const first = textOf(app.state);
  app.store.change({ problem: drawnProblem(app.problem, 5, 3), plan: null, kept: null });
  await app.solve(true);
  assert.deepEqual([app.state.plan && app.state.plan.from, app.store.past.length], ['best', 1]);
  const second = textOf(app.state);
  app.store.undo();
  assert.equal(textOf(app.state), first);
  app.store.redo();
  assert.equal(textOf(app.state), second);
  await app.solve();
  assert.equal(app.store.past.length, 2);
});

test('what was drawn, and the name of a sheet, are kept in a saved plan', () => {
  const app = page('late-orders.txt'), problem = { ...drawnProblem({ ...app.problem, unit: 'h' }, 5, 3), sheet: 'sheet-7' };
  const back = stateIn(textOf({ problem, plan: null, kept: null }));
  assert.deepEqual(back && [back.problem.drawn, back.problem.sheet, back.problem.unit], ['5 3', 'sheet-7', 'h']);
});

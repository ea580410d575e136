// Orders of jobs as people write them, and the plans that they are: the companions make the same of those that students hand in.
import assert from 'node:assert/strict';
import { spawnSync } from 'node:child_process';
import { env } from 'node:process';
import test from 'node:test';
import { fileURLToPath } from 'node:url';
import { print } from '../fractions.js';
import { NAMES, partsOf, rankOf } from '../names.js';
import { clockOf } from '../page/clock.js';
import { built } from '../page/instance.js';
import { begun, ordered, orderIn } from '../page/order.js';
import { plainOf, timedOf } from '../page/plain.js';
import { problemOf } from '../page/texts.js';
import { active } from '../page/timing.js';
import { Draw, drawn } from './drawn.js';

const DRAWN = Number(env.MSP_TIMINGS || 1000);
const noPython = spawnSync('python3', ['--version']).status === 0 ? false : 'there is no python3 here';

test('an order is read with its marks, and its faults are told', () => {
  const names = ['a', 'ab', 'Plakate M\u00fcller', 'x, y', 'B'];
  const codes = (/** @type {string} */ text) => orderIn(text, names).faults.map(it => it.code);
  for (const text of ['a, ab, Plakate M\u00fcller, x, y, B', 'a ab plakate m\u00fcller x, y b', 'A -> AB -> Plakate M\u00fcller -> x, y -> B',
    'a;ab\nPlakate M\u00fcller|x, y > B', ', a \u2192 ab \u2192 Plakate M\u00fcller \u2192 x, y \u2192 B;\n']) {
    assert.deepEqual(orderIn(text, names), { order: [0, 1, 2, 3, 4], faults: [] }, text);
  }
  assert.deepEqual(codes('a ab B x, y Plakate'), ['noJob', 'orderMissing']);
  assert.deepEqual(codes('a a ab B x, y Plakate M\u00fcller'), ['orderAgain']);
  assert.deepEqual(codes(''), ['orderMissing']);
  assert.deepEqual(orderIn('abc', names).faults[0], { code: 'noJob', values: ['abc'] });
  assert.deepEqual(orderIn('k K', ['K', 'k']).order, [1, 0]);
  const many = Array.from({ length: 9 }, (_, at) => `j${at}`), [{ values: [missing] }] = orderIn('j1', many).faults;
  assert.equal(missing, 'j0, j2, j3, j4, j5, j6, \u2026');
});

/**
 * An instance with an order, and what the page makes of it.
 * @param {string} name
 * @param {Draw} draw
 */
function drawnOrder(name, draw) {
  const text = drawn(name, partsOf(rankOf(name)), draw), problem = problemOf(text);
  if (!problem) throw new Error(text);
  const made = built(problem, clockOf(problem)), names = made.jobs.map(it => it.name), order = names.map((_, at) => at);
  for (let at = order.length - 1; at > 0; at--) {
    const other = draw.from(0, at);
    [order[at], order[other]] = [order[other], order[at]];
  }
  const said = order.map(it => names[it]).join(draw.one([', ', ' ', ' -> ', '\n', ';'])), found = orderIn(said, names);
  assert.deepEqual(found, { order, faults: [] });
  return { made, problem, order, names, asked: [text, said], ...ordered(made, problem.parts, order, names) };
}

test('an order is the plan that the companions make of it, and none where they refuse it', { skip: noPython }, () => {
  const draw = new Draw(78), all = Array.from({ length: DRAWN }, () => drawnOrder(draw.one(NAMES), draw));
  const asked = spawnSync('python3', [fileURLToPath(new URL('order.py', import.meta.url))],
    { input: JSON.stringify(all.map(it => it.asked)), maxBuffer: 1 << 28 });
  assert.equal(asked.status, 0, String(asked.stderr));
  const answers = JSON.parse(String(asked.stdout)), seen = new Set();
  all.forEach(({ made, problem, order, names, pieces, fault }, at) => {
    const kind = made.name[0], rows = new Map(made.jobs.map(it => [it.row.id, it.name]));
    const lines = pieces.map(it => [rows.get(it.row), it.op, it.machine, print(it.from), print(it.to)].join(' ')).sort();
    seen.add(`${kind} ${fault ? fault.code : ''}`);
    if ('QR'.includes(kind)) assert.match(answers[at], /^an order alone makes no schedule in .*: hand in the pieces/);
    const early = fault && fault.code === 'orderEarly' ? fault.values[0] : '';
    if (early) assert.match(answers[at], new RegExp(`${early} stands in front of a job that it comes after`));
    if ('1PF'.includes(kind) && !fault) assert.deepEqual(lines, answers[at], String(all[at].asked));
    if ('JO'.includes(kind)) {
      const timed = timedOf(plainOf(made, problem.parts));
      assert.ok(timed && !fault && active(timed, order).length === pieces.length);
    }
    if (pieces.length) assert.equal(begun(pieces, made, row => String(rows.get(row))).split(', ').length, names.length);
  });
  const wanted = ['1 ', '1 orderEarly', 'F ', 'F orderEarly', 'P ', 'Q orderNone', 'R orderNone', 'J ', 'O '];
  for (const it of wanted) assert.ok(seen.has(it) || DRAWN < 1000, it);
});

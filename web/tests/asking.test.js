// What if: each kind of question, its answer as the program judges it, and what the class cannot say.
import assert from 'node:assert/strict';
import { readFileSync } from 'node:fs';
import test from 'node:test';
import { run } from '../engine.js';
import { compare, fraction, print } from '../fractions.js';
import { NAMES, nameOf, partsOf, rankOf } from '../names.js';
import { answered, impossible } from '../page/asking.js';
import { clockOf } from '../page/clock.js';
import { built } from '../page/instance.js';
import { plainOf, timedOf } from '../page/plain.js';
import { scheduleText, solvedOf } from '../page/schedule.js';
import { problemOf } from '../page/texts.js';
import { listed, serial } from '../page/timing.js';
import { verdictOf } from '../page/verdicts.js';
import { Draw, drawn } from './drawn.js';

/** @typedef {import('../page/asking.js').Question} Question */
/** @typedef {import('../page/instance.js').Problem} Problem */
/** @typedef {import('../page/schedule.js').Piece} Piece */

const problem = (/** @type {string} */ text) => {
  const found = problemOf(text);
  if (!found) throw new Error('no problem');
  return found;
};
const make = (/** @type {Problem} */ it) => built(it, clockOf(it));
/** @type {(more: Partial<Question>) => Question} */
const question = more => ({ kind: 'time', machine: 1, row: 1, due: '', rush: { name: '', cells: {} }, now: fraction(0), ...more });

/** What the program says of pieces of a list. */
const judged = async (/** @type {{problem: Problem, pieces: Piece[]}} */ { problem: list, pieces }) => {
  const found = make(list), { report, note } = await run(['check'], found.text + scheduleText(pieces, found));
  return { ...verdictOf(report), note, text: found.text };
};

/**
 * A list with a plan of the page.
 * @param {string} text
 */
function planned(text) {
  const list = problem(text), found = make(list), timed = timedOf(plainOf(found, list.parts));
  if (!timed) throw new Error(text);
  const order = found.jobs.map((_, at) => at), unit = found.scale * BigInt(timed.parts);
  const pieces = (timed.shop ? serial(timed, order) : listed(timed, order)).map(it => ({ row: found.jobs[it.job].row.id, op: it.number,
    machine: it.machine + 1, from: fraction(it.start, unit), to: fraction(it.end, unit) }));
  return { list, pieces };
}

const LATHES = 'msp 1\nclass P||Lmax\nmachines 3\njob shafts p=7 d=8\njob bolts p=3 d=5\njob rings p=6 d=12\njob hubs p=5 d=9\njob cams p=4 d=6\n'
  + 'job pins p=2 d=4\njob gears p=8 d=16\nend\n';

test('a machine more and less change the class where its name has their number', () => {
  const cases = [['1||sumC', 'P2||sumC', ''], ['P2|r|sumT', 'P3|r|sumT', '1|r|sumT'], ['P3||Cmax', 'P||Cmax', 'P2||Cmax'],
    ['P||Cmax', 'P||Cmax', 'P||Cmax'], ['Q2||sumC', 'Q||sumC', 'Q||sumC'], ['R2||Cmax', 'R||Cmax', 'R||Cmax']];
  for (const [name, more, less] of cases) {
    const draw = new Draw(5), { list, pieces } = planned(drawn(name, partsOf(rankOf(name)), draw)), { machines } = make(list);
    const after = (/** @type {'more' | 'less'} */ kind) => answered(question({ kind, machine: 1 }), list, pieces, false).problem;
    assert.equal(nameOf(after('more').parts), more);
    assert.equal(make(after('more')).machines, machines + 1);
    if (less && machines > 1) {
      assert.equal(nameOf(after('less').parts), less);
      assert.deepEqual(after('less').machineNames, Array.from({ length: machines - 1 }, (_, at) => String(at + 2)));
    }
  }
  assert.equal(impossible('more', planned(drawn('F2||Cmax', partsOf(rankOf('F2||Cmax')), new Draw(3))).list, 2), 'ifShopMore');
  assert.equal(impossible('less', problem(LATHES), 1), 'ifLastMachine');
  assert.equal(impossible('due', problem('msp 1\nclass 1||sumC\njob a p=1\nend\n'), 1), 'ifNoDue');
});

test('an order gone, a rush order, cutting, a due date', async () => {
  const chain = problem('msp 1\nclass 1|prec|Lmax\njob a p=2 d=3\njob b p=3 d=4\njob c p=1 d=9\narc a b\narc b c\nend\n');
  const found = make(chain), { report } = await run(['solve'], found.text), { pieces } = solvedOf(report, found);
  const gone = answered(question({ kind: 'gone', row: 2 }), chain, pieces, false);
  assert.deepEqual(make(gone.problem).jobs.map(it => it.name), ['a', 'c']);
  assert.deepEqual(make(gone.problem).arcs, []);
  const rush = answered(question({ kind: 'rush', rush: { name: 'rush', cells: { p: '1', d: '2', after: 'a' } } }), chain, pieces, false);
  assert.deepEqual(make(rush.problem).arcs, [[0, 1], [1, 2], [0, 3]]);
  assert.equal((await judged(rush)).feasible, true);
  const cut = answered(question({ kind: 'cut' }), chain, pieces, false);
  assert.equal(nameOf(cut.problem.parts), '1|pmtn,prec|Lmax');
  assert.equal(nameOf(answered(question({ kind: 'cut' }), cut.problem, cut.pieces, false).problem.parts), '1|prec|Lmax');
  const due = answered(question({ kind: 'due', row: 3, due: '5' }), chain, pieces, false);
  assert.equal(print(make(due.problem).jobs[2].d || fraction(0)), '5');
  for (const [more, code] of /** @type {[Partial<Question>, string][]} */ ([[{ kind: 'due', row: 3, due: 'x' }, 'notNumber'],
    [{ kind: 'rush', rush: { name: 'a', cells: { p: '1', d: '2' } } }, 'nameAgain'], [{ kind: 'rush', rush: { name: '', cells: {} } }, ''],
    [{ now: fraction(-1) }, 'ifBefore'], [{ now: fraction(100) }, 'ifNothingLeft'], [{ kind: 'more', now: fraction(1, 3) }, '']])) {
    let said = '';
    try {
      answered(question(more), chain, pieces, false);
    } catch (fault) {
      said = String(/** @type {{code: string}} */ (fault).code);
    }
    assert.equal(said, code, code);
  }
});

test('the plan until now kept: what runs stays, and what the class cannot say is told', async () => {
  const { list, pieces } = planned(LATHES), codes = (/** @type {{told: {code: string}[]}} */ it) => it.told.map(told => told.code);
  const found = answered(question({ now: fraction(4) }), list, pieces, false);
  assert.deepEqual(codes(found), ['leftPinned', 'leftPinned', 'leftPinned', 'leftFrom']);
  assert.equal(found.rest.running.length, 3);
  const both = [await judged(found), await judged(found.before)];
  assert.ok(both.every(it => it.feasible) && both[0].text === both[1].text);
  const failed = answered(question({ kind: 'less', machine: 3, now: fraction(4) }), list, pieces, false);
  assert.deepEqual(codes(failed), ['leftAgain', 'leftPinned', 'leftPinned', 'leftFrom']);
  assert.equal((await judged(failed)).feasible, true);
  assert.deepEqual(failed.problem.machineNames, ['', '']);
  const runs = found.pieces.filter(it => it.from.n === 0n);
  const again = answered(question({ kind: 'gone', row: 5 }), found.problem, found.pieces, false, runs);
  assert.deepEqual([codes(again), again.rest.running.length], [['leftPinned', 'leftPinned', 'leftPinned'], 3]);
  assert.ok((await judged(again)).feasible && (await judged(again.before)).feasible);
  const dated = planned('msp 1\nclass P2|r|sumC\njob a p=5 r=0\njob b p=4 r=1\njob c p=2 r=2\nend\n');
  const later = answered(question({ now: fraction(3) }), dated.list, dated.pieces, false), those = later.rest.running.length;
  const further = answered(question({ kind: 'due', row: 3, due: '9' }), { ...later.problem, parts: { ...later.problem.parts, criterion: 'Lmax' },
    rows: later.problem.rows.map(it => ({ ...it, cells: { ...it.cells, d: '7' } })) }, later.pieces, false, later.pieces.slice(0, those));
  assert.deepEqual([those, further.rest.running, further.problem.rows[2].cells.r], [2, later.rest.running, '3']);
  const one = planned('msp 1\nclass 1||sumC\njob a p=4\njob b p=2\njob c p=3\nend\n');
  const ended = answered(question({ now: fraction(1) }), one.list, one.pieces, false);
  assert.deepEqual([codes(ended), ended.problem.rows.map(it => it.name), ended.rest.running.length], [['leftUntil', 'leftFromCosts'], ['b', 'c'], 0]);
  const gone = answered(question({ kind: 'gone', row: 1, now: fraction(1) }), one.list, one.pieces, false);
  assert.deepEqual([gone.problem.rows.length, gone.before.problem.rows.length], [2, 3]);
  assert.deepEqual((await judged(gone.before)).cost, fraction(3 + 5 + 8));
});

test('dates move the moment 0, and cells stay as they were typed', () => {
  const list = { ...problem('msp 1\nclass 1||Lmax\njob a p=4 d=6\njob b p=2 d=9\nend\n'), unit: 'h', start: '02.03.2026 06:00',
    shifts: 'Mo-Fr 06:00-14:00' };
  list.rows[1].cells = { p: '1,5', d: '03.03.2026 10:00' };
  const pieces = make(list).jobs.map((it, at) => ({ row: it.row.id, op: 1, machine: 1, from: fraction(4 * at), to: fraction(at ? 11 : 8, 2) }));
  const { problem: left } = answered(question({ now: fraction(4) }), list, pieces, true);
  assert.equal(left.start, '02.03.2026 10:00');
  assert.deepEqual(left.rows, [{ id: 2, name: 'b', cells: { p: '1,5', d: '03.03.2026 10:00' } }]);
  assert.equal(print(make(left).jobs[0].d || fraction(0)), '8');
});

test('on drawn plans both plans go, in the same terms', async () => {
  const draw = new Draw(77);
  let asked = 0;
  for (let at = 0; at < 150; at++) {
    const name = draw.one(NAMES), { list, pieces } = planned(drawn(name, partsOf(rankOf(name)), draw));
    const kinds = /** @type {const} */ (['time', 'gone', 'more', 'less', 'cut']), kind = draw.one([...kinds]);
    const now = fraction(draw.from(0, 24), draw.from(1, 2)), { machines, jobs } = make(list);
    if (impossible(kind, list, machines) || kind === 'gone' && jobs.length < 2) continue;
    if (/needs/.test((await judged({ problem: list, pieces })).note)) continue;
    const wanted = question({ kind, machine: draw.from(1, machines), row: jobs[draw.from(0, jobs.length - 1)].row.id, now });
    let found;
    try {
      found = answered(wanted, list, pieces, false);
    } catch (fault) {
      assert.ok(['ifNothingLeft', 'notWhole'].includes(/** @type {{code: string}} */ (fault).code), `${name} ${kind} ${print(now)}: ${fault}`);
      continue;
    }
    asked++;
    for (const it of [found, found.before]) {
      const { feasible, note, text } = await judged(it);
      assert.ok(feasible || /no check/.test(note), `${name} ${kind} ${print(now)}: ${note}\n${text}`);
    }
    assert.ok(found.pieces.every(it => compare(it.from, fraction(0)) >= 0));
  }
  assert.ok(asked > 60, String(asked));
});

test('the words of all that is told and refused', () => {
  /** @type {Object<string, string[]>} */
  const table = JSON.parse(readFileSync(new URL('../page/words.json', import.meta.url), 'utf8'));
  const folder = new URL('../page/', import.meta.url);
  const names = ['asking.js', 'leftover.js', 'what-if-view.js', 'order.js', 'difference-words.js'];
  const code = names.map(it => readFileSync(new URL(it, folder), 'utf8')).join('\n');
  for (const [, key] of code.matchAll(/'((?:if|left|order|diff)[A-Z]\w*)'/g)) assert.ok(key in table || key === 'leftCounted', key);
  const kinds = ['more', 'less', 'gone', 'rush', 'cut', 'nocut', 'due', 'time'];
  for (const kind of kinds) assert.ok(`if ${kind}` in table && `asked ${kind}` in table, kind);
});

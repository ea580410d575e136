// The order of jobs as a graph: levels, circles, the picture, and arcs that are turned in the column after.
import assert from 'node:assert/strict';
import test from 'node:test';
import { partsOf, rankOf } from '../names.js';
import { arcsIn, BOX, circleOf, layoutOf, levelsOf, MOST_DRAWN, TALL, turned, wayOf } from '../page/arcs.js';
import { clockOf } from '../page/clock.js';
import { built, usedRows } from '../page/instance.js';
import { emptyProblem } from '../page/texts.js';
import { Draw } from './drawn.js';

/** @typedef {import('../page/arcs.js').Arc} Arc */
/** @typedef {import('../page/instance.js').Problem} Problem */

/**
 * @param {Draw} draw
 * @param {number} count
 * @param {boolean} round whether arcs may go back
 * @returns {Arc[]}
 */
function arcsOf(draw, count, round) {
  const all = Array.from({ length: draw.from(0, 2 * count) }, () => {
    const [one, other] = [draw.from(0, count - 1), draw.from(0, count - 1)];
    return /** @type {Arc} */ (round ? [one, other] : [Math.min(one, other), Math.max(one, other)]);
  });
  return Array.from(new Map(all.filter(it => it[0] !== it[1]).map(it => [String(it), it])).values());
}

/**
 * A problem with precedence whose jobs have these names; no text is a job without one.
 * @param {string[]} names
 * @returns {Problem}
 */
function problem(names) {
  const rows = names.map((name, at) => ({ id: at + 1, name, cells: /** @type {Object<string, string>} */ ({ p: String(at + 1) }) }));
  return { ...emptyProblem({ ...partsOf(rankOf('1|prec|Cmax')) }), rows };
}

/**
 * How many arcs a longest way to a job has.
 * @param {Arc[]} arcs
 * @param {number} at
 * @returns {number}
 */
function longest(arcs, at) { return Math.max(0, ...arcs.filter(it => it[1] === at).map(it => longest(arcs, it[0]) + 1)); }

test('levels are the longest ways, and circles are found', () => {
  const draw = new Draw(761);
  for (let turn = 0; turn < 300; turn++) {
    const count = draw.from(1, 12), arcs = arcsOf(draw, count, false), levels = levelsOf(count, arcs);
    assert.deepEqual(levels, levels.map((_, at) => longest(arcs, at)));
    assert.equal(circleOf(arcs), null);
  }
  for (let turn = 0; turn < 300; turn++) {
    const count = draw.from(1, 8), arcs = arcsOf(draw, count, true), circle = circleOf(arcs), has = new Set(arcs.map(String));
    let rest = arcs;
    // (an arc whose first job waits for none belongs to no circle)
    for (let before = -1; before !== rest.length;) {
      before = rest.length;
      rest = rest.filter(it => rest.some(other => other[1] === it[0]));
    }
    assert.equal(circle === null, rest.length === 0);
    if (circle) circle.slice(1).forEach((it, at) => assert.ok(has.has(`${circle[at]},${it}`)));
    assert.ok(!circle || circle[0] === circle[circle.length - 1]);
    assert.equal(levelsOf(count, arcs).length, count);
  }
  assert.deepEqual(wayOf([[0, 1], [1, 2], [0, 2]], 0, 2), [0, 2]);
});

test('in the picture no two jobs overlap, and arcs go from the left to the right', () => {
  const draw = new Draw(762);
  for (let turn = 0; turn < 200; turn++) {
    const count = turn ? draw.from(1, MOST_DRAWN) : MOST_DRAWN, arcs = arcsOf(draw, count, false);
    const { boxes, lines, width, height } = layoutOf(count, arcs, 460);
    boxes.forEach(({ x, y }, at) => {
      assert.ok(x >= 0 && y >= 0 && x + BOX <= width && y + TALL <= height);
      boxes.slice(0, at).forEach(it => assert.ok(Math.abs(it.x - x) >= BOX || Math.abs(it.y - y) >= TALL));
    });
    assert.deepEqual(lines.map(it => it.arc), arcs);
    for (const { points } of lines) points.slice(1).forEach((it, at) => assert.ok(it.x > points[at].x));
  }
  const round = layoutOf(3, [[0, 1], [1, 0], [1, 2]], 460);
  assert.deepEqual(round.lines.map(it => it.round), [true, true, false]);
});

test('an arc is added and taken away in the column, whatever the jobs are called', () => {
  const names = ['Plakate M\u00fcller', '', 'a, b', 'a', 'b; c', '', '<b>"x"</b>', '\u05d0\u05d1', 'j9', 'a b'], draw = new Draw(763);
  let now = problem(names);
  const wanted = new Set();
  for (let turn = 0; turn < 400; turn++) {
    const [before, after] = [draw.from(0, 9), draw.from(0, 9)], found = before === after ? null : turned(now, before, after);
    if (!found) continue;
    const arc = String([before, after]);
    if ('circle' in found) {
      assert.deepEqual([found.circle[0], found.circle[1], found.circle[found.circle.length - 1]], [before, after, before]);
      continue;
    }
    assert('rows' in found, arc);
    assert.equal(found.added, !wanted.has(arc));
    if (found.added) wanted.add(arc);
    else wanted.delete(arc);
    now = { ...now, rows: found.rows };
    assert.deepEqual(arcsIn(usedRows(now)).map(String).sort(), Array.from(wanted).sort());
    assert.deepEqual(built(now, clockOf(now)).faults, []);
  }
  assert.ok(wanted.size > 5);
});

test('a circle changes nothing and is named; so is a job that the column cannot name', () => {
  const now = problem(['a', 'b', 'c']);
  const one = turned(now, 0, 1), two = 'rows' in one ? turned({ ...now, rows: one.rows }, 1, 2) : one, rows = 'rows' in two ? two.rows : [];
  assert.deepEqual(turned({ ...now, rows }, 2, 0), { circle: [2, 0, 1, 2] });
  assert.deepEqual(rows.map(it => it.cells.after || ''), ['', 'a', 'b']);
  const odd = problem(['a | b', 'c', 'd']);
  odd.rows[2].cells.after = 'c';
  assert.deepEqual(turned(odd, 0, 2), { nameless: 0 });
  assert.deepEqual(turned(problem(['a', 'a', 'b']), 0, 2), { nameless: 0 });
});

test('what else stands in the column stays there', () => {
  const now = problem(['a', 'b', 'c']);
  now.rows[2].cells.after = 'a, nobody';
  const found = turned(now, 1, 2), rows = 'rows' in found ? found.rows : [];
  assert.equal(rows[2].cells.after, 'a | nobody | b');
  const again = turned({ ...now, rows }, 0, 2);
  assert.equal('rows' in again && again.rows[2].cells.after, 'nobody | b');
});

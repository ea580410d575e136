// How orders become schedules: each way gives the pieces that the companions give.
import assert from 'node:assert/strict';
import { spawnSync } from 'node:child_process';
import { env } from 'node:process';
import test from 'node:test';
import { fileURLToPath } from 'node:url';
import { fraction, plus, print } from '../fractions.js';
import { NAMES, partsOf, rankOf } from '../names.js';
import { clockOf } from '../page/clock.js';
import { built } from '../page/instance.js';
import { early } from '../page/own.js';
import { plainOf, timedOf } from '../page/plain.js';
import { scheduleText } from '../page/schedule.js';
import { problemOf } from '../page/texts.js';
import { serial, TIMINGS } from '../page/timing.js';
import { Draw, drawn } from './drawn.js';

/** @typedef {import('../page/instance.js').Built} Built */
/** @typedef {import('../page/schedule.js').Piece} Piece */

const DRAWN = Number(env.MSP_TIMINGS || 1000);
const noPython = spawnSync('python3', ['--version']).status === 0 ? false : 'there is no python3 here';

/**
 * Pieces as timing.py writes them.
 * @param {Piece[]} pieces
 * @param {Built} found
 */
function lines(pieces, found) {
  const names = new Map(found.jobs.map(it => [it.row.id, it.name]));
  return pieces.map(it => [names.get(it.row), it.op, it.machine, print(it.from), print(it.to)].join(' ')).sort();
}

/**
 * An instance, an order of its jobs, and what the page makes of both.
 * @param {string} name
 * @param {Draw} draw
 */
function drawnOrder(name, draw) {
  const text = drawn(name, partsOf(rankOf(name)), draw), problem = problemOf(text);
  if (!problem) throw new Error(text);
  const found = built(problem, clockOf(problem)), timed = timedOf(plainOf(found, problem.parts)), order = found.jobs.map((_, at) => at);
  if (!timed) throw new Error(text);
  for (let at = order.length - 1; at > 0; at--) {
    const other = draw.from(0, at);
    [order[at], order[other]] = [order[other], order[at]];
  }
  const piecesOf = (/** @type {import('../page/timing.js').Placed[]} */ placed) => placed.map(it => ({ row: found.jobs[it.job].row.id,
    op: it.number, machine: it.machine + 1, from: fraction(it.start, timed.parts), to: fraction(it.end, timed.parts) }));
  const far = (/** @type {Piece} */ it) => fraction(it.row % 3);
  const late = piecesOf(serial(timed, order)).map(it => ({ ...it, from: plus(it.from, far(it)), to: plus(it.to, far(it)) }));
  const ways = Object.entries(TIMINGS).filter(([way]) => timed.shop || way !== 'active')
    .map(([way, call]) => [way, lines(piecesOf(call(timed, order)), found)]);
  return { asked: [text, order, scheduleText(late, found)], told: { ...Object.fromEntries(ways), early: lines(early(late, found), found) } };
}

test('an order becomes the schedule that the companions make of it', { skip: noPython }, () => {
  const draw = new Draw(75), all = Array.from({ length: DRAWN }, () => drawnOrder(draw.one(NAMES), draw));
  const asked = spawnSync('python3', [fileURLToPath(new URL('timing.py', import.meta.url))],
    { input: JSON.stringify(all.map(it => it.asked)), maxBuffer: 1 << 28 });
  assert.equal(asked.status, 0, String(asked.stderr));
  const answers = JSON.parse(String(asked.stdout));
  assert.equal(answers.length, all.length);
  all.forEach((it, at) => assert.deepEqual(it.told, answers[at], String(it.asked)));
});

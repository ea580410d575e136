// What is left of a plan at a moment: the page has what the companions have.
import assert from 'node:assert/strict';
import { spawnSync } from 'node:child_process';
import { env } from 'node:process';
import test from 'node:test';
import { fileURLToPath } from 'node:url';
import { fraction, over, plus, print } from '../fractions.js';
import { NAMES, partsOf, rankOf } from '../names.js';
import { clockOf } from '../page/clock.js';
import { built } from '../page/instance.js';
import { leftOf } from '../page/leftover.js';
import { restOf, whole } from '../page/pinned.js';
import { plainOf, plainText, timedOf } from '../page/plain.js';
import { problemOf } from '../page/texts.js';
import { carriedOn, serial } from '../page/timing.js';
import { Draw, drawn } from './drawn.js';

/** @typedef {import('../page/leftover.js').Span} Span */
/** @typedef {import('../page/leftover.js').Leftover} Leftover */
/** @typedef {import('../page/plain.js').Plain} Plain */

const DRAWN = Number(env.MSP_TIMINGS || 1000);
const noPython = spawnSync('python3', ['--version']).status === 0 ? false : 'there is no python3 here';

/**
 * @param {Span[]} pieces
 * @param {Plain} plain
 */
function lines(pieces, plain) {
  return pieces.map(it => [plain.jobs[it.job].name, it.number, it.machine + 1, print(it.start), print(it.end)].join(' ')).sort();
}

/**
 * Pieces cut in two where work may be cut, the second one on any machine.
 * @param {Span} piece
 * @param {Plain} plain
 * @param {Draw} draw
 * @returns {Span[]}
 */
function cutInTwo(piece, plain, draw) {
  if (!plain.parts.cut || draw.from(0, 1)) return [piece];
  const middle = over(plus(piece.start, piece.end), fraction(2)), shop = 'OFJ'.includes(plain.parts.environment[0]);
  return [{ ...piece, end: middle }, { ...piece, start: middle, machine: shop ? piece.machine : draw.from(0, plain.machines - 1) }];
}

/**
 * What the page says is left, as leftover.py writes it.
 * @param {Leftover | null} left
 * @param {Plain} given
 */
function told(left, given) {
  if (!left) return null;
  const { plain } = left, rest = restOf(left), name = (/** @type {number} */ it) => plain.jobs[it].name;
  if (!rest.timed) throw new Error('too great');
  const words = left.told.map(({ code, job, machine, values }) => [code, ...(job < 0 ? [] : [given.jobs[job].name]),
    ...(machine < 0 ? [] : [String(machine + 1)]), ...values.map(it => typeof it === 'string' ? it : print(it))]);
  const running = left.running.map(it => [name(it.job), it.number, it.machine + 1, it.left].join(' ')).sort();
  return { text: plainText(plain), origin: Number(left.origin), running,
    order: left.order.map(it => [name(it.job), it.number, it.machine === null ? null : it.machine + 1]), told: words,
    goingOn: lines(whole(rest, carriedOn(rest.timed, rest.order)), plain) };
}

/**
 * An instance, a plan, a moment, sometimes a machine that is out of order, and what is left.
 * @param {string} name
 * @param {Draw} draw
 */
function drawnPlan(name, draw) {
  const text = drawn(name, partsOf(rankOf(name)), draw), problem = problemOf(text);
  if (!problem) throw new Error(text);
  const found = built(problem, clockOf(problem)), plain = plainOf(found, problem.parts), timed = timedOf(plain);
  if (!timed) throw new Error(text);
  const pieces = serial(timed, plain.jobs.map((_, at) => at)).map(({ start, end, ...it }) =>
    ({ ...it, start: fraction(start, timed.parts), end: fraction(end, timed.parts) })).flatMap(it => cutInTwo(it, plain, draw));
  const unit = pieces.reduce((all, it) => all * it.end.d * it.start.d, 1n);
  const at = (/** @type {import('../fractions.js').Fraction} */ it) => it.n * unit / it.d;
  const schedule = ['schedule', 'cost 0', `unit ${unit}`, ...pieces.map(it =>
    `piece ${plain.jobs[it.job].name} ${it.number} ${it.machine + 1} ${at(it.start)} ${at(it.end)}`), 'end', ''].join('\n');
  const now = draw.from(0, 25), fails = 'PQR'.includes(name[0]) && plain.machines > 1 && draw.from(0, 2) === 0;
  const failed = fails ? [draw.from(0, plain.machines - 1)] : [];
  const left = leftOf(plain, pieces, { now: BigInt(now), failed, pins: false });
  return { asked: [text, schedule, now, failed.map(it => it + 1)], told: told(left, plain) };
}

test('what is left of a plan is what the companions say', { skip: noPython }, () => {
  const draw = new Draw(76), all = Array.from({ length: DRAWN }, () => drawnPlan(draw.one(NAMES), draw));
  const asked = spawnSync('python3', [fileURLToPath(new URL('leftover.py', import.meta.url))],
    { input: JSON.stringify(all.map(it => it.asked)), maxBuffer: 1 << 28 });
  assert.equal(asked.status, 0, String(asked.stderr));
  const answers = JSON.parse(String(asked.stdout));
  assert.equal(answers.length, all.length);
  all.forEach((it, at) => assert.deepEqual(it.told, answers[at], JSON.stringify(it.asked)));
  const seen = new Set(all.flatMap(it => it.told ? it.told.told.map(([code]) => code) : ['nothing']));
  const codes = ['nothing', ...['Again', 'Rounded', 'Until', 'Shared', 'Fewer', 'Counted', 'Pinned', 'FromCosts', 'From'].map(it => `left${it}`)];
  for (const it of codes) assert.ok(seen.has(it) || DRAWN < 1000, it);
});

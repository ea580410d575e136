// Drawn instances: those of `msp trial`, by what it says of them, and those of the companions.
import assert from 'node:assert/strict';
import { spawnSync } from 'node:child_process';
import { existsSync, readFileSync } from 'node:fs';
import { env } from 'node:process';
import test from 'node:test';
import { fileURLToPath } from 'node:url';
import { run } from '../engine.js';
import { ENVIRONMENTS, NAMES, partsOf, rankOf } from '../names.js';
import { clockOf } from '../page/clock.js';
import { drawn } from '../page/draw.js';
import { built } from '../page/instance.js';
import { recordsOf } from '../page/spreadsheet.js';
import { problemOf } from '../page/texts.js';
import { Draw } from './drawn.js';

/** How many solved classes are tried by the program, of 666. */
const TRIED = Number(env.MSP_DRAWN || 300);
const missing = existsSync(new URL('../../released/msp.wasm', import.meta.url)) ? false : 'there is no released/msp.wasm here';
const noPython = spawnSync('python3', ['--version']).status === 0 ? false : 'there is no python3 here';
const named = (/** @type {string} */ name) => partsOf(rankOf(name));
const costIn = (/** @type {string} */ report) => (report.match(/^cost .*$/m) || [''])[0];

/** The solved classes, by their environments. */
function solved() {
  const labels = readFileSync(new URL('../../released/labels.csv', import.meta.url), 'utf8');
  const [head, ...rows] = recordsOf(`sep=,\n${labels}`), place = head.indexOf('solver');
  const names = rows.filter(it => it[place]).map(it => it[0]);
  return ENVIRONMENTS.map(it => names.filter(name => named(name).environment === it)).filter(it => it.length);
}

test('what is drawn by hand from the seed 1', () => {
  assert.equal(drawn(named('1||sumwC'), 3, 1), 'msp 1\nclass 1||sumwC\njob j1 p=39 w=59\njob j2 p=14 w=16\njob j3 p=52 w=28\nend\n');
  assert.equal(drawn(named('F2||Cmax'), 3, 1),
    'msp 1\nclass F2||Cmax\njob j1\ntimes 39 1\njob j2\ntimes 14 42\njob j3\ntimes 52 72\nend\n');
});

test('the companions draw the same', { skip: noPython }, () => {
  const draw = new Draw(741), seed = () => draw.from(0, draw.from(0, 3) ? 999 : 2 ** 31 - 1);
  const wanted = NAMES.map(name => [name, draw.from(1, 12), seed()]);
  const asked = spawnSync('python3', [fileURLToPath(new URL('draw.py', import.meta.url))], { input: JSON.stringify(wanted), maxBuffer: 1 << 28 });
  assert.equal(asked.status, 0, String(asked.stderr));
  const texts = JSON.parse(String(asked.stdout));
  assert.equal(texts.length, 9720);
  wanted.forEach(([name, ...more], at) => {
    const [jobs, drawnBy] = more.map(Number);
    assert.equal(drawn(named(String(name)), jobs, drawnBy), texts[at], `${name} ${more.join(' ')}`);
  });
});

test('the page reads what is drawn as it stands', () => {
  const draw = new Draw(742);
  for (const name of NAMES.filter((_, at) => at % 29 === 0)) {
    const text = drawn(named(name), draw.from(1, 20), draw.from(0, 2 ** 31 - 1)), problem = problemOf(text);
    assert(problem);
    const found = built(problem, clockOf(problem));
    assert.deepEqual(found.faults, [], text);
    assert.deepEqual(found.text.split('\n').sort(), text.split('\n').sort());
  }
});

test('solved, what is drawn has the cost of the trial', { skip: missing }, async () => {
  const draw = new Draw(743), those = solved(), seen = new Set();
  assert.equal(those.flat().length, 666);
  for (let at = 0; seen.size < TRIED; at++) {
    const name = draw.one(those[at % those.length]), jobs = draw.from(1, 30), seed = draw.from(0, 2 ** 31 - 1);
    if (seen.has(name)) continue;
    seen.add(name);
    const trial = await run(['trial', name, String(jobs), String(seed)]), found = await run(['solve'], drawn(named(name), jobs, seed));
    assert.deepEqual([trial.status, found.status, costIn(found.report)], [0, 0, costIn(trial.report)], `${name} ${jobs} ${seed}`);
    assert.ok(costIn(trial.report));
  }
  assert.deepEqual(those.map(it => it.some(name => seen.has(name))), those.map(() => true));
});

// Bounds of the page: each step, its text, its words and its inequality are those of the companions, and none is above what costs show.
import assert from 'node:assert/strict';
import { spawnSync } from 'node:child_process';
import { existsSync, readFileSync } from 'node:fs';
import { env } from 'node:process';
import test from 'node:test';
import { fileURLToPath } from 'node:url';
import { Atlas } from '../classes.js';
import { run } from '../engine.js';
import { compare, fraction, print, printed } from '../fractions.js';
import { nameOf, NAMES, partsOf, rankOf } from '../names.js';
import { clockOf } from '../page/clock.js';
import { built } from '../page/instance.js';
import { plainOf, plainText } from '../page/plain.js';
import { boundOf, chains } from '../page/relaxations.js';
import { problemOf } from '../page/texts.js';
import { Words } from '../words.js';
import { Draw, drawn } from './drawn.js';

/** @typedef {import('../page/relaxations.js').Chain} Chain */

/** How many instances are drawn, and of how many the companions' greatest bound is asked. */
const DRAWN = Number(env.MSP_BOUNDS || 200), ASKED = env.MSP_BOUNDS ? DRAWN : 5;
const program = new URL('../../released/msp', import.meta.url);
const missing = !existsSync(new URL('../../released/msp.wasm', import.meta.url)) || !existsSync(program) ? 'there is no released program here'
  : spawnSync('python3', ['--version']).status === 0 ? false : 'there is no python3 here';
const words = new Words(JSON.parse(readFileSync(new URL('../page/words.json', import.meta.url), 'utf8')), 'en');
const page = readFileSync(new URL('../../released/atlas.html', import.meta.url), 'utf8');
const data = page.match(/<script id="data" type="application\/json">(.*?)<\/script>/s), atlas = new Atlas(JSON.parse(data ? data[1] : ''));
const isSolved = (/** @type {string} */ name) => atlas.solver(rankOf(name)) !== null;

/** @param {string} text */
function plainIn(text) {
  const problem = problemOf(text);
  if (!problem) throw new Error(text);
  return plainOf(built(problem, clockOf(problem)), problem.parts);
}

/**
 * A chain as bounds.py reads it, with its value at some costs.
 * @param {Chain} chain
 * @param {import('../fractions.js').Fraction} cost
 */
function told(chain, cost) {
  const bound = boundOf(chain, cost), { steps, instances } = bound.chain, costs = [cost, fraction(-7, 3), fraction(1000)];
  const value = (/** @type {import('../fractions.js').Fraction} */ it) => steps.reduceRight((all, step, at) => step.value(all, instances[at]), it);
  return { steps: steps.map(it => it.name), texts: instances.slice(1).map(plainText),
    costs: costs.map(print), values: costs.map(it => print(value(it))),
    words: steps.map(it => words.say(`step ${it.name.split(':')[0]}`, it.name.split(':')[1] || '')) };
}

/** @param {string} text */
async function toldOf(text) {
  const those = [];
  let greatest = null;
  for (const chain of chains(plainIn(text), { solved: isSolved, taken: true })) {
    const { status, report, note } = await run(['solve'], plainText(chain.instances[chain.instances.length - 1]));
    const cost = printed((report.match(/^cost (.*)$/m) || ['', ''])[1]);
    assert.ok(status === 0 && cost, note);
    const { value } = boundOf(chain, cost);
    if (!greatest || compare(value, greatest) > 0) greatest = value;
    those.push(told(chain, cost));
  }
  return { text, chains: those, greatest: greatest && print(greatest) };
}

test('steps of bounds are those of the companions', { skip: missing }, async () => {
  const draw = new Draw(74), all = [];
  while (all.length < DRAWN) {
    const name = draw.one(NAMES);
    if (!isSolved(name)) all.push(await toldOf(drawn(name, partsOf(rankOf(name)), draw)));
  }
  const asked = spawnSync('python3', [fileURLToPath(new URL('bounds.py', import.meta.url)), String(ASKED)],
    { input: JSON.stringify(all), maxBuffer: 1 << 28, env: { ...env, MSP: fileURLToPath(program) } });
  assert.equal(asked.status, 0, String(asked.stderr));
  assert.deepEqual(JSON.parse(String(asked.stdout)), []);
  const seen = new Set(all.flatMap(it => it.chains).flatMap(it => it.steps).map(it => it.split(':')[0]));
  assert.ok(seen.size >= 15, Array.from(seen).join(' '));
});

/** A class whose solver has a limit, and a problem that is loosened to it: numbers so great that the solver refuses them. */
const GREAT = `job a p=100000000 d=150000000 w=300000000
job b p=90000000 d=100000000 w=200000000
job c p=80000001 d=260000000 w=100000007
job d p=70000000 d=260000000 w=400000000
`;

/**
 * The greatest bound of an instance, and how many instances a solver refused.
 * @param {string} text
 */
async function beyond(text) {
  const plain = plainIn(text), name = nameOf(plain.parts), asked = { solved: (/** @type {string} */ it) => it !== name && isSolved(it), taken: true };
  let greatest = null, refused = 0;
  for (const chain of chains(plain, asked)) {
    const { status, report } = await run(['solve'], plainText(chain.instances[chain.instances.length - 1]));
    const cost = printed((report.match(/^cost (.*)$/m) || ['', ''])[1]), value = cost && boundOf(chain, cost).value;
    asked.taken = status === 0;
    if (!asked.taken) refused++;
    if (value && (!greatest || compare(value, greatest) > 0)) greatest = value;
  }
  return { greatest, refused };
}

test('beyond a limit of a solver bounds are those of looser classes, and none is above that of the companions', { skip: missing }, async () => {
  for (const text of [`msp 1\nclass 1|prec|sumwU\n${GREAT}arc a b\nend\n`, `msp 1\nclass 1||sumwU\n${GREAT}end\n`]) {
    const { greatest, refused } = await beyond(text);
    assert.ok(greatest && greatest.n > 0n && refused > 0, `${refused} refused`);
    const told = spawnSync('python3', [fileURLToPath(new URL('bounds.py', import.meta.url)), '1'],
      { input: JSON.stringify([{ text, chains: [], greatest: print(greatest) }]), maxBuffer: 1 << 28, env: { ...env, MSP: fileURLToPath(program) } });
    assert.equal(told.status, 0, String(told.stderr));
    assert.deepEqual(JSON.parse(String(told.stdout)), []);
  }
});

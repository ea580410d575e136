// What changes if a result is added or taken away: the companion of the same name says the same.
import assert from 'node:assert/strict';
import { spawnSync } from 'node:child_process';
import { existsSync, readFileSync } from 'node:fs';
import { fileURLToPath } from 'node:url';
import test from 'node:test';
import { changedResults, recordsOf, whatIf } from '../what-if.js';

const path = (/** @type {string} */ name) => fileURLToPath(new URL(`../../${name}`, import.meta.url));
const file = path('examples/known-strengths.csv'), results = readFileSync(file, 'utf8');
const without = existsSync(path('released/msp.wasm')) ? false : 'released/msp.wasm is not here';

/**
 * What the companion prints.
 * @param {string} name
 * @param {string} verdict
 */
function companion(name, verdict) {
  return String(spawnSync(path('companions/what-if'), [file, name, verdict, '--program', path('released/msp')], { maxBuffer: 1 << 24 }).stdout);
}

/**
 * An effect in the form of the companion.
 * @param {import('../what-if.js').Effect} effect
 */
function printed({ labels, clashes, frontier }) {
  const lists = Object.entries(frontier).filter(([, { come, gone }]) => come.length + gone.length);
  return [`labels ${labels.length}`, ...labels.map(it => `${it.name} ${it.before} ${it.after}`), ...clashes,
    ...lists.flatMap(([list, { come, gone }]) => [list, ...gone.map(it => `- ${it}`), ...come.map(it => `+ ${it}`)]), 'end', ''].join('\n');
}

test('records of a results file', () => {
  const text = 'class,strength,source\n1||sumC,easy,"A, B\nand ""C"""\nP||Cmax,strong,x';
  assert.equal(recordsOf(text).length, 3);
  assert.equal(changedResults(text, [{ name: '1||sumT', verdict: 'hard', source: 'a, b' }], [1]),
    'class,strength,source\nP||Cmax,strong,x\n1||sumT,hard,"a, b"\n');
});

for (const [name, verdict] of [['P|r,p=p|sumU', 'easy'], ['P3|prec,p=1|Cmax', 'strong'], ['1||sumC', 'hard']]) {
  test(`${name} ${verdict}`, { skip: without }, async () => {
    const said = companion(name, verdict).replace(/^((?:max|min)imal \w+) \d+ \d+$/gm, '$1');
    assert.equal(printed(await whatIf(results, [{ name, verdict, source: 'what if' }])), said);
  });
}

test('a result taken away is what adding it changes, turned round', { skip: without }, async () => {
  const at = recordsOf(results).findIndex(it => it.startsWith('J2|n<=2|Cmax,easy')), text = changedResults(results, [], [at]);
  const gone = await whatIf(results, [], [at]), come = await whatIf(text, [{ name: 'J2|n<=2|Cmax', verdict: 'easy', source: 'Jackson 1956' }]);
  assert.ok(gone.labels.length > 0);
  assert.deepEqual(gone.labels, come.labels.map(it => ({ name: it.name, before: it.after, after: it.before })));
});

test('a fault of the file is told', { skip: without }, async () => {
  await assert.rejects(whatIf(results, [{ name: 'F4||Cmax', verdict: 'hard', source: '' }]), /record \d+/);
});

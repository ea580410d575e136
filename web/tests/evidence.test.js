// Certificates: each kind of sentence has the numbers of its certificate, in both languages; texts as people paste them.
import assert from 'node:assert/strict';
import { existsSync, readFileSync } from 'node:fs';
import test from 'node:test';
import { run } from '../engine.js';
import { compare, print } from '../fractions.js';
import { NAMES, partsOf, rankOf } from '../names.js';
import { App } from '../page/app.js';
import { CERTIFIED, certificateIn, ownText, pastedText, toldOf, whyText } from '../page/evidence.js';
import { listCost } from '../page/schedule.js';
import { emptyProblem, problemOf } from '../page/texts.js';
import { Words } from '../words.js';
import { drawn, Draw } from './drawn.js';

const missing = existsSync(new URL('../../released/msp.wasm', import.meta.url)) ? false : 'there is no released/msp.wasm here';
const TABLE = JSON.parse(readFileSync(new URL('../page/words.json', import.meta.url), 'utf8'));
const example = (/** @type {string} */ name) => readFileSync(new URL(`../../examples/${name}.txt`, import.meta.url), 'utf8');

/**
 * What the page knows of a problem.
 * @param {import('../page/instance.js').Problem | null} problem
 * @param {'en' | 'de'} language
 */
function appOf(problem, language = 'en') {
  if (!problem) throw new Error('no problem');
  return new App({ problem, plan: null, kept: null }, new Words(TABLE, language));
}

/**
 * The certificate in a text.
 * @param {string} text
 * @param {App} app
 */
function foundIn(text, app) {
  const found = certificateIn(text, app.built);
  if (!found) throw new Error('no certificate');
  return found;
}

/** The sentence of each kind, by its example: the numbers are those of docs/certificates.md.
 * @type {[string, string][]} */
const SAID = [
  ['accept-group', '5 jobs have 18 of work together; they use at most 2 machines at a time, which takes 9. So no plan costs less than 9.'],
  ['accept-machine', 'machine 2 has 12 to do, one piece after the other. So no plan costs less than 12.'],
  ['accept-line', 'door takes 11 for all its steps, one at a time. So no plan costs less than 11.'],
  ['accept-levels', '4 jobs have 2 or more steps behind them. On 3 machines they need 2 units of time, and 2 more come behind: 4. '
    + 'So no plan costs less than 4.'],
  ['accept-segments', 'Groups of 3 + 3 + 1 jobs come one after the other: each is done before the next begins. On 2 machines they need 2 + 2 + 1 '
    + 'units of time: 5. So no plan costs less than 5.'],
  ['accept-block', 'None of these can begin before 0: cut, print, bind. Together they have 7 of work, so the last of them ends at 7 or later. '
    + 'Whichever is last, it costs at least what bind costs there: 1. So no plan costs less than 1.'],
  ['accept-prices', 'Each job and each place on a machine has a price; at no place does a job cost less than both prices together. The prices of '
    + 'the jobs are 14 together, those of the places \u22123: 11. So no plan costs less than 11.'],
];

for (const [name, sentence] of SAID) {
  test(`${name}: its sentence`, () => {
    const app = appOf(problemOf(example(name))), found = foundIn(example(name), app), german = appOf(problemOf(example(name)), 'de');
    assert.equal(whyText(found, app), sentence);
    const numbers = (/** @type {string} */ text) => (text.match(/\u2212?\d+/g) || []).sort();
    assert.deepEqual(numbers(whyText(found, german)), numbers(sentence));
    assert.equal(compare(toldOf(found, app).shows, listCost(found.bound, app.problem.parts.criterion, app.built)), 0);
  });
}

test('groups of one job, on one machine, on machines with speeds', () => {
  const said = (/** @type {string} */ head, /** @type {string} */ jobs) => {
    const app = appOf(problemOf(`msp 1\n${head}\njob a p=6\njob b p=2\nend\n`));
    return whyText(foundIn(`certificate\nbound 1\nkind group\n${jobs}end\n`, app), app).replace(' So no plan costs less than 1.', '');
  };
  assert.equal(said('class P||Cmax\nmachines 2', 'job a\n'), 'a alone takes 6, since a job runs on one machine at a time.');
  assert.equal(said('class 1||Cmax', 'job a\njob b\n'), '2 jobs have 8 of work together, and only one can run at a time.');
  assert.equal(said('class Q||Cmax\nmachines 2\nspeeds 1 3', 'job a\n'), 'a has 6 of work; on the fastest machine, of speed 3, this takes 2.');
  assert.equal(said('class Q||Cmax\nmachines 2\nspeeds 1 3', 'job b\njob a\n'),
    '2 jobs have 8 of work together; they use at most the 2 fastest machines, of speed 4 together, which takes 2.');
});

test('numbers stand in the units of the list', () => {
  const problem = { ...emptyProblem({ ...partsOf(rankOf('P|pmtn|Cmax')) }), unit: 'h' };
  problem.rows = ['6,5', '2', '1,5'].map((p, at) => ({ id: at + 1, name: 'abc'[at], cells: { p } }));
  const app = appOf(problem, 'de'), found = foundIn('certificate\nbound 10\nkind group\njob a\njob b\njob c\nend\n', app);
  assert.equal(whyText(found, app), '3 Auftr\u00e4ge haben zusammen 10 h Arbeit; sie nutzen h\u00f6chstens 2 Maschinen zugleich, das dauert 5 h. '
    + 'Also kostet kein Plan weniger als 5 h.');
});

test('what the sentence shows is the bound of the program, on instances of its eight classes', { skip: missing }, async () => {
  /** @type {Set<string>} */
  const seen = new Set();
  for (const name of CERTIFIED) {
    for (let seed = 1; seed <= 15; seed++) {
      const text = drawn(name, partsOf(rankOf(name)), new Draw(seed)), { status, report } = await run(['certify'], text);
      assert.equal(status, 0, text);
      const app = appOf(problemOf(text)), found = foundIn(report, app), { key, shows } = toldOf(found, app);
      assert.equal(print(shows), print(listCost(found.bound, app.problem.parts.criterion, app.built)), `${text}${report}`);
      assert.match((await run(['accept'], app.built.text + found.text)).report, /^accepted yes$/m);
      seen.add(key);
    }
  }
  for (const key of ['whyGroup', 'whyGroup1', 'whyGroupSpeeds', 'whyMachine', 'whyLine', 'whyLevels', 'whySegments', 'whyBlock', 'whyPrices']) {
    assert.ok(seen.has(key), key);
  }
});

test('the program certifies those eight classes, and of some hundred others none', { skip: missing }, async () => {
  for (const name of NAMES.filter((it, at) => at % 41 === 0 && !CERTIFIED.includes(it))) {
    assert.notEqual((await run(['certify'], drawn(name, partsOf(rankOf(name)), new Draw(1)))).status, 0, name);
  }
});

test('certificates as people paste them', () => {
  const text = 'certificate\nbound 9\nkind group\njob cups\nend\n';
  for (const it of [text, `class P||Cmax\ncost 9\n${text}`, `\ufeffmsp 1\r\nclass P||Cmax\r\nend\r\n${text.replace(/\n/g, '\r\n')}`,
    text.replace(/\n/g, '  \n\n'), ` ${text}more`, text.replace('\nend', '').replace('bound 9', 'bound\t9')]) {
    assert.equal(pastedText(it), text, JSON.stringify(it));
  }
  for (const it of ['', 'end', 'job;time\na;3', 'schedule\ncost 0\nunit 1\nend\n', 'the certificate\nend']) assert.equal(pastedText(it), '', it);
});

test('a bound of one\u2019s own is written in numbers of the instance', { skip: missing }, async () => {
  const problem = { ...emptyProblem({ ...partsOf(rankOf('P||Cmax')) }) };
  problem.rows = ['6,5', '2', '1,5'].map((p, at) => ({ id: at + 1, name: 'abc'[at], cells: { p } }));
  const app = appOf(problem), { scale } = app.built;
  assert.equal(scale, 2n);
  for (const [bound, word] of /** @type {[bigint, string][]} */ ([[5n, 'yes'], [6n, 'no']])) {
    const text = ownText('group', { n: bound, d: 1n }, [1, 2, 3], 1, app.built);
    assert.match((await run(['accept'], app.built.text + text)).report, new RegExp(`^accepted ${word}$`, 'm'));
  }
});

// Steps of rules: each ends with a best schedule, as the program says, and those of companions are the same.
import assert from 'node:assert/strict';
import { spawnSync } from 'node:child_process';
import { existsSync } from 'node:fs';
import test from 'node:test';
import { fileURLToPath } from 'node:url';
import { run } from '../engine.js';
import { print, shown } from '../fractions.js';
import { NAMES, partsOf, rankOf } from '../names.js';
import { RULES, ruleOf, rulesOf } from '../steps/index.js';
import { instanceOf, scheduleText } from '../steps/reading.js';
import { Speaker, WORDS } from '../steps/words.js';
import { Draw, drawn } from './drawn.js';

/** @typedef {import('../steps/types.js').Step} Step */
/** @typedef {import('../steps/types.js').Instance} Instance */

const HERE = new URL('../../', import.meta.url);
const missing = existsSync(new URL('released/msp.wasm', HERE)) ? false : 'there is no released/msp.wasm here';
const noPython = spawnSync('python3', ['--version']).status === 0 ? false : 'there is no python3 here';

/**
 * Instances of the classes that a rule fits, one after another.
 * @param {import('../steps/index.js').Rule} rule
 * @param {number} count
 */
function texts(rule, count) {
  const names = NAMES.filter(it => rule.fits(partsOf(rankOf(it)))), draw = new Draw(count);
  return Array.from({ length: count }, (_, at) => drawn(names[at % names.length], partsOf(rankOf(names[at % names.length])), draw));
}

/**
 * The English words of cells, with numbers as the companions write them.
 * @param {Instance} instance
 */
function speaker(instance) {
  return new Speaker(false, job => instance.jobs[job].name, String, it => shown(it).includes('/') ? print(it) : shown(it).replace('\u2212', '-'));
}

for (const rule of RULES) {
  test(`${rule.key}: the last step is a best schedule`, { skip: missing }, async () => {
    for (const text of texts(rule, 100)) {
      const instance = instanceOf(text), told = rule.steps(instance), last = told[told.length - 1];
      const solved = await run(['solve'], text), cost = (solved.report.match(/^cost (.*)$/m) || [])[1];
      const judged = await run(['check'], text + scheduleText(last.pieces, instance, cost));
      assert.deepEqual([solved.status, judged.status, judged.note], [0, 0, ''], `${text}\n${judged.report}`);
    }
  });

  test(`${rule.key}: each step has its words, and marks what is there`, () => {
    for (const text of texts(rule, 20)) {
      const instance = instanceOf(text), german = new Speaker(true, job => instance.jobs[job].name);
      for (const { title, columns, rows, marks } of rule.steps(instance)) {
        for (const it of [speaker(instance), german]) {
          for (const cell of [title, ...columns, ...rows.flat()]) assert.ok(!/undefined|\{/.test(it.text(cell)), it.text(cell));
        }
        assert.deepEqual(rows.map(it => it.length), rows.map(() => columns.length));
        for (const it of marks) assert.ok(it.row >= 0 && it.row < rows.length && it.column >= -1 && it.column < columns.length);
      }
    }
  });
}

test('coffman: an arc that a path makes needless changes no label', { skip: missing }, async () => {
  const arcs = ['d f', 'e1 g1', 'e2 g2', 'a e1', 'a e2', 'X a', 'Y a', 'Y d', 'Z a', 'Z d'];
  const jobs = ['f', 'g1', 'g2', 'd', 'e1', 'e2', 'a', 'X', 'Y', 'Z'];
  const [plain, more] = [arcs, [...arcs, 'X e1']].map(those => ['msp 1', 'class P2|prec,p=1|Cmax', ...jobs.map(it => `job ${it}`),
    ...those.map(it => `arc ${it}`), 'end', ''].join('\n')), rule = ruleOf('coffman');
  const [wanted, found] = [plain, more].map(it => rule && rule.steps(instanceOf(it)).map(({ rows, pieces }) => ({ rows, pieces })));
  assert.deepEqual(found, wanted);
  assert.match((await run(['check'], more + scheduleText(found ? found[found.length - 1].pieces : [], instanceOf(more)))).report, /^cost 5$/m);
  assert.match((await run(['solve'], more)).report, /^cost 5$/m);
});

test('the sum of prices is the least cost', { skip: missing }, async () => {
  const rule = ruleOf('assignment');
  if (!rule) throw new Error('there is no such rule');
  for (const text of texts(rule, 100)) {
    const instance = instanceOf(text), last = rule.steps(instance).pop(), { report } = await run(['solve'], text);
    assert.equal(last && speaker(instance).text(last.title.values[0]), (report.match(/^cost (.*)$/m) || [])[1]);
  }
});

/** @param {string} text */
function gaps(text) { return String((text.match(/\{\d\}/g) || []).sort()); }

test('which rules fit a class', () => {
  const keys = (/** @type {string} */ name) => rulesOf(name).map(it => it.key);
  assert.deepEqual(keys('P2|intree,p=1|Cmax'), ['hu', 'coffman']);
  assert.deepEqual([keys('J2|n<=2|Cmax'), keys('J2||Cmax'), keys('1|r|sumC'), keys('nothing')], [['jackson'], [], [], []]);
  for (const [english, german] of Object.values(WORDS)) assert.equal(gaps(english), gaps(german), english);
  for (const { key } of RULES) assert.ok(rulesOf(NAMES.find(it => rulesOf(it).some(rule => rule.key === key)) || '').length && WORDS[`rule ${key}`]);
});

/**
 * The tables of steps: the last state of each.
 * @param {Step[]} steps
 * @param {Instance} instance
 */
function tablesOf(steps, instance) {
  const it = speaker(instance), last = steps.filter((step, at) => at + 1 === steps.length || steps[at + 1].columns !== step.columns);
  return last.map(({ rows }) => rows.map(row => row.map(cell => it.text(cell))));
}

test('print-sheet has the same steps', { skip: noPython }, () => {
  const rules = ['smith', 'lawler', 'moore', 'hu', 'mcnaughton', 'remaining', 'dues', 'johnson'].map(ruleOf);
  const all = rules.flatMap(rule => rule ? texts(rule, 200).map(text => ({ rule, text, instance: instanceOf(text) })) : []);
  const asked = spawnSync('python3', [fileURLToPath(new URL('steps.py', import.meta.url))],
    { input: JSON.stringify(all.map(it => it.text)), maxBuffer: 1 << 28 });
  assert.equal(asked.status, 0, String(asked.stderr));
  const answers = JSON.parse(String(asked.stdout));
  assert.deepEqual([all.length, answers.length], [1600, 1600]);
  all.forEach(({ rule, text, instance }, at) => {
    const steps = rule.steps(instance), { pieces } = steps[steps.length - 1], { rows } = answers[at];
    assert.deepEqual(tablesOf(steps, instance), rows, text);
    const found = pieces.map(it => [instance.jobs[it.job].name, it.op, it.machine, print(it.from), print(it.to)]);
    assert.deepEqual(found.sort(), answers[at].pieces.sort(), text);
  });
});

// Lessons: each goal is the least cost, each can be solved, and wrong answers are told.
import assert from 'node:assert/strict';
import { existsSync } from 'node:fs';
import test from 'node:test';
import { run } from '../engine.js';
import { printed, ZERO } from '../fractions.js';
import { judge, moved } from '../lessons/judge.js';
import { instanceText, LESSONS, lessonOf, planText } from '../lessons/lessons.js';
import { say, textsOf, WORDS } from '../lessons/words.js';
import { ruleOf, rulesOf } from '../steps/index.js';
import { instanceOf, scheduleText } from '../steps/reading.js';

/** @typedef {import('../lessons/lessons.js').Lesson} Lesson */

const missing = existsSync(new URL('../../released/msp.wasm', import.meta.url)) ? false : 'there is no released/msp.wasm here';

/**
 * The word behind a key of a report; empty where it has none.
 * @param {string} report
 * @param {string} key
 */
function wordOf(report, key) { return (report.match(new RegExp(`^${key} (.*)$`, 'm')) || ['', ''])[1]; }

/**
 * The outcome of a plan.
 * @param {Lesson} lesson
 * @param {string} schedule
 * @param {string} instance
 */
async function ofPlan(lesson, schedule, instance = instanceText(lesson)) {
  const { report } = await run(['check'], instance + schedule), [kind, ...words] = wordOf(report, 'break').split(' ');
  const verdict = { feasible: wordOf(report, 'feasible') === 'yes', cost: printed(wordOf(report, 'cost')), kind, words };
  return judge(lesson, { instance, schedule, verdict });
}

/**
 * The outcome of a certificate: its kind, its bound, and its lines.
 * @param {Lesson} lesson
 * @param {string} kind
 * @param {string} bound
 * @param {string[]} lines
 */
async function ofBound(lesson, kind, bound, lines) {
  const instance = instanceText(lesson), text = ['certificate', `bound ${bound}`, `kind ${kind}`, ...lines, 'end', ''].join('\n');
  const { report } = await run(['accept'], instance + text), evidence = { accepted: wordOf(report, 'accepted') === 'yes',
    kind: wordOf(report, 'kind'), bound: printed(wordOf(report, 'bound')) || ZERO };
  return judge(lesson, { instance, evidence });
}

/**
 * A lesson by its key.
 * @param {string} id
 * @returns {Lesson}
 */
function lesson(id) {
  const found = lessonOf(id);
  if (!found) throw new Error(`there is no lesson ${id}`);
  return found;
}

/** @param {string} text */
function gaps(text) { return String((text.match(/\{\d\}/g) || []).sort()); }

test('twelve lessons, of twelve rules, with words in both languages', () => {
  assert.equal(LESSONS.length, 12);
  assert.equal(new Set(LESSONS.map(it => it.rule)).size, 12);
  assert.equal(lessonOf('nothing'), null);
  for (const it of LESSONS) {
    assert.ok(rulesOf(instanceOf(instanceText(it)).name).some(rule => rule.key === it.rule), it.id);
    for (const german of [false, true]) {
      for (const text of Object.values(textsOf(it, german))) assert.ok(text.length > 5 && !/undefined|\{/.test(text), text);
    }
  }
  for (const texts of Object.values(WORDS)) assert.equal(gaps(texts[0]), gaps(texts[1]), texts[0]);
});

for (const it of LESSONS) {
  test(`${it.id}: the goal is the least cost, and its rule ends with it`, { skip: missing }, async () => {
    const text = instanceText(it), { status, report } = await run(['solve'], text), rule = ruleOf(it.rule);
    assert.deepEqual([status, (report.match(/^cost (.*)$/m) || [])[1]], [0, it.goal.cost]);
    const instance = instanceOf(text), last = rule && rule.steps(instance).pop();
    const judged = await run(['check'], text + scheduleText(last ? last.pieces : [], instance, it.goal.cost));
    assert.equal(judged.status, 0);
  });
}

test('plans: that of the rule solves, the one to begin with does not', { skip: missing }, async () => {
  for (const it of LESSONS.filter(one => one.goal.kind === 'plan')) {
    const instance = instanceOf(instanceText(it)), rule = ruleOf(it.rule), last = rule && rule.steps(instance).pop();
    assert.deepEqual(await ofPlan(it, scheduleText(last ? last.pieces : [], instance)), { outcome: 'solved', values: [it.goal.cost] });
    const begun = await ofPlan(it, planText(it));
    assert.deepEqual([it.id, begun.outcome, begun.values[1]], [it.id, 'dearer', it.goal.cost]);
  }
});

test('bounds: the plan to begin with has the least cost', { skip: missing }, async () => {
  for (const it of LESSONS.filter(one => one.goal.kind === 'bound')) {
    assert.match((await run(['check'], instanceText(it) + planText(it))).report, new RegExp(`^feasible yes\ncost ${it.goal.cost}$`, 'm'));
  }
});

test('one bar moved', { skip: missing }, async () => {
  const it = lesson('lawler'), plan = planText(it), text = plan.replace('C 1 1 7 9', 'C 1 1 2 4');
  assert.deepEqual(await ofPlan(it, text), { outcome: 'solved', values: ['0'] });
  assert.deepEqual(await ofPlan(it, text.replace('D 1 1 9 11', 'D 1 1 7 9')), { outcome: 'moved', values: ['2', '1'] });
  assert.deepEqual(await ofPlan(it, plan.replace('B 1 1 4 7', 'B 1 1 2 5')), { outcome: 'dearer', values: ['5', '0'] });
  assert.deepEqual(await ofPlan(it, plan.replace('C 1 1 7 9', 'C 1 1 1 3')), { outcome: 'broken', values: ['machine 1 3'] });
  const halves = plan.replace('unit 1', 'unit 2').replace(/ (\d+) (\d+)$/gm, (_, from, to) => ` ${2 * Number(from)} ${2 * Number(to)}`);
  assert.deepEqual([moved(plan, plan), moved(plan, text), moved(plan, halves)], [0, 1, 0]);
});

test('bounds that hold, that do not, that are less, that are of another kind', { skip: missing }, async () => {
  const group = lesson('mcnaughton'), all = ['Anna', 'Ben', 'Cora', 'Dan'].map(it => `job ${it}`);
  assert.deepEqual(await ofBound(group, 'group', '6', ['job Anna']), { outcome: 'solved', values: ['6'] });
  assert.deepEqual(await ofBound(group, 'group', '6', all), { outcome: 'refused', values: ['6'] });
  assert.deepEqual(await ofBound(group, 'group', '17/3', all), { outcome: 'less', values: ['17/3', '6'] });
  const line = lesson('open');
  assert.deepEqual(await ofBound(line, 'line', '12', ['job Anna']), { outcome: 'solved', values: ['12'] });
  assert.deepEqual(await ofBound(line, 'machine', '10', ['machine 1']), { outcome: 'kind', values: [] });
});

test('another instance, and no verdict', { skip: missing }, async () => {
  const it = lesson('smith');
  assert.equal((await ofPlan(it, planText(it), instanceText(it).replace('p=3', 'p=1'))).outcome, 'changed');
  for (const one of LESSONS) assert.equal(judge(one, { instance: instanceText(one) }).outcome, 'none');
  assert.equal(say('dearer', true, '23', '14'), 'Dieser Plan geht und kostet 23. Gefragt ist 14.');
  assert.throws(() => say('nothing', false));
});

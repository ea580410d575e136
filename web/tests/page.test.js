// The page for planners: tables, numbers and dates as people write them, instances, plans, states and words.
import assert from 'node:assert/strict';
import { readdirSync, readFileSync } from 'node:fs';
import test from 'node:test';
import { run } from '../engine.js';
import { instanceText, LESSONS, planText } from '../lessons/lessons.js';
import { partsOf, rankOf } from '../names.js';
import { calendarOf } from '../page/calendar.js';
import { dateOf, numberOf } from '../page/cells.js';
import { clockOf, momentText } from '../page/clock.js';
import { compare, fraction, print, shown } from '../fractions.js';
import { built } from '../page/instance.js';
import { taken } from '../page/list.js';
import { early, moved, snapped, split } from '../page/own.js';
import { costScale, listCost, piecesIn, scheduleText, solvedOf } from '../page/schedule.js';
import { listOf, recordsOf } from '../page/spreadsheet.js';
import { packed, stateIn, textOf, unpacked } from '../page/state.js';
import { emptyProblem, problemOf, scheduleIn } from '../page/texts.js';
import { faultOf, verdictOf } from '../page/verdicts.js';

const example = (/** @type {string} */ name) => readFileSync(new URL(`../../examples/${name}`, import.meta.url), 'utf8');
const problem = (/** @type {string} */ text) => {
  const found = problemOf(text);
  if (!found) throw new Error('no problem');
  return found;
};
const instance = (/** @type {string} */ text) => built(problem(text), clockOf(problem(text)));

test('numbers as people write them are exact, and what may mean two things is refused', () => {
  const cases = [['6,5', '13/2'], ['6.5', '13/2'], ['1 250', '1250'], ['1.250,5', '2501/2'], ['1,250.5', '2501/2'], ['3/4', '3/4'],
    ['-2', '-2'], ['\u22122', '-2'], ['1.000.000', '1000000'], ['0.125', '1/8'], ["1'250", '1250']];
  for (const [text, value] of cases) assert.equal(print(numberOf(text)), value, text);
  for (const text of ['', 'x', '1.250', '1,250', '1e3', '3:30', '1..2']) assert.throws(() => numberOf(text), undefined, text);
  assert.equal(shown(fraction(13, 2), ','), '6,5');
  assert.equal(shown(fraction(-10, 3)), '\u22123 1/3');
});

test('dates of German and English lists', () => {
  const at = Date.UTC(2026, 2, 2, 18) / 1000;
  for (const text of ['2026-03-02 18:00', '02.03.2026 18:00', '2.3.26 18:00', 'Mo 02.03.2026 18 Uhr', '02. M\u00e4rz 2026 18:00',
    'March 2, 2026 18:00', '2026-03-02T18:00', '2 March 2026, 18:00']) assert.equal(dateOf(text), at, text);
  for (const text of ['6,5', '12', 'posters', '']) assert.equal(dateOf(text), null, text);
  for (const text of ['31.02.2026', '2026-13-01', '02.03.2026 25:00']) assert.throws(() => dateOf(text), undefined, text);
});

test('tables as spreadsheets copy and save them', () => {
  assert.deepEqual(recordsOf('a;"b;c"\r\n"d ""e""";f\r\n\r\n'), [['a', 'b;c'], ['d "e"', 'f']]);
  assert.deepEqual(recordsOf('sep=|\na|b\n'), [['a', 'b']]);
  assert.deepEqual(recordsOf('a\tb\n1\t2'), [['a', 'b'], ['1', '2']]);
  const list = listOf('Wochenplan\nAuftrag;Waschen (min);Mangeln (Std);f\u00e4llig\nHotel;90;1,5;4');
  assert.deepEqual(list && list.keys, ['job', 'p1', 'p2', 'd']);
  assert.deepEqual(list && list.machines, ['Waschen', 'Mangeln']);
  assert.deepEqual(list && list.units, [0, 60, 3600, 0]);
  assert.deepEqual(list && list.titles, ['Wochenplan']);
  assert.equal(listOf('only'), null);
});

test('a German list of 60 orders becomes an instance that the program solves', async () => {
  const rows = Array.from({ length: 60 }, (_, at) =>
    `Auftrag ${at + 1};${String((at % 7 + 1) / 2).replace('.', ',')};0${2 + at % 5}.03.2026 ${8 + at % 9}:00`);
  const list = listOf(['Auftrag;Dauer (Std);Liefertermin', ...rows].join('\n'));
  assert(list);
  const { problem: made } = taken(list, emptyProblem({ ...partsOf(rankOf('1||sumwU')) }), true), found = built(made, clockOf(made));
  assert.deepEqual(found.faults, []);
  assert.equal(found.name, '1||Lmax');
  assert.equal(found.scale, 2n);
  const { status, report } = await run(['solve'], found.text);
  assert.equal(status, 0);
  const solved = solvedOf(report, found);
  assert.equal(solved.pieces.length, 60);
  const checked = await run(['check'], found.text + scheduleText(solved.pieces, found, print(solved.cost)));
  assert.match(checked.report, /^agree yes$/m);
});

test('faults stand at their cells', () => {
  const list = listOf('job;time;due\na;x;3\na;2;\n;1.250;4\nSumme;9;5');
  assert(list);
  const { problem: made } = taken(list, emptyProblem({ ...partsOf(rankOf('1||Lmax')) }), false);
  const found = built(made, clockOf(made)).faults.map(it => [it.row, it.key, it.code].join(' '));
  for (const it of ['1 p notNumber', '2 job nameAgain', '2 d empty', '3 p eitherNumber', '4 job sumRow']) assert.ok(found.includes(it), it);
});

test('what the program finds in an instance stands at its cell', async () => {
  const cases = [['1||sumC', 'p', '2000000000', 'p', 'limit time'], ['1|prec|Cmax', 'after', 'b', 'after', 'cycle'],
    ['1||sumwC', 'w', '0', 'w', 'limit weight'], ['1|intree|Cmax', 'after', '', '', '']];
  for (const [name, key, text, column, code] of cases) {
    const made = emptyProblem({ ...partsOf(rankOf(name)) });
    made.rows = [{ id: 1, name: 'a', cells: { p: '1', w: '1', [key]: text } }, { id: 2, name: 'b', cells: { p: '1', w: '1', after: 'a' } }];
    const found = built(made, clockOf(made)), { note } = await run(['solve'], found.text), fault = note ? faultOf(note, found) : null;
    assert.equal(fault ? `${fault.key} ${fault.code}` : '', column ? `${column} ${code}` : '', name);
  }
  const many = emptyProblem({ ...partsOf(rankOf('1||sumC')) });
  many.rows = Array.from({ length: 401 }, (_, at) => ({ id: at + 1, name: '', cells: { p: '1' } }));
  const found = built(many, clockOf(many)), fault = faultOf((await run(['solve'], found.text)).note, found);
  assert.deepEqual(fault && [fault.row, fault.key, fault.code], [0, 'rows', 'limit jobs']);
});

test('each worked example is read, and written as it stands', () => {
  for (const name of readdirSync(new URL('../../examples/', import.meta.url)).filter(it => it.endsWith('.txt') && !it.startsWith('accept'))) {
    const found = instance(example(name));
    assert.deepEqual(found.faults, [], name);
    assert.deepEqual(found.text.split('\n').sort(), example(name).split('\n').sort(), name);
  }
});

test('a plan of the program is moved, split and put early, and the program judges it', async () => {
  const found = instance(example('two-presses.txt')), { report } = await run(['solve'], found.text), { pieces } = solvedOf(report, found);
  const judge = async (/** @type {import('../page/schedule.js').Piece[]} */ those) =>
    verdictOf((await run(['check'], found.text + scheduleText(those, found))).report);
  const last = pieces.reduce((best, it, at) => compare(it.from, pieces[best].from) > 0 ? at : best, 0);
  const late = moved(pieces, last, fraction(1000), pieces[last].machine, found), before = (await judge(pieces)).cost;
  assert.ok((await judge(late)).feasible && (await judge(moved(pieces, last, fraction(0), 1, found))).kind);
  const again = (await judge(early(late, found))).cost;
  assert.ok(before && again && compare(again, before) === 0);
  assert.equal(split(pieces, 0).length, pieces.length + 1);
  assert.equal(print(snapped(0.04, 0.1, pieces, 0, found)), '0');
  assert.equal(print(snapped(1003.3, 0.1, pieces, 0, found)), '1003');
});

test('a state is a text behind #, and what is no state is refused', async () => {
  const text = example('late-orders.txt'), made = problem(text), found = instance(text), { report } = await run(['solve'], text);
  /** @type {import('../page/state.js').State} */
  const state = { problem: made, plan: { pieces: piecesIn(report, found), from: 'own' }, kept: null };
  const word = await packed(textOf(state)), back = stateIn(await unpacked(word));
  assert.match(word, /^[\w-]+$/);
  assert.equal(textOf(back || state), textOf(state));
  assert.ok(back && back.plan);
  for (const it of ['', 'x', '{}', '{"is":"msp-page 1"}', '{"is":"msp-page 1","class":"nonsense"}', '[1]']) assert.equal(stateIn(it), null, it);
  assert.equal(await unpacked('!!'), '');
  const evil = stateIn('{"is":"msp-page 1","class":"1||sumC","rows":[[1,"<img src=x>",{"p":"1","__proto__":"x","onclick":"y"}]],'
    + '"plan":{"pieces":[[1,1,1,"0","x"]]}}');
  assert.deepEqual(evil && evil.problem.rows, [{ id: 1, name: '<img src=x>', cells: { p: '1' } }]);
  assert.equal(evil && evil.plan, null);
});

test('a schedule behind an instance is its plan', async () => {
  const text = example('weighted-sum.txt'), { report } = await run(['solve'], text);
  const behind = scheduleIn(text + report.slice(report.indexOf('schedule')));
  assert.equal(piecesIn(behind, instance(text)).length, 3);
});

test('costs in the units of the list', () => {
  const list = listOf('job;time;weight\na;0,5;1,5\nb;2;1');
  assert(list);
  const { problem: made } = taken(list, emptyProblem({ ...partsOf(rankOf('1||sumwC')) }), true), found = built(made, clockOf(made));
  assert.equal(print(costScale('sumwC', found)), '4');
  assert.equal(print(listCost(fraction(13), 'sumwC', found)), '13/4');
  assert.equal(print(costScale('sumU', found)), '1');
});

test('the hours of a plant', () => {
  const start = Number(dateOf('2026-03-02 06:00')), calendar = calendarOf('Mo-Fr 06:00-14:00,14:30-22:00; Sa 06:00-12:00', '2026-03-03', start);
  assert(typeof calendar !== 'string');
  const at = (/** @type {number} */ hours, ends = false) => new Date((start + calendar.clock(hours * 3600, ends)) * 1000).toISOString().slice(5, 16);
  assert.deepEqual([at(0), at(8, true), at(8), at(15.5, true), at(15.5), at(31)],
    ['03-02T06:00', '03-02T14:00', '03-02T14:30', '03-02T22:00', '03-04T06:00', '03-05T06:00']);
  for (const hours of [0, 1, 7.5, 12, 16, 40, 100]) assert.equal(calendar.work(calendar.clock(hours * 3600, false)), hours * 3600);
  assert.ok(calendar.work(-3600 * 24) <= 0);
  for (const text of ['Mo 6-14', 'Mo-Fr 06:00-14:00,13:00-15:00', 'XX 06:00-07:00']) assert.equal(typeof calendarOf(text, '', start), 'string', text);
  const made = { ...emptyProblem({ ...partsOf(rankOf('1||sumC')) }), unit: 'h', start: '2026-03-02 06:00', shifts: 'Mo-Fr 06:00-14:00' };
  assert.equal(momentText(fraction(9), clockOf(made), false), '2026-03-03 07:00');
});

test('all words stand in both languages, and those that are asked for are there', () => {
  /** @type {Object<string, string[]>} */
  const table = JSON.parse(readFileSync(new URL('../page/words.json', import.meta.url), 'utf8'));
  for (const [key, both] of Object.entries(table)) {
    assert.equal(both.length, 2, key);
    const [one, other] = both.map(it => Array.from(new Set(it.match(/\{\d\}/g) || [])).sort());
    assert.deepEqual(one, other, key);
  }
  const folder = new URL('../page/', import.meta.url);
  for (const name of readdirSync(folder).filter(it => it.endsWith('.js'))) {
    const code = readFileSync(new URL(name, folder), 'utf8');
    for (const [, key] of code.matchAll(/(?<!\bview\.words)\.(?:say|parts)\('([^']+)'/g)) assert.ok(key in table, `${name}: ${key}`);
    for (const [, key] of code.matchAll(/CellFault\('([^']+)'/g)) assert.ok(key in table, `${name}: ${key}`);
    for (const [, key] of code.matchAll(/fault\([^()]*, '(\w+)'[,)]/g)) assert.ok(key in table, `${name}: ${key}`);
  }
});

test('the page reads the instance of each lesson as it stands, and its plan', () => {
  for (const it of LESSONS) {
    const found = instance(instanceText(it));
    assert.equal(found.text, instanceText(it));
    assert.equal(scheduleText(piecesIn(planText(it), found), found), planText(it));
  }
});

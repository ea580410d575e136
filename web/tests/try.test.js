// What web/try knows of calls, against README.md, and words as a shell has them.
import assert from 'node:assert/strict';
import {readFileSync} from 'node:fs';
import test from 'node:test';
import {COMMANDS, STATUSES, followed, lineOf, wordsOf} from '../try/calls.js';

const README = readFileSync(new URL('../../README.md', import.meta.url), 'utf8');

test('the commands are those of README.md, and read what it says', () => {
  const rows = [...README.matchAll(/^\| `(\w+)[^|]*` \| ([^|]*) \|/gm)].filter(it => it[1] !== 'msp');
  const wanted = new Map(rows.map(it => [it[1], it[2] !== 'nothing']));
  assert.deepEqual(new Map(COMMANDS.map(it => [it.name, it.reads])), wanted);
});

test('the statuses mean what README.md says', () => {
  const rows = [...README.matchAll(/^\| ([0-9](?:, [0-9])*) \| ([^|]*) \|/gm)];
  const wanted = rows.map(it => it[2]).join('; ');
  assert.equal(STATUSES.join('; '), wanted);
});

test('words as a shell has them', () => {
  for (const [line, words] of /** @type {[string, string[]][]} */ ([
    ['', []],
    ['  ', []],
    ['--at 1||sumU', ['--at', '1||sumU']],
    [" 'P||Lmax'  \"1|prec|fmax\" ", ['P||Lmax', '1|prec|fmax']],
    ["'' a'b c'd", ['', 'ab cd']],
  ])) assert.deepEqual(wordsOf(line), words);
  for (const words of [[], [''], ['1||sumU', '20', '1'], ['a b', "it's", '"', "'", `a'b"c d`]]) assert.deepEqual(wordsOf(lineOf(words)), words);
});

test('what can be asked of a report', () => {
  const input = 'msp 1\nclass 1||sumC\njob a p=1\nend', schedule = 'schedule\ncost 1\nunit 1\npiece a 1 1 0 1\nend\n';
  assert.deepEqual(followed('solve', input, `start 1||sumC\nsolver smith\n${schedule}`),
    {title: 'Check this schedule', command: 'check', input: `${input}\n${schedule}`});
  assert.deepEqual(followed('certify', `${input}\n`, 'class 1||sumC\ncost 1\ncertificate\nend\n'),
    {title: 'Accept this certificate', command: 'accept', input: `${input}\ncertificate\nend\n`});
  assert.equal(followed('check', input, schedule), null);
  assert.equal(followed('solve', input, ''), null);
});

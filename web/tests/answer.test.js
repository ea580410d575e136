// What teachers and students exchange: sheets of make-instance are opened, and answers of the page are graded.
import assert from 'node:assert/strict';
import { spawnSync } from 'node:child_process';
import { existsSync, mkdirSync, mkdtempSync, readdirSync, readFileSync, rmSync, writeFileSync } from 'node:fs';
import { tmpdir } from 'node:os';
import { env } from 'node:process';
import test from 'node:test';
import { fileURLToPath } from 'node:url';
import { fraction } from '../fractions.js';
import { answerName } from '../page/answer.js';
import { App } from '../page/app.js';
import { moved } from '../page/own.js';
import { checkedText } from '../page/plan-files.js';
import { problemOf } from '../page/texts.js';
import { Words } from '../words.js';

const HERE = new URL('../../', import.meta.url), program = new URL('released/msp', HERE);
const missing = !existsSync(new URL('released/msp.wasm', HERE)) || !existsSync(program) ? 'there is no released program here'
  : spawnSync('python3', ['--version']).status === 0 ? false : 'there is no python3 here';
const words = new Words(JSON.parse(readFileSync(new URL('web/page/words.json', HERE), 'utf8')), 'en');

/**
 * What a companion prints.
 * @param {string} name
 * @param {string[]} those
 */
function companion(name, ...those) {
  const file = fileURLToPath(new URL(`companions/${name}`, HERE)), around = { ...env, MSP: fileURLToPath(program) };
  const found = spawnSync('python3', ['-B', file, ...those], { env: around });
  return { status: found.status, said: String(found.stdout), note: String(found.stderr) };
}

/**
 * A page with an instance.
 * @param {string} text
 * @param {string} sheet the name of its file
 */
function page(text, sheet) {
  const problem = problemOf(text);
  if (!problem) throw new Error(text);
  const app = new App({ problem: { ...problem, sheet }, plan: null, kept: null }, words);
  assert.equal(app.built.text, text);
  return app;
}

test('answers are named after the student and the sheet', () => {
  assert.deepEqual([answerName('Zo\u00eb M\u00fcller', 'sheet-7'), answerName('', 'sheet-7'), answerName('ada', ''), answerName(' ', ''),
    answerName('../..//etc', ''), answerName('.', '.x')],
  ['Zoe_Muller_sheet-7.txt', 'sheet-7.txt', 'ada.txt', 'answer.txt', 'etc.txt', 'x.txt']);
});

for (const [name, ...more] of [['1||sumU', '--due', '0.5', '--against', 'usual'], ['F2||Cmax'], ['P|pmtn|Cmax'], ['Q||sumC'], ['J2|n<=2|Cmax']]) {
  test(`sheets of make-instance are opened, and their answers graded: ${name}`, { skip: missing }, async () => {
    const folder = mkdtempSync(`${tmpdir()}/msp-answers-`), [sheets, answers] = [`${folder}/sheets`, `${folder}/answers`];
    try {
      const made = companion('make-instance', name, '6', '1', '--sheets', '2', '--to', sheets, ...more);
      assert.equal(made.status, 0, made.note);
      mkdirSync(answers);
      for (const [at, file] of readdirSync(sheets).sort().entries()) {
        const app = page(readFileSync(`${sheets}/${file}`, 'utf8'), file.replace(/\.txt$/, ''));
        await app.solve();
        await app.judge();
        const { plan } = app.state;
        assert(plan);
        if (at) app.plan({ pieces: moved(plan.pieces, 0, fraction(4000001, 2), 1, app.built), from: 'own' });
        if (at) await app.judge();
        writeFileSync(`${answers}/${answerName(at ? 'Ben' : 'Ada', app.problem.sheet)}`, checkedText(app));
      }
      const { said, note } = companion('grade', sheets, answers), [, ada, ben] = said.trim().split('\n').map(it => it.split(','));
      const best = made.said.split('\n')[1].split(',')[2];
      assert.deepEqual(ada, ['Ada_sheet-1', 'yes', '', best, best, best, '0', '', ''], note);
      assert.equal(ben[0], 'Ben_sheet-2');
      // (an operation that is moved far behind all others is late, or breaks a route)
      assert.ok(ben[1] === 'yes' ? ben[3] === ben[4] && ben[8] === '' : ben[2] !== '', said);
    } finally {
      rmSync(folder, { recursive: true });
    }
  });
}

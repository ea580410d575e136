// The engine in Node: stored answers of all examples, the order of calls, ends and traps.
import assert from 'node:assert/strict';
import {existsSync, readFileSync, readdirSync} from 'node:fs';
import test from 'node:test';
import {answering} from '../engine/answering.js';
import {run, runBytes} from '../engine.js';

/** @typedef {import('../engine/queue.js').Told} Told */

const HERE = new URL('../../', import.meta.url);
const missing = existsSync(new URL('released/msp.wasm', HERE)) ? false : 'there is no released/msp.wasm here';
// (what a stored answer leaves out where several are right, as tools/check-examples has it)
const FREE = {
  accept: /^accepted /,
  certify: /^(job|machine|tail|level|segment|head|row|column)( |$)/,
  solve: /^(unit|piece) /,
};

/** @param {string} name */
const read = name => readFileSync(new URL(`examples/${name}`, HERE), 'utf8');

/**
 * The command that reads an example.
 * @param {string} name
 * @returns {'accept' | 'certify' | 'solve'}
 */
function commandOf(name) {
  return name.startsWith('accept-') ? 'accept' : name.startsWith('certify-') ? 'certify' : 'solve';
}

test('each example has its stored answer', {skip: missing}, async () => {
  const names = readdirSync(new URL('examples', HERE)).filter(it => it.endsWith('.txt'));
  assert.ok(names.length > 50);
  await Promise.all(names.map(async name => {
    const command = commandOf(name), wanted = read(name.replace('.txt', '.answer'));
    const {status, report, note} = await run([command], read(name));
    const kept = report.split('\n').filter(it => wanted.split('\n').some(line => FREE[command].test(line)) || !FREE[command].test(it));
    assert.deepEqual([name, status, note, kept.join('\n')], [name, 0, '', wanted]);
  }));
});

test('a status with its note, and words that are no letters of ASCII', {skip: missing}, async () => {
  assert.deepEqual(await run(['solve', '--at', 'höchstens']), await run(['solve', '--at', 'höchstens'], ''));
  const {status, report, note} = await run(['nothing']);
  assert.deepEqual([status, report], [2, '']);
  assert.match(note, /^msp: .*\n$/);
});

test('bytes that are no text', {skip: missing}, async () => {
  const {status, note} = await runBytes(['solve'], Uint8Array.of(0xff, 0xfe, 0));
  assert.equal(status, 3);
  assert.match(new TextDecoder().decode(note), /^msp: /);
});

test('a call that is ended, and the next', {skip: missing}, async () => {
  const control = new AbortController(), results = read('known-strengths.csv');
  const first = run(['frontier'], results, {signal: control.signal}), second = run(['trial', '1||sumU', '20', '1']);
  setTimeout(() => control.abort(), 20);
  await assert.rejects(first, {name: 'AbortError'});
  assert.match((await second).report, /^cost 5$/m);
});

/**
 * What a thread tells of a module whose function `run` is so.
 * @param {...number} body
 */
function told(...body) {
  const head = [0, 97, 115, 109, 1, 0, 0, 0, 1, 5, 1, 96, 0, 1, 127, 3, 2, 1, 0, 7, 7, 1, 3, 114, 117, 110, 0, 0];
  const code = [10, body.length + 4, 1, body.length + 2, 0, ...body, 11];
  /** @type {Told[]} */
  const all = [];
  const answer = answering(it => all.push(it));
  answer({module: new WebAssembly.Module(Uint8Array.from([...head, ...code]))});
  for (let times = 0; times < 2; times += 1) answer({words: [], input: new Uint8Array()});
  return all.map(it => 'fault' in it ? it.fault : it.answer.status);
}

test('a trap and a stack that runs out are faults of their call', () => {
  assert.deepEqual(told(65, 3), [3, 3]);
  for (const it of told(0)) assert.match(String(it), /^RuntimeError/);
  for (const it of told(16, 0)) assert.match(String(it), /^RangeError/);
});

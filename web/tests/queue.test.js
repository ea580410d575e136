// The queue of calls, over threads that are played: order, ends, faults.
import assert from 'node:assert/strict';
import test from 'node:test';
import {EngineFault, Queue} from '../engine/queue.js';

/** @typedef {import('../engine/queue.js').Request} Request */
/** @typedef {import('../engine/queue.js').Told} Told */

const MODULE = new WebAssembly.Module(Uint8Array.of(0, 97, 115, 109, 1, 0, 0, 0));
const NOTHING = new Uint8Array();

/** A place whose threads answer when they are told to. */
function played() {
  const threads = /** @type {{heard: Request[], ended: boolean, held: boolean, tell: (told: Told) => void, die: (why: string) => void}[]} */ ([]);
  const place = {
    compiled: 0,
    compile: async () => { place.compiled += 1; return MODULE; },
    start: (/** @type {(told: Told) => void} */ tell, /** @type {(why: string) => void} */ die) => {
      const thread = {heard: /** @type {Request[]} */ ([]), ended: false, held: false, tell, die};
      threads.push(thread);
      return {
        post: (/** @type {Request} */ it) => { thread.heard.push(it); },
        end: () => { thread.ended = true; },
        hold: (/** @type {boolean} */ it) => { thread.held = it; },
      };
    },
  };
  return {threads, place, queue: new Queue(place)};
}

const answer = (/** @type {number} */ status) => ({answer: {status, report: NOTHING, note: NOTHING}});
const later = () => new Promise(resolve => setTimeout(resolve, 0));

test('calls run one after the other, in their order, on one thread', async () => {
  const {threads, place, queue} = played();
  const calls = ['first', 'second', 'third'].map(it => queue.call([it], NOTHING, null));
  await later();
  assert.deepEqual(threads.map(it => it.heard), [[{module: MODULE}, {words: ['first'], input: NOTHING}]]);
  assert.equal(threads[0].held, true);
  for (const status of [1, 2, 3]) {
    threads[0].tell(answer(status));
    await later();
  }
  assert.deepEqual((await Promise.all(calls)).map(it => it.status), [1, 2, 3]);
  assert.equal(threads.length, 1);
  assert.equal(threads[0].heard.length, 4);
  assert.equal(threads[0].held, false);
  assert.equal(place.compiled, 1);
});

test('a fault is that of its call alone', async () => {
  const {threads, queue} = played();
  const first = queue.call(['first'], NOTHING, null), second = queue.call(['second'], NOTHING, null);
  await later();
  threads[0].tell({fault: 'RuntimeError: unreachable'});
  await assert.rejects(first, new EngineFault('RuntimeError: unreachable'));
  await later();
  threads[0].tell(answer(0));
  assert.equal((await second).status, 0);
});

test('a call that is ended takes its thread with it, and the next has a new one', async () => {
  const {threads, queue} = played(), control = new AbortController();
  const first = queue.call(['first'], NOTHING, control.signal), second = queue.call(['second'], NOTHING, null);
  await later();
  control.abort(new Error('no longer wanted'));
  await assert.rejects(first, new Error('no longer wanted'));
  assert.equal(threads[0].ended, true);
  await later();
  threads[0].tell(answer(9));
  threads[0].die('too late');
  assert.deepEqual(threads[1].heard, [{module: MODULE}, {words: ['second'], input: NOTHING}]);
  threads[1].tell(answer(0));
  assert.equal((await second).status, 0);
});

test('a call that is ended while it waits, or before it is made, never runs', async () => {
  const {threads, queue} = played(), control = new AbortController();
  const first = queue.call(['first'], NOTHING, null), second = queue.call(['second'], NOTHING, control.signal);
  await later();
  control.abort();
  await assert.rejects(second, {name: 'AbortError'});
  await assert.rejects(queue.call(['third'], NOTHING, control.signal), {name: 'AbortError'});
  threads[0].tell(answer(0));
  assert.equal((await first).status, 0);
  await later();
  assert.equal(threads[0].heard.length, 2);
  assert.equal(threads[0].ended, false);
});

test('a call that is ended while the module is compiled', async () => {
  const {threads, queue} = played(), control = new AbortController();
  const first = queue.call(['first'], NOTHING, control.signal);
  control.abort();
  await assert.rejects(first, {name: 'AbortError'});
  const second = queue.call(['second'], NOTHING, null);
  await later();
  assert.deepEqual(threads.map(it => it.heard), [[{module: MODULE}, {words: ['second'], input: NOTHING}]]);
  threads[0].tell(answer(0));
  assert.equal((await second).status, 0);
});

test('an end behind the answer does nothing', async () => {
  const {threads, queue} = played(), control = new AbortController();
  const first = queue.call(['first'], NOTHING, control.signal);
  await later();
  threads[0].tell(answer(4));
  assert.equal((await first).status, 4);
  control.abort();
  assert.equal(threads[0].ended, false);
});

test('a thread that dies fails its call, and the next has a new one', async () => {
  const {threads, queue} = played();
  const first = queue.call(['first'], NOTHING, null), second = queue.call(['second'], NOTHING, null);
  await later();
  threads[0].die('out of memory');
  await assert.rejects(first, new EngineFault('out of memory'));
  await later();
  threads[1].tell(answer(0));
  assert.equal((await second).status, 0);
});

test('a module that cannot be compiled is asked for anew', async () => {
  const {threads, place, queue} = played(), compile = place.compile;
  place.compile = () => Promise.reject(new Error('no such file'));
  await assert.rejects(queue.call(['first'], NOTHING, null), new Error('no such file'));
  place.compile = compile;
  const second = queue.call(['second'], NOTHING, null);
  await later();
  threads[0].tell(answer(0));
  assert.equal((await second).status, 0);
});

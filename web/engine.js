// The proved program as a call, in browsers and in Node: no copy of it in another language, but its own module.

import {EngineFault, Queue} from './engine/queue.js';

/** @typedef {import('./engine/queue.js').Place} Place */

/**
 * How a call is made.
 * @typedef {object} Options
 * @property {AbortSignal} [signal] ends the call; its promise is then rejected with the signal's reason
 */

/** @type {Promise<Queue> | null} */
let opened = null;

/** @returns {Promise<Place>} */
async function place() {
  const inNode = 'process' in globalThis && !('document' in globalThis) && !('importScripts' in globalThis);
  return (inNode ? await import('./engine/node.js') : await import('./engine/browser.js')).open();
}

/** @returns {Promise<Queue>} the queue of all calls */
function queue() {
  opened = opened || place().then(it => new Queue(it));
  return opened;
}

/**
 * Makes the program ready, so that the first call need not wait for it. A call does so where this was not called.
 * @returns {Promise<void>}
 */
export async function prepare() {
  await (await queue()).prepare();
}

/**
 * One call of the program, over bytes. Calls are answered one after the other, in the order in which they were made, and each starts from
 * nothing. A call that traps is rejected with an EngineFault, which the next call does not see.
 * @param {string[]} words the words of the command line, as `['solve']`
 * @param {Uint8Array} input standard input
 * @param {Options} [options]
 * @returns {Promise<import('../ports/host.js').Answer>}
 */
export async function runBytes(words, input, options = {}) {
  return (await queue()).call([...words], input, options.signal || null);
}

/**
 * One call of the program, over texts: its exit status from 0 to 9, its report (standard output) and its note (standard error), both empty
 * where it wrote none. A status of 2 or more comes with a note, as README.md has it.
 * @param {string[]} words the words of the command line, as `['solve']`
 * @param {string} [input] standard input
 * @param {Options} [options]
 * @returns {Promise<{status: number, report: string, note: string}>}
 */
export async function run(words, input = '', options = {}) {
  const text = new TextDecoder('utf-8', {ignoreBOM: true});
  const {status, report, note} = await runBytes(words, new TextEncoder().encode(input), options);
  return {status, report: text.decode(report), note: text.decode(note)};
}

export {EngineFault};

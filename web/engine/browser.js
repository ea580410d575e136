// Where the engine runs in a browser: a worker, from a file too, and the module's bytes, from the page or from beside it.
import {answering} from './answering.js';

/** @typedef {import('./queue.js').Place} Place */
/** @typedef {import('./queue.js').Thread} Thread */

/**
 * The text of an element of a bundled page; null where the page has none.
 * @param {string} id
 */
function inPage(id) {
  const found = typeof document === 'undefined' ? null : document.getElementById(id);
  return found && found.textContent;
}

/**
 * The bytes that tools/bundle-page wrote into a page.
 * @param {string} text
 * @returns {Promise<ArrayBuffer>}
 */
export function unpacked(text) {
  if (typeof DecompressionStream === 'undefined') throw new Error('this browser is too old for this page: it needs one from 2023 or later');
  const packed = Uint8Array.from(atob(text), it => it.charCodeAt(0));
  return new Response(new Blob([packed]).stream().pipeThrough(new DecompressionStream('deflate'))).arrayBuffer();
}

/** @returns {Promise<WebAssembly.Module>} */
async function compile() {
  const text = inPage('msp-wasm');
  if (text !== null) return WebAssembly.compile(await unpacked(text));
  const answer = await fetch(new URL('../../released/msp.wasm', import.meta.url));
  if (!answer.ok) throw new Error(`${answer.url}: ${answer.status} ${answer.statusText}`);
  return WebAssembly.compile(await answer.arrayBuffer());
}

/** @returns {Worker} a worker: of the text in the page, or of the module beside this one */
function worker() {
  const text = inPage('engine-worker');
  if (text === null) return new Worker(new URL('./worker.js', import.meta.url), {type: 'module'});
  return new Worker(URL.createObjectURL(new Blob([text], {type: 'text/javascript'})));
}

/** @type {Place['start']} */
function started(told, died) {
  const made = worker();
  made.addEventListener('message', event => told(event.data));
  made.addEventListener('messageerror', () => died('the module cannot be handed to a worker'));
  made.addEventListener('error', event => died(event.message || 'the worker cannot be started'));
  return {
    post: request => made.postMessage(request),
    end: () => made.terminate(),
    hold: () => undefined,
  };
}

/**
 * Without workers: calls run where they are made, and cannot be ended.
 * @type {Place['start']}
 */
function inline(told) {
  const answer = answering(it => setTimeout(told, 0, it));
  return {post: request => { setTimeout(answer, 0, request); }, end: () => undefined, hold: () => undefined};
}

/** @returns {Promise<Place>} */
export async function open() {
  return {compile, start: typeof Worker === 'undefined' ? inline : started};
}

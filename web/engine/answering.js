// What a thread does: it takes the module, and then answers calls.
import {call} from '../../ports/host.js';

/** @typedef {import('./queue.js').Request} Request */
/** @typedef {import('./queue.js').Told} Told */

/**
 * Answers requests, each call from nothing. What a call throws is told as a fault: the program trapped, or the browser has no memory for it.
 * @param {(told: Told) => void} told
 * @returns {(request: Request) => void}
 */
export function answering(told) {
  /** @type {WebAssembly.Module | null} */
  let module = null;
  return request => {
    if ('module' in request) {
      module = request.module;
      return;
    }
    try {
      if (!module) throw new Error('a call came before the module');
      told({answer: call(module, request.words, request.input)});
    } catch (fault) {
      told({fault: String(fault)});
    }
  };
}

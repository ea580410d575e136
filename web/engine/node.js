// Where the engine runs in Node: a worker thread, and the module from released/.

/** @typedef {import('./queue.js').Place} Place */

/** @returns {Promise<Place>} */
export async function open() {
  // (imported here, so that a page for browsers can be bundled with this module in it)
  const {readFile} = await import('node:fs/promises');
  const {Worker} = await import('node:worker_threads');
  return {
    compile: async () => WebAssembly.compile(await readFile(new URL('../../released/msp.wasm', import.meta.url))),
    start: (told, died) => {
      const made = new Worker(new URL('./node-worker.js', import.meta.url));
      made.on('message', told);
      made.on('error', fault => died(String(fault)));
      return {
        post: request => made.postMessage(request),
        end: () => { made.terminate(); },
        hold: working => working ? made.ref() : made.unref(),
      };
    },
  };
}

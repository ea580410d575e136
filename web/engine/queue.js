// Calls one after the other, each in a thread that can be ended.

/**
 * What a thread is told: the module first, and then a call each time it has answered the last.
 * @typedef {{module: WebAssembly.Module} | {words: string[], input: Uint8Array}} Request
 */

/** @typedef {import('../../ports/host.js').Answer} Answer */

/**
 * What a thread tells: an answer, or why there is none.
 * @typedef {{answer: Answer} | {fault: string}} Told
 */

/**
 * A thread that runs calls.
 * @typedef {object} Thread
 * @property {(request: Request) => void} post
 * @property {() => void} end ends it at once, in the midst of a call too
 * @property {(working: boolean) => void} hold whether the program has to wait for it
 */

/**
 * Where the engine runs.
 * @typedef {object} Place
 * @property {() => Promise<WebAssembly.Module>} compile
 * @property {(told: (told: Told) => void, died: (why: string) => void) => Thread} start a new thread
 */

/**
 * A call that waits or runs.
 * @typedef {object} Call
 * @property {string[]} words
 * @property {Uint8Array} input
 * @property {(answer: Answer) => void} resolve
 * @property {(why: unknown) => void} reject
 * @property {() => void} forget looks no more at the signal of the call
 */

/** A call that gave no answer: the program trapped, or its thread died. */
export class EngineFault extends Error {}

/** Calls in the order in which they were made, on one thread that is made anew where it was ended. */
export class Queue {
  /** @param {Place} place */
  constructor(place) {
    this.place = place;
    /** @type {Call[]} */
    this.waiting = [];
    /** @type {Call | null} */
    this.running = null;
    /** @type {Thread | null} */
    this.thread = null;
    /** @type {Promise<WebAssembly.Module> | null} */
    this.module = null;
  }

  /**
   * @param {string[]} words
   * @param {Uint8Array} input
   * @param {AbortSignal | null} signal
   * @returns {Promise<Answer>}
   */
  call(words, input, signal) {
    return new Promise((resolve, reject) => {
      if (signal && signal.aborted) {
        reject(signal.reason);
        return;
      }
      /** @type {Call} */
      const call = {words, input, resolve, reject, forget: () => undefined};
      if (signal) {
        const stop = () => this.stop(call, signal.reason);
        signal.addEventListener('abort', stop);
        call.forget = () => signal.removeEventListener('abort', stop);
      }
      this.waiting.push(call);
      this.next();
    });
  }

  /** Compiles the module, and makes a thread. */
  async prepare() {
    const module = await this.compiled();
    if (!this.thread) this.begin(module).hold(false);
  }

  /** @returns {Promise<WebAssembly.Module>} the module, compiled once; anew where it could not be compiled */
  compiled() {
    if (!this.module) {
      this.module = this.place.compile();
      this.module.catch(() => { this.module = null; });
    }
    return this.module;
  }

  /** Starts the first call that waits, where none runs. */
  next() {
    if (this.running || this.waiting.length === 0) return;
    this.running = /** @type {Call} */ (this.waiting.shift());
    this.start(this.running);
  }

  /**
   * Hands a call to the thread, which is made where there is none.
   * @param {Call} call
   */
  async start(call) {
    try {
      const module = await this.compiled();
      if (this.running !== call) return;
      const thread = this.thread || this.begin(module);
      thread.hold(true);
      thread.post({words: call.words, input: call.input});
    } catch (fault) {
      this.finish(call, () => call.reject(fault));
    }
  }

  /**
   * A new thread. What it tells when it was ended is nobody's.
   * @param {WebAssembly.Module} module
   */
  begin(module) {
    const thread = this.place.start(told => {
      if (this.thread === thread) this.told(told);
    }, why => {
      if (this.thread === thread) this.died(why);
    });
    thread.post({module});
    this.thread = thread;
    return thread;
  }

  /**
   * Ends the call that runs, and starts the next.
   * @param {Call} call
   * @param {() => void} settle
   */
  finish(call, settle) {
    if (this.running !== call) return;
    this.running = null;
    if (this.thread) this.thread.hold(false);
    call.forget();
    settle();
    this.next();
  }

  /** @param {Told} told */
  told(told) {
    const call = this.running;
    if (!call) return;
    this.finish(call, () => 'answer' in told ? call.resolve(told.answer) : call.reject(new EngineFault(told.fault)));
  }

  /** @param {string} why */
  died(why) {
    this.drop();
    const call = this.running;
    if (call) this.finish(call, () => call.reject(new EngineFault(why)));
  }

  /** Ends the thread. */
  drop() {
    if (this.thread) this.thread.end();
    this.thread = null;
  }

  /**
   * A call that is no longer wanted.
   * @param {Call} call
   * @param {unknown} why
   */
  stop(call, why) {
    if (this.running === call) {
      this.drop();
      this.finish(call, () => call.reject(why));
    } else {
      this.waiting = this.waiting.filter(it => it !== call);
      call.forget();
      call.reject(why);
    }
  }
}

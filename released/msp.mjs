#!/usr/bin/env node
/**
 * The command line of msp for Node 18 and later, on any system: the words, the bytes and the statuses of the program itself, which stands
 * beside this file as msp.wasm. Where there is no answer, as without that file or where the stack runs out, the status is 20.
 */
import {readFileSync, readSync, writeSync} from 'node:fs';
import process from 'node:process';
/**
 * The host of msp.wasm: one call of the program, on any engine of JavaScript. It stands on no environment: the command line for Node
 * (node.js) and web/engine.js bring the streams.
 *
 * The module asks its host for four things, by numbers of 32 bits; addresses are those of its memory. A growth that is refused is a want
 * of memory, which the program reports (status 9). Each call has an instance of its own, so nothing is left from call to call. What ends
 * a call without an answer is thrown: the engine's own error where its stack or the module's runs out, say. The next call does not see it.
 */

/**
 * What one call reads and writes.
 * @typedef {object} Streams
 * @property {(room: Uint8Array) => number} read - Puts bytes of standard input at the beginning of the room, which is never empty, and
 *     answers how many: 0 at the end of the input, -1 where it can't be read.
 * @property {(stream: 1 | 2, bytes: Uint8Array) => number} write - Takes bytes for standard output (1) or standard error (2), and answers
 *     how many, perhaps fewer than all; -1 where they can't be written. The bytes are the module's memory: copy what is kept.
 * @property {(memory: WebAssembly.Memory, pages: number) => boolean} [grow] - Lets the memory grow by so many pages of 65,536 bytes, and
 *     answers whether it did; left out, the engine decides.
 */

/**
 * What a call gave: the exit status, and the bytes of standard output and standard error.
 * @typedef {object} Answer
 * @property {number} status
 * @property {Uint8Array} report
 * @property {Uint8Array} note
 */

/**
 * Lets a memory grow, if the engine has so much.
 * @param {WebAssembly.Memory} memory
 * @param {number} pages
 * @returns {boolean}
 */
function grow(memory, pages) {
    try {
        memory.grow(pages);
        return true;
    } catch (error) {
        return false;
    }
}

/**
 * Runs the program once.
 * @param {WebAssembly.Module} program - released/msp.wasm, compiled
 * @param {Uint8Array[]} words - the words of the command line, in UTF-8, without the program's name
 * @param {Streams} streams
 * @returns {number} the exit status, 0 to 9
 */
function run(program, words, streams) {
    const all = [new TextEncoder().encode('msp')].concat(words);
    let memory = new WebAssembly.Memory({initial: 0}); // until the module has its own

    /** @type {(at: number, length: number) => Uint8Array} */
    function bytes(at, length) {
        return new Uint8Array(memory.buffer, at >>> 0, length >>> 0);
    }

    const machine = {
        // Word number so and so: its length, -1 where there is none, -2 where it does not fit.
        word(/** @type {number} */ number, /** @type {number} */ at, /** @type {number} */ room) {
            if (number >>> 0 >= all.length) {
                return -1;
            }
            const word = all[number];
            const held = bytes(at, room);
            held.set(word.subarray(0, held.length));
            return word.length > held.length ? -2 : word.length;
        },
        read(/** @type {number} */ at, /** @type {number} */ room) {
            return room === 0 ? 0 : streams.read(bytes(at, room));
        },
        write(/** @type {number} */ stream, /** @type {number} */ at, /** @type {number} */ length) {
            return streams.write(stream === 1 ? 1 : 2, bytes(at, length));
        },
        grow(/** @type {number} */ pages) {
            return (streams.grow || grow)(memory, pages >>> 0) ? 1 : 0;
        },
    };
    const {exports} = new WebAssembly.Instance(program, {msp: machine});
    memory = /** @type {WebAssembly.Memory} */ (exports.memory);
    return /** @type {() => number} */ (exports.run)();
}

/**
 * Pieces of bytes as one array.
 * @param {Uint8Array[]} pieces
 * @returns {Uint8Array}
 */
function joined(pieces) {
    const whole = new Uint8Array(pieces.reduce((sum, piece) => sum + piece.length, 0));
    let at = 0;
    for (const piece of pieces) {
        whole.set(piece, at);
        at += piece.length;
    }
    return whole;
}

/**
 * Runs the program once on an input in memory.
 * @param {WebAssembly.Module} program - released/msp.wasm, compiled
 * @param {string[]} words - the words of the command line, without the program's name
 * @param {Uint8Array} input - what stands on standard input
 * @param {Streams['grow']} [grows] - as in Streams
 * @returns {Answer}
 */
function call(program, words, input, grows) {
    const encoder = new TextEncoder();
    /** @type {{1: Uint8Array[], 2: Uint8Array[]}} */
    const written = {1: [], 2: []};
    let left = input;
    const status = run(program, words.map((word) => encoder.encode(word)), {
        read(room) {
            const piece = left.subarray(0, room.length);
            room.set(piece);
            left = left.subarray(piece.length);
            return piece.length;
        },
        write(stream, bytes) {
            written[stream].push(bytes.slice());
            return bytes.length;
        },
        grow: grows,
    });
    return {status, report: joined(written[1]), note: joined(written[2])};
}

const NO_ANSWER = 20;
const REFUSED = '\uFFFD'; // what Node has in the place of bytes that are no text

/**
 * The code of a fault of the system.
 * @param {unknown} fault
 * @returns {string}
 */
function codeOf(fault) {
    return String(/** @type {{code?: unknown}} */ (fault).code);
}

/**
 * Repeats what is interrupted or what has to wait, as on a pipe that another process set so.
 * @param {() => number} move - moves bytes, and answers how many
 * @returns {number} how many, or -1 where it fails; 0 at the end of the input, which Windows tells as a fault
 */
function moved(move) {
    for (;;) {
        try {
            return move();
        } catch (fault) {
            const code = codeOf(fault);
            if (code === 'EAGAIN') {
                Atomics.wait(new Int32Array(new SharedArrayBuffer(4)), 0, 0, 10); // milliseconds
            } else if (code !== 'EINTR') {
                return code === 'EOF' ? 0 : -1;
            }
        }
    }
}

/**
 * The words of the command line behind the script's name. Bytes that are no text are taken from the system where it has them.
 * @returns {Uint8Array[]}
 */
function wordsOf() {
    const words = process.argv.slice(2);
    if (words.some((word) => word.includes(REFUSED)) && process.platform === 'linux') {
        /** @type {Uint8Array[]} */
        const found = [];
        const whole = readFileSync('/proc/self/cmdline');
        for (let at = 0; at < whole.length; at = whole.indexOf(0, at) + 1) {
            found.push(whole.subarray(at, whole.indexOf(0, at)));
        }
        return found.slice(found.length - words.length);
    }
    return words.map((word) => new TextEncoder().encode(word));
}

/**
 * Says why there is no answer.
 * @param {unknown} fault
 * @returns {number} the status
 */
function withoutAnswer(fault) {
    console.error(`msp.mjs: no answer: ${/** @type {Error} */ (fault).message}`);
    return NO_ANSWER;
}

/**
 * Runs the program on the standard streams.
 * @returns {number} the status
 */
function main() {
    try {
        const program = new WebAssembly.Module(readFileSync(new URL('msp.wasm', import.meta.url)));
        return run(program, wordsOf(), {
            read: (room) => moved(() => readSync(0, room)),
            write: (stream, bytes) => moved(() => writeSync(stream, bytes)),
        });
    } catch (fault) {
        return withoutAnswer(fault);
    }
}

process.exitCode = main();

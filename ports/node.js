#!/usr/bin/env node
/**
 * The command line of msp for Node 18 and later, on any system: the words, the bytes and the statuses of the program itself, which stands
 * beside this file as msp.wasm. Where there is no answer, as without that file or where the stack runs out, the status is 20.
 */
import {readFileSync, readSync, writeSync} from 'node:fs';
import process from 'node:process';
import {run} from './host.js';

const NO_ANSWER = 20;
const REFUSED = '\uFFFD'; // what Node has in the place of bytes that are no text

/**
 * The code of a fault of the system.
 * @param {unknown} fault
 * @returns {string}
 */
function codeOf(fault) {
    return String(/** @type {{code?: unknown}} */ (fault).code);
}

/**
 * Repeats what is interrupted or what has to wait, as on a pipe that another process set so.
 * @param {() => number} move - moves bytes, and answers how many
 * @returns {number} how many, or -1 where it fails; 0 at the end of the input, which Windows tells as a fault
 */
function moved(move) {
    for (;;) {
        try {
            return move();
        } catch (fault) {
            const code = codeOf(fault);
            if (code === 'EAGAIN') {
                Atomics.wait(new Int32Array(new SharedArrayBuffer(4)), 0, 0, 10); // milliseconds
            } else if (code !== 'EINTR') {
                return code === 'EOF' ? 0 : -1;
            }
        }
    }
}

/**
 * The words of the command line behind the script's name. Bytes that are no text are taken from the system where it has them.
 * @returns {Uint8Array[]}
 */
function wordsOf() {
    const words = process.argv.slice(2);
    if (words.some((word) => word.includes(REFUSED)) && process.platform === 'linux') {
        /** @type {Uint8Array[]} */
        const found = [];
        const whole = readFileSync('/proc/self/cmdline');
        for (let at = 0; at < whole.length; at = whole.indexOf(0, at) + 1) {
            found.push(whole.subarray(at, whole.indexOf(0, at)));
        }
        return found.slice(found.length - words.length);
    }
    return words.map((word) => new TextEncoder().encode(word));
}

/**
 * Says why there is no answer.
 * @param {unknown} fault
 * @returns {number} the status
 */
function withoutAnswer(fault) {
    console.error(`msp.mjs: no answer: ${/** @type {Error} */ (fault).message}`);
    return NO_ANSWER;
}

/**
 * Runs the program on the standard streams.
 * @returns {number} the status
 */
function main() {
    try {
        const program = new WebAssembly.Module(readFileSync(new URL('msp.wasm', import.meta.url)));
        return run(program, wordsOf(), {
            read: (room) => moved(() => readSync(0, room)),
            write: (stream, bytes) => moved(() => writeSync(stream, bytes)),
        });
    } catch (fault) {
        return withoutAnswer(fault);
    }
}

process.exitCode = main();

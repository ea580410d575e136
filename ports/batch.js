/**
 * Many calls of msp.wasm in one process of Node, for tools/try-ports and tools/measure-ports: a line of JSON for each on standard input,
 * {words, input, refuse, feign}, and one for its answer on standard output, {status, report, note, growths, pages, milliseconds}, or {fault}
 * where the call was ended without one. Bytes are in base64; a word is a text; times are those of the processor, in all threads. The growth
 * of memory with the number `refuse` is refused, and that with the number `feign` is said to be done and is not, so that the call runs into
 * the end of its memory.
 *
 *     node ports/batch.js [MODULE]
 */
import {readFileSync} from 'node:fs';
import process from 'node:process';
import {createInterface} from 'node:readline';
import {call, grow} from './host.js';

/** @type {() => number} */
function processorTime() {
    const {user, system} = process.cpuUsage();
    return (user + system) / 1000;
}

const bytes = readFileSync(process.argv[2] || new URL('../released/msp.wasm', import.meta.url));
const begun = processorTime();
const program = new WebAssembly.Module(bytes);
const compiled = processorTime() - begun;

/** @type {(text: string) => Uint8Array} */
function decoded(text) {
    return Uint8Array.from(atob(text), (it) => it.charCodeAt(0));
}

/** @type {(bytes: Uint8Array) => string} */
function encoded(bytes) {
    return btoa(Array.from(bytes, (it) => String.fromCharCode(it)).join(''));
}

/**
 * The answer of one call.
 * @param {{words: string[], input: string, refuse?: number, feign?: number}} asked
 * @returns {object}
 */
function answer(asked) {
    let growths = 0, pages = 0;
    const begin = processorTime();
    try {
        const {status, report, note} = call(program, asked.words, decoded(asked.input), (memory, more) => {
            growths += 1;
            const grown = growths === asked.feign || (growths !== asked.refuse && grow(memory, more));
            pages = memory.buffer.byteLength / 65536;
            return grown;
        });
        const milliseconds = processorTime() - begin;
        return {status, report: encoded(report), note: encoded(note), growths, pages, milliseconds};
    } catch (fault) {
        return {fault: String(fault)};
    }
}

/** Answers each line. */
async function main() {
    console.log(JSON.stringify({compiled}));
    for await (const line of createInterface({input: process.stdin})) {
        console.log(JSON.stringify(answer(JSON.parse(line))));
    }
}

main();

// Texts as people write them: the class that is asked, or none.
import assert from 'node:assert/strict';
import { existsSync, readFileSync } from 'node:fs';
import test from 'node:test';
import { NAMES, rankOf } from '../names.js';
import { allowed, asked, near, read } from '../reading.js';

/** @type {Object<string, string>} */
const CLASSES = {
  '1 / rj; pmtn / SumCi': '1|pmtn,r|sumC', '$1\\mid r_j,pmtn\\mid\\sum C_j$': '1|pmtn,r|sumC', '1||\\sum_j w_jC_j': '1||sumwC',
  '1||\\sum_{j} w_{j} C_{j}': '1||sumwC', '$P\\,|\\,prec,\\,p_j=1\\,|\\,C_{\\max}$': 'P|prec,p=1|Cmax', 'J2|m_j\\le2|Cmax': 'J2|n<=2|Cmax',
  'J2|n_j\u22642|C_{max}': 'J2|n<=2|Cmax', 'P|inforest,p=1|Cmax': 'P|intree,p=1|Cmax', 'P|outforest|sumC': 'P|outtree|sumC',
    'F2|prmu|Cmax': 'F2||Cmax',
  '1|r_j|\u03a3U_j': '1|r|sumU', 'P2 r sumC': 'P2|r|sumC', 'two-machine flow shop makespan': 'F2||Cmax', 'p2||cmax': 'P2||Cmax',
    '1|-|Lmax': '1||Lmax',
  'single machine total weighted tardiness': '1||sumwT', '1|prmp|sum T_j': '1|pmtn|sumT', 'R|| \\bar F': 'R||sumC',
    'P3|p_j=p,r_i|f_max': 'P3|r,p=p|fmax',
  'O2|\\mathit{pmtn}, r_j|L_{\\max}': 'O2|pmtn,r|Lmax', '$Q \\mid p_{j} = 1, r_{j} \\mid \\sum_{j=1}^{n} w_{j} T_{j}$': 'Q|r,p=1|sumwT',
};

test('names in the spellings of people', () => {
  for (const [text, name] of Object.entries(CLASSES)) {
    const reading = read(text);
    assert.equal(NAMES[asked(reading)], name, `${text}: ${JSON.stringify(reading.unknown)}`);
  }
});

/**
 * The part of a text that is not understood.
 * @type {Object<string, string>}
 */
const PARTS = {
  '1|sp-graph|\\sum w_jC_j': 'sp-graph', 'J|n=2|Cmax': 'n=2', 'FF2||Cmax': 'FF2', '1||\\sum f_j': '\\sum f_j', '1||sum C_j^2': 'sum C_j^2',
  '1|\\bar d_j|\\sum C_j': '\\bar d_j', 'P|size_j|Cmax': 'size_j', 'F2|no-wait|Cmax': 'no-wait', 'F3|prmu|Cmax': 'prmu', 'P||Cmax|x': 'x',
  '1|chains,prec|Cmax': 'prec', '1|p_j\u2208{1,2}|Cmax': 'p_j\u2208{1,2}', 'P\u221e|prec|Cmax': 'P\u221e', '1||Tmax': 'Tmax', 'P|n<=2|Cmax': 'n<=2',
    'P1||Cmax': 'P1',
  '1|r,r|Cmax': 'r', 'P2 P3 Cmax': 'P3', 'nonsense': 'nonsense', 'F2|r,prmu|Lmax': 'prmu', '1|batch|Cmax': 'batch', '<script>': '<script>',
};

test('what is not understood is named, and no class is asked', () => {
  for (const [text, part] of Object.entries(PARTS)) {
    const reading = read(text);
    assert.deepEqual(reading.unknown.map(it => it.word), [part], text);
    assert.equal(asked(reading), -1, text);
  }
});

test('a fixed number of machines is no class', () => {
  assert.deepEqual(read('F4||Cmax').fixed, { kind: 'F', machines: 4 });
  assert.deepEqual(read('Pm|prec|Cmax').fixed, { kind: 'P', machines: null });
  assert.equal(asked(read('J3|p_ij=1|Cmax')), -1);
  assert.equal(asked(read('Jm||Cmax')), -1);
  assert.deepEqual(allowed(read('J3|p=1|Cmax').wanted).map(at => NAMES[at]), ['J2|p=1|Cmax', 'J|p=1|Cmax']);
  assert.equal(read('P3||Cmax').fixed, null);
});

test('what is near differs in the part that was not understood', () => {
  assert.deepEqual(near(read('1|sp-graph|sumwC')).map(at => NAMES[at]), ['1|intree|sumwC', '1|outtree|sumwC', '1|prec|sumwC']);
  assert.deepEqual(near(read('J|n=2|Cmax')).map(at => NAMES[at]), ['J||Cmax']);
  assert.equal(near(read('nonsense')).length, 0);
});

test('words leave parts free, and a tree is of either kind', () => {
  assert.deepEqual(allowed(read('1|tree|sumwC').wanted).map(at => NAMES[at]), ['1|intree|sumwC', '1|outtree|sumwC']);
  assert.equal(allowed(read('flow shop makespan').wanted).length, 3 * 60);
  assert.deepEqual(read('flow shop open makespan').labels, ['open']);
});

const table = new URL('../../docs/results/names.csv', import.meta.url);

/**
 * The records of a CSV file.
 * @param {string} text
 */
function records(text) {
  const fields = Array.from(text.matchAll(/("(?:[^"]|"")*"|[^,\n]*)(,|\r?\n|$)/g), it => [it[1].replace(/^"(.*)"$/s, '$1').replace(/""/g, '"'),
    it[2]]);
  /** @type {string[][]} */
  const found = [[]];
  for (const [field, end] of fields) {
    found[found.length - 1].push(field);
    if (end !== ',') found.push([]);
  }
  return found.filter(it => it.length > 1);
}

/** @typedef {import('../reading.js').Reading} Reading */

/**
 * Whether a reading is what the table says a text means.
 * @type {Object<string, (reading: Reading, names: string[], part: string) => boolean>}
 */
const MEANS = {
  class: (reading, names) => !reading.unknown.length && NAMES[asked(reading)] === names[0],
  classes: (reading, names) => !reading.unknown.length && names.every(it => allowed(reading.wanted).includes(rankOf(it))) && asked(reading) < 0,
  fixed: (reading, names) => MEANS.classes(reading, names, '') && reading.fixed !== null,
  none: (reading, _, part) => asked(reading) < 0
    && (reading.unknown.some(it => it.word.includes(part) || part.includes(it.word)) || !reading.whole),
  words: reading => asked(reading) < 0,
};

test('the table of names', { skip: existsSync(table) ? false : 'docs/results/names.csv is not here' }, () => {
  const [head, ...lines] = records(readFileSync(table, 'utf8'));
  const place = Object.fromEntries(head.map((it, at) => [it, at]));
  for (const line of lines) {
    const [text, means, names, part] = ['text', 'means', 'class', 'part'].map(it => line[place[it]]);
    assert.ok(MEANS[means](read(text), names.split(';'), part), `${text}: ${JSON.stringify(read(text))}`);
  }
  assert.ok(lines.length >= 150);
});

// What is known of the classes, over the data of the released page.
import assert from 'node:assert/strict';
import { existsSync, readFileSync } from 'node:fs';
import test from 'node:test';
import { leadsToEntry } from '../chains.js';
import { Atlas, ends, manyMachines, withAnySpeeds } from '../classes.js';
import { MACHINES, nameOf, NAMES, partsOf, rankOf } from '../names.js';
import { around, frontier } from '../picture.js';
import { asBibtex, asCsv, asLatex, decidedBy, entriesOf, ownBibtex } from '../results.js';

const page = readFileSync(new URL('../../released/atlas.html', import.meta.url), 'utf8');
const found = page.match(/<script id="data" type="application\/json">(.*?)<\/script>/s);
/** @type {import('../classes.js').Data} */
const data = JSON.parse(found ? found[1] : '');
const atlas = new Atlas(data), { labels } = atlas.all, tables = atlas.published ? [atlas.all, atlas.published] : [atlas.all];
const apart = data.published ? false : 'the released page does not tell published results apart';

/**
 * The label that the kinds of chains give, by docs/formats.md.
 * @param {string[]} kinds
 */
function labelBy(kinds) {
  if (kinds.includes('easy')) return 'easy';
  if (kinds.includes('pseudo')) return kinds.includes('hard') ? 'weak' : 'pseudo';
  return kinds.includes('strong') ? 'strong' : kinds.includes('hard') ? 'hard' : 'open';
}

test('each chain is a chain of rows from or to its entry, and they give the label', () => {
  for (const table of tables) {
    NAMES.forEach((name, at) => {
      const chains = table.chainsOf(at);
      assert.equal(labelBy(chains.map(([kind]) => kind)), table.labels[at], name);
      for (const [kind, { record, start, rows }] of chains) {
        const walk = [start, ...rows.map(([, to]) => to)], entry = data.entries[record][0];
        assert.ok(rows.every(([row, to], it) => atlas.above(walk[it]).some(([one, other]) => one === row && other === to)), name);
        assert.deepEqual(leadsToEntry(kind) ? [walk[0], walk[walk.length - 1]] : [walk[walk.length - 1], walk[0]], [at, entry], name);
      }
    });
  }
});

test('rows back are rows turned round, and a problem leads to itself', () => {
  const there = NAMES.reduce((sum, _, at) => sum + atlas.above(at).length, 0), back = NAMES.reduce((sum, _, at) => sum + atlas.below(at).length, 0);
  assert.equal(there, back);
  for (const those of data.problems.slice(0, 50)) assert.ok(those.every(it => atlas.reached(those[0]).has(it) && atlas.reached(it).has(those[0])));
});

/**
 * Verdicts for fixed numbers of machines, by hand from the rule: easy where the class with their number in the input is easy; hard on J where
 * J2 is, on F and O where three machines are and times are arbitrary; else unknown.
 * @type {[string, string, string, string][]}
 */
const FIXED = [
  ['J', '||Cmax', 'strong', 'J2||Cmax'], ['J', '|p=1|Cmax', 'unknown', ''], ['F', '||Cmax', 'strong', 'F3||Cmax'], ['F', '|p=1|sumC', 'easy',
    'F|p=1|sumC'],
  ['O', '||Cmax', 'hard', 'O3||Cmax'], ['P', '||sumC', 'easy', 'P||sumC'], ['P', '||Cmax', 'unknown', ''], ['P', '|pmtn,r|sumC', 'unknown', ''],
  ['O', '|p=1|sumU', 'easy', 'O|p=1|sumU'], ['Q', '||Cmax', 'unknown', ''],
];

test('a fixed number of machines above those of the notation', () => {
  for (const [kind, rest, verdict, by] of FIXED) {
    const said = manyMachines(labels, partsOf(rankOf(`${kind}${rest}`)), kind);
    assert.deepEqual([said.verdict, said.by < 0 ? '' : NAMES[said.by]], [verdict, by], kind + rest);
  }
});

test('p=1 on uniform machines differs from p=p at 24 classes, all on Q2 and Q', () => {
  const those = NAMES.map((_, at) => at).filter(at => withAnySpeeds(labels, at) >= 0);
  assert.equal(those.length, 24);
  assert.equal(those.filter(at => labels[at] === 'easy' && labels[withAnySpeeds(labels, at)] === 'strong').length, 8);
});

test('published results alone: 51 entries less, 1,437 classes open', { skip: apart }, () => {
  assert.equal((data.own || []).length, 51);
  assert.equal(atlas.published && atlas.published.counts().open, 1437);
  NAMES.forEach((name, at) => assert.ok(decidedBy(atlas, true, at).every(it => !(data.own || []).includes(it)), name));
});

test('the picture of a frontier: below or above an end stands each class with its label', () => {
  const machines = MACHINES.findIndex(it => it.environment === 'P2'), among = NAMES.map((_, at) => at).filter(at => partsOf(at).environment === 'P2');
  const easy = ends(atlas, labels, among, ['easy'], true), hard = ends(atlas, labels, among, ['weak', 'hard', 'strong'], false);
  for (const at of among) {
    if (labels[at] === 'easy') assert.ok(easy.some(it => atlas.reached(at).has(it)), NAMES[at]);
    if (['weak', 'hard', 'strong'].includes(labels[at])) assert.ok(hard.some(it => atlas.reached(it).has(at)), NAMES[at]);
  }
  const { boxes, lines } = frontier(atlas, labels, machines);
  assert.ok(easy.concat(hard).every(at => boxes.some(it => it.at === at)));
  assert.ok(lines.every(({ from, to }) => atlas.reached(from).has(to)));
});

test('the picture around a class has its neighbours and its chains', () => {
  const at = rankOf('P2||sumT'), { boxes, lines } = around(atlas, atlas.all.chainsOf(at).map(([, it]) => it), at), shown = boxes.map(it => it.at);
  assert.equal(new Set(shown).size, shown.length);
  assert.ok([...atlas.above(at), ...atlas.below(at)].every(([, it]) => shown.includes(it)));
  assert.ok(lines.every(({ from, to, row }) => atlas.above(from).some(([one, other]) => one === row && other === to)));
});

test('entries are found by authors, years and the names of rules', () => {
  /** @type {(text: string) => string[]} */
  const named = text => entriesOf(data, text).map(it => NAMES[data.entries[it][0]]);
  assert.deepEqual(named('Moore-Hodgson'), ['1||sumU']);
  assert.deepEqual(named('Johnson 1954'), ['F2||Cmax']);
  assert.deepEqual(named('Johnson\u2019s rule'), ['F2||Cmax']);
  assert.deepEqual(named('1||sumU'), []);
  assert.ok(named('Br\u00e4sel').length > 0 && named('Braesel').length === named('Brasel').length);
});

test('lists as CSV, LaTeX and BibTeX', () => {
  const those = ['1||sumU', 'P2||Cmax', 'P3|prec,p=1|Cmax'].map(rankOf);
  const [head, moore, two, open] = asCsv(atlas, those).split('\n');
  assert.equal(head, 'class,label,published,entries,references,solver,rows');
  assert.match(moore, /^1\|\|sumU,easy,(easy)?,1\|\|sumU easy,moore1968,moore,0$/);
  assert.match(two, /^P2\|\|Cmax,weak,(weak)?,/);
  assert.match(open, /^"P3\|prec,p=1\|Cmax",open,(open)?,,,,$/);
  const latex = asLatex(atlas, false, those), bibtex = asBibtex(atlas, false, those);
  assert.ok(latex.includes('$1\\mid \\,\\mid \\sum U_j$ & easy & \\cite{moore1968} & moore \\\\'), latex);
  for (const [, keys] of latex.matchAll(/\\cite\{([^}]*)\}/g)) for (const key of keys.split(',')) assert.ok(bibtex.includes(`{${key},`), key);
});

test('the entry for proofs of our own is that of cite', { skip: data.citation ? false : 'the released page has no citation' }, () => {
  const cite = readFileSync(new URL('../../companions/msp_tools/commands/cite.py', import.meta.url), 'utf8');
  assert.ok(cite.includes(`OUR_ENTRY = """${ownBibtex(data)}"""`), ownBibtex(data));
});

const listed = new URL('../../released/labels.csv', import.meta.url);

test('the list of all labels is that of the page', { skip: existsSync(listed) ? false : 'released/labels.csv is not here' }, () => {
  assert.ok(asCsv(atlas, NAMES.map((_, at) => at)) === readFileSync(listed, 'utf8'), 'released/labels.csv differs from the page');
});

test('each class has parts that give its name', () => { NAMES.forEach((name, at) => assert.equal(nameOf(partsOf(at)), name)); });

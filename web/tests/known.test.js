// What is known of a class, in words: each row, label and note of the data has its words in both languages, and neighbours stand as rows lead.
import assert from 'node:assert/strict';
import { readdirSync, readFileSync } from 'node:fs';
import test from 'node:test';
import { behindIn, GERMAN, noteIn, translated } from '../atlas/german.js';
import { labelIn, WORDS } from '../atlas/words.js';
import { Atlas, FRONTIER } from '../classes.js';
import { KINDS } from '../chains.js';
import { NAMES, PARTS, partsOf, rankOf } from '../names.js';
import { relation, solvedNeighbours } from '../page/known-view.js';
import { read } from '../reading.js';
import { Words } from '../words.js';

const page = readFileSync(new URL('../../released/atlas.html', import.meta.url), 'utf8');
const found = page.match(/<script id="data" type="application\/json">(.*?)<\/script>/s);
/** @type {import('../classes.js').Data} */
const data = JSON.parse(found ? found[1] : '');
const atlas = new Atlas(data), german = new Words(WORDS, 'de'), english = new Words(WORDS, 'en');
const marks = (/** @type {string} */ text) => Array.from(new Set(text.match(/\{\d\}/g) || [])).sort().join();

test('all words stand in both languages, with the same values', () => {
  for (const [key, both] of Object.entries(WORDS)) {
    assert.equal(both.length, 2, key);
    assert.ok(both.every(it => it.trim()), key);
    assert.equal(marks(both[0]), marks(both[1]), key);
  }
});

test('the words that the atlas asks for are there', () => {
  const folder = new URL('../atlas/', import.meta.url), codes = readdirSync(folder).filter(it => it.endsWith('.js'))
    .map(it => readFileSync(new URL(it, folder), 'utf8')).concat(readFileSync(new URL('../page/known-view.js', import.meta.url), 'utf8')
      .replace(/(this|app\.words)\.(say|parts)\(/g, ''));
  const keys = codes.flatMap(code => Array.from(code.matchAll(/\.(?:say|parts)\('([^']+)'/g), it => it[1]));
  assert.ok(keys.length > 90, String(keys.length));
  for (const key of keys) assert.ok(german.has(key), key);
});

test('each row, label, kind and list of the data has its words', () => {
  for (const row of Object.keys(data.rows)) assert.ok(german.say(`how ${row}`) !== english.say(`how ${row}`), row);
  for (const label of data.label_names) {
    for (const key of ['label', 'letter', 'meaning']) assert.ok(german.has(`${key} ${label}`), `${key} ${label}`);
    assert.equal(labelIn(english, label), label);
  }
  assert.equal(new Set(data.label_names.slice(0, 6).map(it => german.say(`letter ${it}`))).size, 6);
  for (const kind of KINDS) assert.ok(german.has(`why ${kind}`) && german.has(`listed ${kind}`), kind);
  for (const list of FRONTIER) assert.ok(list in data.frontier && german.has(`list ${list}`) && german.has(`says ${list}`), list);
});

test('what the data says in English is there in German', () => {
  const notes = Object.values(data.open).flat(), chapters = Object.keys(data.chapters || {});
  const phrases = Object.values(data.entries).flatMap(([, , source]) => source.split(';').slice(1).join(';').split(',')).map(it => it.trim());
  const ours = phrases.filter(it => it && !/^[A-Z][a-z]+.* \d{4}|^(Hurink|Garey|Jones) and /.test(it));
  for (const text of [...notes, ...chapters, ...ours, 'own proof', 'from CLIQUE', 'from VERTEX COVER']) {
    assert.ok(translated(german, text).known, `no German for: ${text}`);
  }
  assert.equal(behindIn(german, '; as on P, rotated over the machines'), '; wie auf P, reihum über die Maschinen');
  assert.equal(behindIn(english, '; as on P'), '; as on P');
});

test('what the reading says of words that mean nothing is there in German', () => {
  const table = readFileSync(new URL('../../docs/results/names.csv', import.meta.url), 'utf8').split('\n').map(it => it.split(',')[0]);
  const texts = [...table, ...Object.keys(GERMAN), 'F4mpt||Cmax', '1|r,r|Cmax', '1|a|b|Cmax', 'P|n<=2|Cmax', '1||Cmax|x', 'P pmtn uncut sumC'];
  const notes = new Set(texts.flatMap(it => read(it).unknown.map(({ note }) => note)).filter(Boolean));
  assert.ok(notes.size > 12, String(notes.size));
  for (const note of notes) assert.notEqual(noteIn(german, note), note, note);
  assert.equal(noteIn(german, 'It does not go with P2 or P3.'), 'Das passt nicht zu P2 oder P3.');
});

test('neighbours have a solver and differ in one part, and stand as chains of rows lead', () => {
  for (const name of ['1||sumwU', 'F3||Cmax', 'P2|r|sumwT', 'P|pmtn|Lmax', 'O2||Cmax', 'J2|n<=2|Cmax', '1|r,p=p|Lmax']) {
    const at = rankOf(name), those = solvedNeighbours(atlas, at);
    assert.ok(those.length > 0, name);
    for (const it of those) {
      assert.ok(atlas.solver(it.rank), NAMES[it.rank]);
      const differ = PARTS.filter(part => partsOf(at)[part] !== partsOf(it.rank)[part]);
      assert.ok(differ.filter(part => part !== 'short').length <= 1 && differ.includes(it.which), `${name} ${NAMES[it.rank]}`);
      const up = atlas.reached(at).has(it.rank), down = atlas.reached(it.rank).has(at), how = relation(atlas, at, it);
      assert.ok(how === '' || how === (up && down ? 'same' : up ? 'harder' : 'easier') || how === (up ? 'harder' : 'easier'),
        `${name} ${NAMES[it.rank]} ${how}`);
    }
  }
  assert.equal(relation(atlas, rankOf('1||sumwU'), { rank: rankOf('1||sumU'), which: 'criterion', word: 'sumU' }), 'easier');
  assert.equal(relation(atlas, rankOf('F2||Cmax'), { rank: rankOf('F3||Cmax'), which: 'environment', word: 'F3' }), 'harder');
  assert.equal(relation(atlas, rankOf('1||Cmax'), { rank: rankOf('1|pmtn|Cmax'), which: 'cut', word: 'pmtn' }), 'same');
});

// What a text opens in the page of all classes, typed or as an address: each line of the table of names.
import assert from 'node:assert/strict';
import { readFileSync } from 'node:fs';
import test from 'node:test';
import { placeOf } from '../atlas/search.js';
import { Atlas } from '../classes.js';
import { rankOf } from '../names.js';
import { Words } from '../words.js';
import { WORDS } from '../atlas/words.js';

const page = readFileSync(new URL('../../released/atlas.html', import.meta.url), 'utf8');
const found = page.match(/<script id="data" type="application\/json">(.*?)<\/script>/s);
const view = { atlas: new Atlas(JSON.parse(found ? found[1] : '')), published: false, solved: false, current: 0, selection: [], prefix: '',
  words: new Words(WORDS, 'en') };
const table = readFileSync(new URL('../../docs/results/names.csv', import.meta.url), 'utf8');

/**
 * The first three fields of a line of the table.
 * @param {string} line
 */
function fields(line) {
  return Array.from(line.matchAll(/("(?:[^"]|"")*"|[^,]*)(?:,|$)/g), it => it[1].replace(/^"(.*)"$/, '$1').replace(/""/g, '"')).slice(0, 3);
}

test('a text opens the class that the table of names says, or none', () => {
  const lines = table.trim().split('\n').slice(1).map(fields);
  for (const [text, means, name] of lines) {
    const place = placeOf(view, text.trim());
    if (means === 'class') assert.equal(place, name, text);
    else assert.ok(rankOf(place) < 0 && place === text.trim(), `${text} opens ${place}`);
  }
  assert.ok(lines.length >= 150);
});

// tools/bundle-page: what stands in a page, that it is the same each time, and what is refused.
import assert from 'node:assert/strict';
import {Buffer} from 'node:buffer';
import {spawnSync} from 'node:child_process';
import {createHash} from 'node:crypto';
import {mkdtempSync, rmSync, writeFileSync} from 'node:fs';
import {tmpdir} from 'node:os';
import test from 'node:test';
import {fileURLToPath} from 'node:url';
import {inflateSync} from 'node:zlib';

const TOOL = fileURLToPath(new URL('../../tools/bundle-page', import.meta.url));
const HOSTILE = '</script><!-- <script>alert(1)</script>';
const FILES = {
  'page.html': `<!DOCTYPE html><meta http-equiv="Content-Security-Policy" content="script-src {scripts}; style-src {styles}">
<link rel="stylesheet" href="style.css">
<script type="application/json" id="made"></script>
<script type="application/json" id="named" src="named.json"></script>
<script type="text/plain" id="worker" src="part.js"></script>
<script type="application/octet-stream" id="bytes" src="bytes.bin"></script>
<script type="module" src="main.js"></script>
`,
  'style.css': 'p {\n  color: #aabbcc;\n}\n',
  'main.js': "import {part} from './part.js';\ndocument.title = part + '</script>';\n",
  'part.js': `export const part = ${JSON.stringify(HOSTILE)};\nconsole.log(part);\n`,
  'named.json': JSON.stringify([HOSTILE, 'n<=2', 'ü']),
  'bytes.bin': 'some bytes\0 and more',
};
const missing = spawnSync('esbuild', ['--version'], {}).status === 0 ? false : 'there is no esbuild here (Debian: apt install esbuild)';

/**
 * Runs the tool in a folder of its own with these files.
 * @param {Object<string, string>} files
 * @param {...string} words
 */
function bundle(files, ...words) {
  const folder = mkdtempSync(`${tmpdir()}/bundle-`);
  for (const [name, text] of Object.entries(files)) writeFileSync(`${folder}/${name}`, text);
  const made = spawnSync(TOOL, ['page.html', ...words], {cwd: folder});
  rmSync(folder, {recursive: true});
  return {status: made.status, page: String(made.stdout), said: String(made.stderr)};
}

/**
 * The text of the element with an id, or of the first element of a kind.
 * @param {string} page
 * @param {string} head
 */
function inner(page, head) {
  const from = page.indexOf('>', page.indexOf(head)) + 1;
  return page.slice(from, page.indexOf('</', from));
}

test('a page has all that it names, and nothing ends an element early', {skip: missing}, () => {
  const {status, page, said} = bundle(FILES);
  assert.equal(said, '');
  assert.equal(status, 0);
  assert.deepEqual(JSON.parse(inner(page, 'id="named"')), [HOSTILE, 'n<=2', 'ü']);
  assert.equal(String(inflateSync(Buffer.from(inner(page, 'id="bytes"'), 'base64'))), 'some bytes\0 and more');
  assert.equal(page.split('</script>').length, 1 + 5);
  assert.equal(page.includes('<!-- <script'), false);
  assert.equal(inner(page, '<style'), 'p{color:#abc}');
  assert.equal(inner(page, 'id="made"'), '');
});

test('the policy has the hashes of script and style alone', {skip: missing}, () => {
  const {page} = bundle(FILES);
  const hash = (/** @type {string} */ text) => `'sha256-${createHash('sha256').update(text).digest('base64')}'`;
  assert.ok(page.includes(`content="script-src ${hash(inner(page, 'type="module"'))}; style-src ${hash(inner(page, '<style'))}"`));
});

test('the same files give the same bytes, wherever they stand', {skip: missing}, () => {
  assert.equal(bundle(FILES).page, bundle(FILES).page);
});

test('data of another file, a bound, and what is refused', {skip: missing}, () => {
  assert.equal(inner(bundle(FILES, '--data', 'made=named.json').page, 'id="made"'), inner(bundle(FILES).page, 'id="named"'));
  const size = Buffer.byteLength(bundle(FILES).page);
  assert.equal(bundle(FILES, '--most', String(size)).status, 0);
  for (const [changed, words, said] of [
    [{}, ['--most', String(size - 1)], /at most/],
    [{}, ['--data', 'none=named.json'], /no element of data with the id none/],
    [{'named.json': '[1,'}, [], /named.json is no JSON/],
    [{'main.js': 'let = '}, [], /esbuild: /],
    [{'main.js': "import './nothing.js';"}, [], /nothing\.js/],
    [{'page.html': '<script src="main.js"></script>'}, [], /none of the elements/],
    [{'page.html': '<script type="module" src="absent.js"></script>'}, [], /absent\.js/],
  ]) {
    const {status, page, said: note} = bundle({...FILES, .../** @type {object} */ (changed)}, .../** @type {string[]} */ (words));
    assert.equal(status, 1);
    assert.equal(page, '');
    assert.match(note, /** @type {RegExp} */ (said));
  }
});

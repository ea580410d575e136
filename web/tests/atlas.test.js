// The page of all classes: its template is what tools/bundle-page makes of these modules.
import assert from 'node:assert/strict';
import { spawnSync } from 'node:child_process';
import { readFileSync } from 'node:fs';
import { fileURLToPath } from 'node:url';
import test from 'node:test';

const path = (/** @type {string} */ name) => fileURLToPath(new URL(`../../${name}`, import.meta.url));
const without = spawnSync('esbuild', ['--version']).status === 0 ? false : 'esbuild is not here';

test('companions/atlas-page.html is made of these modules', { skip: without }, () => {
  const made = spawnSync(path('tools/bundle-page'), [path('web/atlas/page.html')], { maxBuffer: 1 << 24 });
  assert.equal(made.status, 0);
  assert.ok(String(made.stdout) === readFileSync(path('companions/atlas-page.html'), 'utf8'),
    'tools/bundle-page web/atlas/page.html --output companions/atlas-page.html');
});

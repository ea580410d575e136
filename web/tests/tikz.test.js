// The chart as a picture of TikZ: pdflatex takes it, whatever the names are, and each sign of a name is there.
import assert from 'node:assert/strict';
import { spawnSync } from 'node:child_process';
import { mkdtempSync, readFileSync, rmSync, writeFileSync } from 'node:fs';
import { tmpdir } from 'node:os';
import test from 'node:test';
import { run } from '../engine.js';
import { chartOf } from '../page/chart.js';
import { clockOf } from '../page/clock.js';
import { latex, tikzText } from '../page/drawing.js';
import { built } from '../page/instance.js';
import { calledAt } from '../page/jobs.js';
import { solvedOf } from '../page/schedule.js';
import { problemOf } from '../page/texts.js';

const example = (/** @type {string} */ name) => readFileSync(new URL(`../../examples/${name}`, import.meta.url), 'utf8');
const NAMES = ['50%', 'R&D', '#7', 'x^2~y', 'M\u00fcller-Gr\u00f6\u00dfe', '$cost$', '{set}', 'back\\slash', 'a--b', '<b>|x|',
  '3 \u20ac \u2013 \u00bd', '\u0141 \u00f1 \u0151'];

/**
 * The picture of a best plan.
 * @param {string} text an instance
 * @param {string[]} names
 * @param {Partial<import('../page/chart.js').Wanted>} [more]
 */
async function picture(text, names, more) {
  const problem = problemOf(text);
  assert(problem);
  const clock = clockOf(problem), made = built(problem, clock), { report } = await run(['solve'], made.text);
  const places = new Map(made.jobs.map((it, at) => [it.row.id, at])), { pieces } = solvedOf(report, made);
  const jobName = (/** @type {number} */ row) => names[places.get(row) || 0] || calledAt(made.jobs[places.get(row) || 0].row, places.get(row) || 0);
  return tikzText(chartOf({ pieces, built: made, clock, byJob: false, german: false, machineName: it => `machine ${it}`, jobName, width: 900,
    broken: new Set(), marked: new Set(), ...more }));
}

/**
 * What pdflatex says of pictures, and the text of what it made.
 * @param {string[]} pictures
 */
function compiled(pictures) {
  const folder = mkdtempSync(`${tmpdir()}/tikz-`);
  try {
    const head = '\\documentclass{article}\n\\usepackage[paperwidth=40cm,paperheight=30cm,margin=6mm]{geometry}\n'
      + '\\usepackage{tikz}\n\\begin{document}\n';
    writeFileSync(`${folder}/all.tex`, `${head}${pictures.map(it => `${it}\n\\newpage\n`).join('')}\\end{document}\n`);
    const done = spawnSync('pdflatex', ['-interaction=nonstopmode', '-halt-on-error', 'all.tex'], { cwd: folder, maxBuffer: 1 << 24 });
    const said = spawnSync('pdftotext', ['-layout', 'all.pdf', '-'], { cwd: folder });
    return { status: done.status, log: String(done.stdout), text: said.status === 0 ? String(said.stdout) : null };
  } finally {
    rmSync(folder, { recursive: true });
  }
}

test('signs of LaTeX stand as texts', () => {
  assert.equal(latex('50% of {a_b} & #1 $x^2~\\'), '50\\% of \\{a\\_b\\} \\& \\#1 \\$x\\textasciicircum{}2\\textasciitilde{}\\textbackslash{}');
  assert.equal(latex('a\u200bb\u202ec<d>|e"'), 'abc\\textless{}d\\textgreater{}\\textbar{}e{\\ttfamily\\char34}');
});

const without = spawnSync('pdflatex', ['--version']).status === 0 ? false : 'pdflatex is not here';

// (an underscore is drawn as a line, so the text has none)
test('pdflatex takes pictures of plans of each kind, and of all names', { skip: without, timeout: 120000 }, async () => {
  const jobs = NAMES.map((_, at) => `job j${at} p=${at + 8} d=${at * 7 + 4}`).join('\n');
  const pictures = [await picture(example('shared-jobs.txt'), []), await picture(example('open-shop.txt'), [], { byJob: true }),
    await picture(example('late-orders.txt'), []), await picture(example('job-shop.txt'), []),
    await picture(`msp 1\nclass 1||Lmax\n${jobs}\nend\n`, NAMES, { width: 1500 }),
    await picture(`msp 1\nclass 1||Lmax\n${jobs}\nend\n`, NAMES, { byJob: true, broken: new Set([1]), marked: new Set([3]) })];
  const { status, log, text } = compiled(pictures);
  assert.equal(status, 0, (log.match(/^!.*$(\n.*){3}/m) || [log.slice(-400)])[0]);
  assert.ok(!/Missing character/.test(log));
  for (const it of text === null ? [] : ['50%', 'R&D', '#7', 'back\\slash', '$cost$', '{set}', '<b>|x|', 'a--b']) {
    assert.ok(String(text).includes(it), `${it} is not there`);
  }
});

test('letters that pdflatex does not know are told', async () => {
  const text = example('late-orders.txt');
  assert.match(await picture(text, ['\u05de\u05d5\u05d3']), /^% \(some names have letters that pdflatex does not know/m);
  assert.ok(!/some names/.test(await picture(text, ['M\u00fcller'])));
});

// The entries of the results files: their references, how they are found by authors, and lists of classes as CSV, LaTeX and BibTeX.
import { formula, NAMES, partsOf } from './names.js';

/** @typedef {import('./classes.js').Atlas} Atlas */
/** @typedef {import('./classes.js').Facts} Facts */

/** The key of the BibTeX entry for proofs of our own. */
export const OWN_KEY = 'msp';
/**
 * Rules that are known by a name, and the words by which the results name their source.
 * @type {[RegExp, string][]}
 */
const RULES = [
  [/\bmoore[\s-]+(?:and\s+)?hodgson('s)?\b|\bhodgson\b/i, 'moore 1968'], [/\bsmith('s)?[\s-]+(?:rule|ratio)\b|\bwspt\b/i, 'smith 1956'],
  [/\bjohnson('s)?[\s-]+(?:rule|algorithm)\b/i, 'johnson 1954'], [/\bjackson('s)?[\s-]+rule\b|\bedd\b/i, 'jackson 1955'],
  [/\bmcnaughton('s)?[\s-]+(?:rule|algorithm)\b|\bwrap[\s-]?around\b/i, 'mcnaughton 1959'], [/\bhu('s)?[\s-]+(?:rule|algorithm)\b/i, 'hu 1961'],
  [/\bhorn('s)?[\s-]+(?:rule|algorithm)\b/i, 'horn 1974'], [/\blawler('s)?[\s-]+(?:rule|algorithm)\b/i, 'lawler 1973'],
  [/\bcoffman[\s-]+graham\b/i, 'coffman and graham 1972'],
];

/**
 * The source of an entry up to its semicolon.
 * @param {string} source
 */
export function sourceOf(source) { return source.split(';')[0].trim(); }

/**
 * Whether an entry rests on a proof that no journal has seen.
 * @param {Facts} facts
 * @param {number} record
 */
export function isOwn(facts, record) { return (facts.own || []).includes(record); }

/**
 * The keys of the publications of an entry.
 * @param {Facts} facts
 * @param {number} record
 * @returns {string[]}
 */
export function keysOf(facts, record) { return facts.references[sourceOf(facts.entries[record][2])] || []; }

/**
 * The words of a text as the search compares them: small, without marks.
 * @param {string} text
 * @returns {string[]}
 */
function words(text) {
  const small = text.toLowerCase().normalize('NFD').replace(/[\u0300-\u036f'\u2019]/g, '').replace(/\u00df/g, 'ss');
  return small.split(/[^a-z0-9]+/).filter(it => it.length > 1 && !['and', 'et', 'al', 'the'].includes(it));
}

/**
 * The entries whose sources name the authors, years and words of a text; none for a text that is written as a name of a class.
 * @param {Facts} facts
 * @param {string} text
 * @returns {number[]}
 */
export function entriesOf(facts, text) {
  if (/[|\\/=<_$\u2223]/.test(text)) return [];
  let said = text.replace(/\u2019/g, '\'');
  for (const [pattern, source] of RULES) said = said.replace(pattern, source);
  const wanted = words(said);
  /** @type {(all: string, word: string) => boolean} */
  const has = (all, word) => word.length > 2 ? all.includes(word) : ` ${all} `.includes(` ${word} `);
  return Object.keys(facts.entries).map(Number).sort((one, other) => one - other).filter(record => {
    const [first, further] = facts.finds[sourceOf(facts.entries[record][2])] || ['', ''];
    return wanted.every(it => has(`${first} ${further}`, it)) && wanted.some(it => has(first, it));
  });
}

/**
 * The entries that decide a class, each once.
 * @param {Atlas} atlas
 * @param {boolean} published whether the published results alone are asked
 * @param {number} at
 * @returns {number[]}
 */
export function decidedBy(atlas, published, at) {
  const told = published && atlas.published || atlas.all;
  return Array.from(new Set(told.chainsOf(at).map(([, chain]) => chain.record)));
}

/**
 * A field of a CSV file, in quotes where it needs them.
 * @param {string} text
 */
function field(text) { return /[",\n]/.test(text) ? `"${text.replace(/"/g, '""')}"` : text; }

/**
 * The keys of BibTeX entries for what decides a class.
 * @param {Atlas} atlas
 * @param {boolean} published
 * @param {number} at
 * @returns {string[]}
 */
function keysFor(atlas, published, at) {
  const records = decidedBy(atlas, published, at), { data } = atlas;
  return Array.from(new Set(records.flatMap(it => keysOf(data, it).concat(isOwn(data, it) ? [OWN_KEY] : []))));
}

/**
 * Classes as a CSV file: label, label by the published results alone, the entries that decide and the keys of their references, the solver
 * and the number of rows over which its schedules are carried.
 * @param {Atlas} atlas
 * @param {number[]} those
 * @returns {string}
 */
export function asCsv(atlas, those) {
  const lines = those.map(at => {
    const entries = decidedBy(atlas, false, at).map(it => `${NAMES[atlas.data.entries[it][0]]} ${atlas.data.entries[it][1]}`);
    const [solver, rows] = atlas.solver(at) || ['', ''];
    const published = atlas.published ? atlas.published.labels[at] : '';
    return [NAMES[at], atlas.all.labels[at], published, entries.join(';'), keysFor(atlas, false, at).join(' '), solver,
      String(rows)].map(field).join(',');
  });
  return ['class,label,published,entries,references,solver,rows', ...lines, ''].join('\n');
}

/**
 * Classes as a table of LaTeX; the keys are those of the BibTeX file.
 * @param {Atlas} atlas
 * @param {boolean} published
 * @param {number[]} those
 * @returns {string}
 */
export function asLatex(atlas, published, those) {
  const told = published && atlas.published || atlas.all;
  const lines = those.map(at => {
    const keys = keysFor(atlas, published, at), solver = atlas.solver(at);
    const fields = [formula(partsOf(at)), told.labels[at], keys.length ? `\\cite{${keys.join(',')}}` : '', solver ? solver[0].replace(/_/g, '\\_')
      : ''];
    return `  ${fields.join(' & ')} \\\\`;
  });
  return ['\\begin{tabular}{llll}', '  Problem & Complexity & Decided by & Solver \\\\', '  \\hline', ...lines, '\\end{tabular}', ''].join('\n');
}

/**
 * The BibTeX entry for proofs of our own, as `cite --bibtex` prints it.
 * @param {Facts} facts
 * @returns {string}
 */
export function ownBibtex(facts) {
  const said = facts.citation || { title: 'msp', author: '', released: '' };
  return [`@misc{${OWN_KEY},`, `  author = {{${said.author}}},`, `  title = {${said.title}},`, `  year = {${said.released.slice(0, 4)}},`,
    '  note = {docs/results/proofs-of-results.md: proofs on paper, not refereed}', '}'].join('\n');
}

/**
 * The references of the entries that decide classes, each once, with what they decide.
 * @param {Atlas} atlas
 * @param {boolean} published
 * @param {number[]} those
 * @returns {string}
 */
export function asBibtex(atlas, published, those) {
  const { data } = atlas, records = Array.from(new Set(those.flatMap(at => decidedBy(atlas, published, at)))).sort((one, other) => one - other);
  /** @type {Map<string, string[]>} */
  const found = new Map();
  for (const record of records) {
    for (const key of keysOf(data, record).concat(isOwn(data, record) ? [OWN_KEY] : [])) {
      const [at, verdict] = data.entries[record];
      found.set(key, (found.get(key) || []).concat(`% decides by ${NAMES[at]}, listed ${verdict}`));
    }
  }
  const blocks = Array.from(found, ([key, notes]) => `${notes.join('\n')}\n${key === OWN_KEY ? ownBibtex(data) : data.texts[key][1]}\n`);
  return blocks.join('\n');
}

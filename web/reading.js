// Texts as people write them: a name in three fields in the spellings of docs/notation.md, or words in any order.
import { ENVIRONMENTS, ITEMS, nameOf, NAMES, partsOf, rankOf } from './names.js';

/** @typedef {import("./names.js").Parts} Parts */
/** @typedef {import("./names.js").Part} Part */
/**
 * A part of a text that means nothing here: as it stands there, and what is to be said of it; `near` has words that are near.
 * @typedef {{word: string, note: string, part: Part|null, near: string[]}} Unknown
 */
/**
 * A fixed number of machines that a text asks for; null where it says any fixed number, as Pm.
 * @typedef {{kind: string, machines: number|null}} Fixed
 */
/**
 * What a text means: the words wanted for each part (a part without them is free), and what was not understood.
 * @typedef {Object} Reading
 * @property {string} text
 * @property {boolean} whole whether it is a name in three fields, so that a part not said is absent
 * @property {Partial<Record<Part, string[]>>} wanted
 * @property {string[]} labels
 * @property {Unknown[]} unknown
 * @property {Fixed|null} fixed
 */

export const LABELS = ['easy', 'pseudo', 'weak', 'hard', 'strong', 'open', 'both', 'torn'];

// Signs and marks of LaTeX

/**
 * A text without the signs that say nothing: spaces of LaTeX, dollars; its bars as `|`.
 * @param {string} text
 * @returns {string}
 */
function withoutMarks(text) {
  return text.replace(/[\u200b\u2060\ufeff]/g, '').replace(/\\\||\\parallel(?![a-z])|\u2016|\u2225/g, '||').replace(/\\[()[\]]/g, '')
    .replace(/\\[,;:! ]|\\q?quad\b|~|\u00a0|\u2009|\u202f/g, ' ')
    .replace(/\\(mid|vert|lvert|rvert)(?![a-z])|[\u2223\uff5c\u2502]/g, '|').replace(/\\(left|right|big|Big)(?![a-z])/g, '').replace(/\$/g,
      '').trim();
}

/**
 * A part of a name in plain letters, without blanks.
 * @param {string} word
 * @returns {string}
 */
function plain(word) {
  return word.replace(/\\(?:bar|overline|tilde)\s*\{?\s*([Fd])\s*\}?|([Fd])[\u0304\u0305]|\u1e0f/g, (_, one, other) => (one || other) === 'F'
    ? 'meanflowtime' : 'deadline')
    .replace(/\\(?:mathrm|mathit|mathsf|text|textrm|textit|operatorname|rm|it)(?![a-z])/g, '').replace(/\\(?:leqslant|leq|le)(?![a-z])|\u2264|=</g,
      '<=')
    .replace(/\\prec(?![a-z])|\u227a/g, 'prec').replace(/\\(?:sum|Sigma)(?![a-z])|[\u03a3\u2211]/g, 'sum').replace(/\\(?:limits|nolimits)/g,
      '').replace(/\\(max|min)(?![a-z])/g, '$1')
    .replace(/\\circ(?![a-z])|\\cdot(?![a-z])|[\u00b0\u00b7\u2022\u2218]/g, '-').replace(/\\in(?![a-z])/g, '\u2208').replace(/[\\{}\s]/g,
      '').replace(/\u2c7c/g, '_j').replace(/\u00b2/g, '^2');
}

/**
 * A word in small letters alone, without what joins them.
 * @param {string} word
 */
function letters(word) { return plain(word).toLowerCase().replace(/[_\-*]/g, ''); }

// What the notation does not have

/** @type {[RegExp, string][]} */
const NO_MACHINES = [
  [/^[pqr]mpm|^mpm|^[ofj]mpm|^[ofj]mpt/, 'Multi-purpose machines are left out of the notation.'],
  [/^ff|^hf|^fh|^flexibleflow|^hybrid/, 'Hybrid (flexible) flow shops are left out of the notation.'],
  [/^fj|^hj|^flexiblejob/, 'Flexible job shops are left out of the notation.'],
  [/^[gx]\d?$|^mixed|^general/, 'General and mixed shops are left out of the notation.'],
  [/^[pqrofj]0*1$/, 'One machine is written 1.'],
];
/** @type {[RegExp, string][]} */
const NO_ITEMS = [
  [/^d[ij]?$|^deadlines?(?:[ij]|$)|^bard[ij]?$|^duedates?$/,
    'Deadlines and due dates are no item: that each job meets its deadline is Lmax at most 0.'],
  [/^n(=|<=\d)|^n$|^(two|three|2|3)jobs$/, 'A fixed number of jobs has no name; n<=2 on job shops bounds the operations of each job.'],
  [/^nowait|^nwt?$/, 'No-wait is left out of the notation.'],
  [/^block/, 'Blocking is left out of the notation.'],
  [/^setup|^s(_?[ijf]|jk|ij|sd|f|d)+$|^st/, 'Setup times are left out of the notation.'],
  [/batch|^b(=|<|$)/, 'Batches are left out of the notation.'],
  [/^size|^fix|^mult|^set[ij]?$|^any$/, 'Jobs that need several machines at once are left out of the notation.'],
  [/^delay|^l(=|_?[ij]|max|$)|^l[ij]/, 'Delays are left out of the notation.'],
  [/^c(=|[ij]+$)|^com|^dup$/, 'Communication delays are left out of the notation.'],
  [/^res|^brkdwn|^breakdown|^avail|^h[ij]$|^nrwin|^maint/, 'Resources and times without machines are left out of the notation.'],
  [/^m(=|<)/, 'A number of machines stands with their kind, as P2.'],
  [/^m[ij]$/, 'Sets of machines for each job are left out of the notation.'],
  [/^p[ij]*(\u2208|in)|^p[ij]*(<|>|=)/, 'Times are arbitrary, all 1 (p=1) or all equal (p=p); other bounds on times are left out of the notation.'],
  [/^w[ij]*(=|<|\u2208)/, 'Bounds on weights are left out of the notation; a criterion without w has none.'],
  [/^d[ij]*(=|<|\u2208)/, 'A common due date is left out of the notation.'],
  [/^(no)?idle|^agree|^recrc|^online|^rej|^learn|^deter|^split/, 'This is left out of the notation.'],
  [/^prmu|^perm/,
    'Permutation schedules are a restriction here: only on F2 without release dates, precedence and pmtn does nothing get worse by them.'],
];
/** @type {[RegExp, string][]} */
const NO_ORDERS = [
  [/^spgraph|^seriesparallel|^sp$|^nfree/, 'Series-parallel precedence has no name: prec is the next wider class.'],
  [/^opposingforest|^intervalorder|^level|^quasi|^forest$|^bounded/, 'This kind of precedence has no name: prec is the next wider class.'],
];
/** @type {[RegExp, string][]} */
const NO_CRITERIA = [
  [/^tmax/, 'Tmax has no name: Lmax decides it, since Tmax is the greater of 0 and Lmax.'],
  [/^fmax/, 'The greatest flow time is Lmax with each due date at the release date; fmax, the greatest of any costs, has a small letter.'],
  [/\^|\u00b2/, 'Powers of completion times are left out of the notation.'],
  [/^sumw?[ij]?f[ij]?$|^sumf/, 'Sums of arbitrary costs are left out of the notation; fmax is the greatest of them.'],
  [/^sum.*e[ij]?$|^sum.*e[ij]?\+|earliness|^emax/, 'Earliness is left out of the notation.'],
  [/[,#+]|^lex|^pareto/, 'Several criteria at once are left out of the notation.'],
  [/^sum.*[vy][ij]?$|latework/, 'Late work is left out of the notation.'],
];

/**
 * The words for a part that are near one that was not understood.
 * @param {Part | null} part
 * @param {string} word in letters
 * @returns {string[]}
 */
function nearWords(part, word) {
  if (part === 'criterion') return /^[ft]max/.test(word) ? ['Lmax'] : [];
  return part === 'environment' ? ENVIRONMENTS.filter(name => name[0].toLowerCase() === word[0]) : [];
}

/**
 * What is to be said of a word: in a field of a name, or (null) among words in any order.
 * @param {string} word
 * @param {'environment' | 'order' | 'criterion' | null} field
 * @returns {Unknown}
 */
function nothing(word, field) {
  const it = letters(word), said = plain(word).toLowerCase();
  const order = field === 'order' || field === null ? NO_ORDERS.find(([pattern]) => pattern.test(it)) : undefined;
  if (order) return { word, note: order[1], part: 'order', near: ['prec', 'intree', 'outtree'] };
  const tables = { environment: NO_MACHINES, order: NO_ITEMS, criterion: NO_CRITERIA };
  const found = (field ? tables[field] : Object.values(tables).flat()).find(([pattern]) => pattern.test(it) || pattern.test(said));
  const part = field === 'order' ? null : field;
  return { word, note: found ? found[1] : '', part, near: nearWords(part, it) };
}

// Words of each part

/** @type {Object<string, string[]>} */
const KINDS = { 'identical machines': ['P2', 'P3', 'P'], 'parallel machines': ['P2', 'P3', 'P'], 'identical parallel machines': ['P2', 'P3', 'P'],
  'uniform machines': ['Q2', 'Q'],
  'uniform parallel machines': ['Q2', 'Q'], 'unrelated machines': ['R2', 'R'], 'unrelated parallel machines': ['R2', 'R'],
  'open shop': ['O2', 'O3', 'O'], 'flow shop': ['F2', 'F3', 'F'], 'job shop': ['J2', 'J'] };
const NUMBERS = [['two', '2'], ['three', '3'], ['2', '2'], ['3', '3']];

/**
 * The environments that words name, and the fixed number that they say; null where they name none.
 * @param {string} word
 * @returns {{values: string[], fixed: Fixed|null}|null}
 */
function machinesNamed(word) {
  const it = letters(word);
  if (/^[1pqrofj]$/.test(it)) return { values: [it.toUpperCase()], fixed: null };
  const named = it.match(/^([pqrofj])(m|[1-9]\d*)$/);
  if (!named) return null;
  const kind = named[1].toUpperCase(), environment = kind + named[2];
  if (named[2] === '1') return null;
  const smaller = ENVIRONMENTS.filter(name => name[0] === kind && name.length === 2);
  if (named[2] === 'm') return { values: smaller, fixed: { kind, machines: null } };
  return ENVIRONMENTS.includes(environment) ? { values: [environment], fixed: null } : { values: [smaller[smaller.length - 1], kind], fixed: { kind,
    machines: +named[2] } };
}

/** @type {[RegExp, Part, string[]][]} */
const ITEM_WORDS = [
  [/^(pmtn|prmp|prmt|preempt|preemptions?|preemptive|cut)$/, 'cut', ['pmtn']],
  [/^(non|no)(pmtn|preemptions?|preemptive)$|^uncut$/, 'cut', ['']],
  [/^chains?$/, 'order', ['chains']], [/^in(trees?|forests?)$/, 'order', ['intree']], [/^out(trees?|forests?)$/, 'order', ['outtree']],
  [/^trees?$/, 'order', ['intree', 'outtree']], [/^(prec|acyclic|precedence|precedenceconstraints)$/, 'order', ['prec']],
  [/^(r[ij]?|r[ij](>=|\u2265|geqslant|geq|ge)0|releasedates?|releasetimes?|readytimes?|heads?)$/, 'release', ['r']],
  [/^(p(ij|[ij])?=1|uet|unittimes?|unitprocessingtimes?|unitjobs?)$/, 'times', ['p=1']],
  [/^(p(ij|[ij])?=p|equaltimes|equalprocessingtimes|equaljobs)$/, 'times', ['p=p']],
  [/^(?:[no](?:ij|[ij])?|m(?:ij|[ij]))<=2$/, 'short', ['n<=2']],
];

/**
 * The part that an item is, and the words for which it stands.
 * @param {string} word
 * @returns {{part: Part, values: string[]}|null}
 */
function itemNamed(word) {
  const it = letters(word), found = ITEM_WORDS.find(([pattern]) => pattern.test(it));
  return found ? { part: found[1], values: found[2] } : null;
}

/** @type {Object<string, string>} */
const CRITERION_WORDS = {
  cmax: 'Cmax', makespan: 'Cmax', maximumcompletiontime: 'Cmax', schedulelength: 'Cmax', lmax: 'Lmax', maximumlateness: 'Lmax', lateness: 'Lmax',
    maxlateness: 'Lmax', fmax: 'fmax', hmax: 'fmax',
  maximumcost: 'fmax', greatestcost: 'fmax', flowtime: 'sumC', meanflowtime: 'sumC', totalflowtime: 'sumC', sumflowtime: 'sumC',
    completiontimes: 'sumC', totalcompletiontime: 'sumC',
  sumofcompletiontimes: 'sumC', weightedflowtime: 'sumwC', weightedcompletiontimes: 'sumwC', totalweightedcompletiontime: 'sumwC',
    weightedsumofcompletiontimes: 'sumwC',
  latejobs: 'sumU', numberoflatejobs: 'sumU', numberoftardyjobs: 'sumU', tardyjobs: 'sumU', weightednumberoflatejobs: 'sumwU',
    weightedlatejobs: 'sumwU', weightednumberoftardyjobs: 'sumwU',
  tardiness: 'sumT', totaltardiness: 'sumT', weightedtardiness: 'sumwT', totalweightedtardiness: 'sumwT',
};

/**
 * The criterion that a word names, or null.
 * @param {string} word
 * @returns {string|null}
 */
function criterionNamed(word) {
  if (/^(min(imi[sz]e)?)?F_?max/.test(plain(word))) return null;
  const it = letters(word).replace(/^min(imi[sz]e)?(?=[a-z])/, '');
  if (CRITERION_WORDS[it]) return CRITERION_WORDS[it];
  const sum = it.replace(/^sum[ij]=1(?:\^?n)?/, 'sum').match(/^sum[ij]?(?:(w)[ij]?)?([cut])[ij]?$/);
  return sum ? `sum${sum[1] || ''}${sum[2].toUpperCase()}` : null;
}

// Readings

/**
 * Adds words for a part, or says that they do not go with what stands there.
 * @param {Reading} reading
 * @param {string} word
 * @param {Part} part
 * @param {string[]} values
 * @returns {void}
 */
function want(reading, word, part, values) {
  const before = reading.wanted[part];
  if (!before) reading.wanted[part] = values;
  else reading.unknown.push({ word, note: `It does not go with ${before.join(' or ') || 'what is said before it'}.`, part: null, near: [] });
}

/**
 * Whether an item says nothing: a dash or a dot in place of no item.
 * @param {string} word
 */
function empty(word) { return /^(-|\.|o|\u2013|\u2014|\u2205|\\emptyset|\\circ|\\cdot|\u00b0|\u00b7|\u2022|\u2218)?$/.test(word.replace(/[{}\s]/g,
  '')); }

/**
 * Whether an item asks for permutation schedules where they are no restriction: on two machines in sequence, where at most times are said.
 * @param {Reading} reading
 * @param {string} word
 * @param {string[]} words all items
 */
function harmless(reading, word, words) {
  const restricts = (/** @type {string} */ it) => it !== word && !/^p.*=[1p]$|^(uet|unit|equal)/.test(letters(it));
  return /^(prmu|perm|permu|permutation)$/.test(letters(word)) && !words.some(restricts) && (reading.wanted.environment || []).join() === 'F2';
}

/**
 * The items of a name.
 * @param {Reading} reading
 * @param {string} field
 */
function readItems(reading, field) {
  const words = field.split(/[,;](?![^{}]*\})/).map(it => it.trim()).filter(it => !empty(it));
  for (const word of words) {
    const item = itemNamed(word);
    if (item) want(reading, word, item.part, item.values);
    else if (!harmless(reading, word, words)) reading.unknown.push(nothing(word, 'order'));
  }
}

/**
 * Says so where operations are bounded on machines that are no job shop.
 * @param {Reading} reading
 */
function withoutShort(reading) {
  const machines = reading.wanted.environment || [];
  if (!(reading.wanted.short || []).includes('n<=2') || !machines.length || machines.some(it => it[0] === 'J')) return;
  reading.unknown.push({ word: 'n<=2', note: 'A bound on the operations of a job goes with job shops alone.', part: 'short', near: [''] });
}

/**
 * A name by its fields.
 * @param {Reading} reading
 * @param {string[]} fields
 */
function readFields(reading, fields) {
  if (fields.length > 3) {
    reading.unknown.push({ word: fields.slice(3).join('|'), note: 'A name has three parts with two bars, as 1|prec|Lmax.', part: null, near: [] });
  }
  const [first, items, last] = fields.map(it => it.trim());
  if (first) {
    const machines = machinesNamed(first) || wordsOfMachines(first);
    if (machines) { reading.wanted.environment = machines.values; reading.fixed = machines.fixed; } else {reading.unknown.push(nothing(first,
      'environment'));}
  }
  readItems(reading, items);
  if (last) {
    const criterion = criterionNamed(last);
    if (criterion) reading.wanted.criterion = [criterion]; else reading.unknown.push(nothing(last, 'criterion'));
  }
  if (fields.length === 3) for (const part of /** @type {Part[]} */ (Object.keys(ITEMS))) if (!reading.wanted[part]) reading.wanted[part] = [''];
  reading.whole = fields.length === 3 && Boolean(first && last);
}

/**
 * Machines in words, as "two-machine flow shop" or "identical machines".
 * @param {string} words
 * @returns {{values: string[], fixed: Fixed|null}|null}
 */
function wordsOfMachines(words) {
  const said = words.toLowerCase().replace(/[-\s]+/g, ' ').trim().replace(/\b(flow|open|job)shops?\b/, '$1 shop').replace(/\bshops\b/,
    'shop').replace(/\b(machine|processors?)\b/g, it => it === 'machine' ? it : 'machines');
  if (/^(one|single|1) machines?$/.test(said)) return { values: ['1'], fixed: null };
  if (KINDS[said]) return { values: KINDS[said], fixed: null };
  for (const [number, digit] of NUMBERS) {
    const rest = said.startsWith(`${number} `) ? said.slice(number.length + 1).replace(/^machine /, '') : '';
    const kind = KINDS[rest] || (rest === 'machines' ? KINDS['identical machines'] : null);
    if (kind) return machinesNamed(kind[0][0] + digit);
  }
  return null;
}

const SMALL = ['minimize', 'minimise', 'the', 'on', 'with', 'of', 'and', 'in', 'to', 'a', 'jobs', 'for', 'problem', 'class', 'classes'];

/**
 * What a word or some words next to each other mean among words in any order.
 * @param {string} words
 * @param {number} count
 * @returns {{part: Part, values: string[], fixed?: Fixed|null}|null}
 */
function meaning(words, count) {
  const machines = wordsOfMachines(words) || (count === 1 && !/^[pqrofj]$/.test(words) ? machinesNamed(words) : null);
  if (machines) return { part: 'environment', ...machines };
  const criterion = criterionNamed(words);
  if (criterion) return { part: 'criterion', values: [criterion] };
  return itemNamed(words);
}

/**
 * Words in any order: the longest run of words that mean something together is taken first.
 * @param {Reading} reading
 * @param {string} text
 */
function readWords(reading, text) {
  const words = text.split(/[\s,;]+/).filter(Boolean);
  for (let at = 0; at < words.length;) {
    let count = Math.min(5, words.length - at);
    while (count > 0 && !meaning(words.slice(at, at + count).join(' '), count)) count--;
    const run = words.slice(at, at + Math.max(count, 1)).join(' '), found = count ? meaning(run, count) : null;
    if (found) {
      want(reading, run, found.part, found.values);
      if (found.fixed) reading.fixed = found.fixed;
    } else if (LABELS.includes(run.toLowerCase())) reading.labels.push(run.toLowerCase());
    else if (!SMALL.includes(run.toLowerCase())) reading.unknown.push(nothing(run, null));
    at += Math.max(count, 1);
  }
  if (reading.wanted.short && !reading.wanted.environment) reading.wanted.environment = ['J2', 'J'];
}

/**
 * What a text means.
 * @param {string} text
 * @returns {Reading}
 */
export function read(text) {
  /** @type {Reading} */
  const reading = { text: text.trim(), whole: false, wanted: {}, labels: [], unknown: [], fixed: null };
  const said = withoutMarks(text);
  const fields = said.includes('|') ? said.split('|') : said.split('/').length === 3 ? said.split('/') : [];
  if (fields.length > 1) readFields(reading, fields); else readWords(reading, said);
  withoutShort(reading);
  return reading;
}

/**
 * The ranks of the classes that a reading allows, in order; its labels are not asked.
 * @param {Partial<Record<Part, string[]>>} wanted
 * @returns {number[]}
 */
export function allowed(wanted) {
  const tests = /** @type {[Part, string[]][]} */ (Object.entries(wanted));
  return NAMES.map((_, at) => at).filter(at => tests.every(([part, values]) => values.includes(partsOf(at)[part])));
}

/**
 * The class that a text asks for: the single one of a name, or the one with just the parts that words say; -1 where it is none or several.
 * @param {Reading} reading
 * @returns {number}
 */
export function asked(reading) {
  const { wanted } = reading;
  if (reading.unknown.length || reading.fixed || reading.labels.length || !wanted.environment || !wanted.criterion) return -1;
  const parts = /** @type {Record<string, string>} */ ({});
  for (const part of /** @type {Part[]} */ (['environment', ...Object.keys(ITEMS), 'criterion'])) {
    const values = wanted[part] || [''];
    if (values.length !== 1) return -1;
    parts[part] = values[0];
  }
  return rankOf(nameOf(/** @type {Parts} */ (parts)));
}

/**
 * The classes that are near a text in which something was not understood, nearest first: those that differ in that part alone.
 * @param {Reading} reading
 * @returns {number[]}
 */
export function near(reading) {
  const wanted = { ...reading.wanted };
  if (!Object.keys(wanted).some(part => (wanted[/** @type {Part} */ (part)] || ['']).some(Boolean))) return [];
  for (const { part, near: words } of reading.unknown) {
    if (!part) continue;
    if (words.length) wanted[part] = words; else delete wanted[part];
  }
  if (!reading.whole) for (const part of /** @type {Part[]} */ (Object.keys(ITEMS))) if (!wanted[part] && part !== 'short') wanted[part] = [''];
  return allowed(wanted);
}

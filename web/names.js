// The notation: the parts of a class, its canonical name, and all 9,720 classes in order of rank.

/**
 * The parts of a class. An empty word says that the part is absent.
 * @typedef {Object} Parts
 * @property {string} environment one of ENVIRONMENTS
 * @property {string} cut "pmtn" or ""
 * @property {string} order "chains", "intree", "outtree", "prec" or ""
 * @property {string} release "r" or ""
 * @property {string} times "p=1", "p=p" or ""
 * @property {string} short "n<=2" or "", on J2 and J alone
 * @property {string} criterion one of CRITERIA
 */
/** @typedef {keyof Parts} Part */

export const ENVIRONMENTS = ['1', 'P2', 'P3', 'P', 'Q2', 'Q', 'R2', 'R', 'O2', 'O3', 'O', 'F2', 'F3', 'F', 'J2', 'J'];
export const CRITERIA = ['Cmax', 'Lmax', 'fmax', 'sumC', 'sumwC', 'sumU', 'sumwU', 'sumT', 'sumwT'];
/** The items of a name, in their order there, each with its words.
 * @type {Object<string, string[]>} */
export const ITEMS = {
  cut: ['', 'pmtn'], order: ['', 'chains', 'intree', 'outtree', 'prec'], release: ['', 'r'], times: ['', 'p=1', 'p=p'], short: ['', 'n<=2'],
};
/**
 * All parts with their words.
 * @type {Record<Part, string[]>}
 */
export const VALUES = {
  environment: ENVIRONMENTS, cut: ITEMS.cut, order: ITEMS.order, release: ITEMS.release, times: ITEMS.times, short: ITEMS.short, criterion: CRITERIA,
};
/**
 * The parts in the order in which a person picks them.
 * @type {Part[]}
 */
export const PARTS = ['environment', 'cut', 'order', 'release', 'times', 'short', 'criterion'];

/** Environments in order of rank, where a bound on the operations of a job counts as one of its own. */
export const MACHINES = [
  ...ENVIRONMENTS.filter(it => it[0] !== 'J').map(environment => ({ environment, short: '' })),
  { environment: 'J2', short: 'n<=2' }, { environment: 'J', short: 'n<=2' }, { environment: 'J2', short: '' }, { environment: 'J', short: '' },
];

/**
 * The canonical name of a class.
 * @param {Parts} parts
 * @returns {string}
 */
export function nameOf(parts) {
  let items = '';
  for (const it of [parts.cut, parts.order, parts.release, parts.times, parts.short]) if (it) items += items ? `,${it}` : it;
  return `${parts.environment}|${items}|${parts.criterion}`;
}

/** The items of a name without a bound on operations, and the criteria, in order of rank. */
const RESTS = ITEMS.cut.flatMap(cut => ITEMS.order.flatMap(order => ITEMS.release.flatMap(release => ITEMS.times.flatMap(times =>
  CRITERIA.map(criterion => ({ cut, order, release, times, criterion }))))));

const REST_NAMES = RESTS.map(rest => nameOf({ ...rest, environment: '', short: '' }));
/** The name of each class by its rank, as `msp label` lists them. */
export const NAMES = MACHINES.flatMap(({ environment, short }) => short ? RESTS.map(rest => nameOf({ ...rest, environment, short }))
  : REST_NAMES.map(rest => environment + rest));
/** @type {Map<number, Parts>} */
const KNOWN = new Map();

/**
 * The parts of the class of a rank.
 * @param {number} at
 * @returns {Parts}
 */
export function partsOf(at) {
  const known = KNOWN.get(at);
  if (known) return known;
  const parts = { ...RESTS[at % RESTS.length], ...MACHINES[Math.floor(at / RESTS.length)] };
  KNOWN.set(at, parts);
  return parts;
}

/**
 * The place of each environment, by its name with a bound on operations, and of each rest of a name.
 * @type {[Map<string, number>, Map<string, number>]}
 */
const PLACES = [new Map(MACHINES.map(({ environment, short }, at) => [environment + short, at])),
  new Map(REST_NAMES.map((rest, at) => [rest, at]))];

/**
 * The rank of a class by its canonical name, or -1 where there is none.
 * @param {string} name
 * @returns {number}
 */
export function rankOf(name) {
  const bar = name.indexOf('|'), short = /(?:,|\|)n<=2(?=\|)/.test(name) ? 'n<=2' : '', rest = name.slice(bar).replace(short, '').replace(',|', '|');
  const machines = PLACES[0].get(name.slice(0, bar) + short), place = PLACES[1].get(rest);
  const at = bar < 0 || machines === undefined || place === undefined ? -1 : machines * RESTS.length + place;
  return NAMES[at] === name ? at : -1;
}

/**
 * The rank of the class that has another word for one part; -1 where there is none. A bound on operations goes where the machines are no job shop.
 * @param {Parts} parts
 * @param {Part} part
 * @param {string} word
 * @returns {number}
 */
export function changed(parts, part, word) {
  const those = { ...parts, [part]: word };
  return rankOf(nameOf(part === 'environment' && word[0] !== 'J' ? { ...those, short: '' } : those));
}

/**
 * A name as a formula of LaTeX, as $P2\mid pmtn,r_j\mid \sum w_jC_j$.
 * @param {Parts} parts
 * @returns {string}
 */
export function formula(parts) {
  /** @type {Object<string, string>} */
  const words = { r: 'r_j', 'p=1': 'p_j=1', 'p=p': 'p_j=p', 'n<=2': 'n_j\\le 2', pmtn: '\\mathit{pmtn}', chains: '\\mathit{chains}',
    intree: '\\mathit{intree}', outtree: '\\mathit{outtree}', prec: '\\mathit{prec}' };
  const items = [parts.cut, parts.order, parts.release, parts.times, parts.short].filter(Boolean).map(it => words[it]);
  const sum = parts.criterion.match(/^sum(w?)([CUT])$/);
  const criterion = sum ? `\\sum ${sum[1] ? 'w_j' : ''}${sum[2]}_j` : `${parts.criterion[0]}_{\\max}`;
  return `$${parts.environment}\\mid ${items.join(',') || '\\,'}\\mid ${criterion}$`;
}

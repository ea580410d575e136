// Certificates: why no plan costs less, as a sentence with its numbers. Whether the evidence holds the program says (`accept`).
import { compare, fraction, over, plus, printed, shown, times, ZERO } from '../fractions.js';
import { momentText } from './clock.js';
import { added, costText, lengthText } from './costs.js';
import { listCost } from './schedule.js';
import { timeOn } from './own.js';

/** @typedef {import('./app.js').App} App */
/** @typedef {import('../fractions.js').Fraction} Fraction */
/** @typedef {import('./instance.js').Built} Built */
/** @typedef {import('./instance.js').Job} Job */
/**
 * A certificate: its bound in numbers of the instance, its kind, the rows of the jobs that it names, its machine, its lines, and its text.
 * @typedef {{bound: Fraction, kind: string, rows: number[], machine: number, lines: string[][], text: string}} Certificate
 */

/** The classes for which the program finds certificates. */
export const CERTIFIED = ['P|pmtn|Cmax', 'Q|pmtn|Cmax', 'O|pmtn|Cmax', 'O2||Cmax', 'P|intree,p=1|Cmax', 'P2|prec,p=1|Cmax', 'R||sumC',
  '1|pmtn,prec,r|fmax'];

/**
 * The certificate in a text; null where there is none.
 * @param {string} text
 * @param {Built} built
 * @returns {Certificate | null}
 */
export function certificateIn(text, built) {
  const at = `\n${text}`.indexOf('\ncertificate\n'), word = text.match(/^kind (\w+)$/m), bound = text.match(/^bound (\S+)$/m);
  const value = bound ? printed(bound[1]) : null;
  if (at < 0 || !word || !value) return null;
  const lines = text.slice(at).split('\n').slice(3).map(it => it.split(' ')).filter(it => it[0] && it[0] !== 'end');
  const rows = new Map(built.jobs.map(it => [it.name, it.row.id])), named = lines.filter(it => it[0] === 'job').map(it => rows.get(it[1]) || 0);
  const machine = lines.find(it => it[0] === 'machine');
  return { bound: value, kind: word[1], rows: named, machine: machine ? Number(machine[1]) : 0, lines, text: text.slice(at) };
}

/**
 * The work of a job in units of the list: of its only operation, or of all.
 * @param {Job} job
 * @param {Built} built
 */
function workOf(job, built) {
  if (!'OFJ'.includes(built.name[0])) return job.p[0] || built.shared;
  const count = built.name[0] === 'J' ? job.route.length : built.machines;
  return Array.from({ length: count }, (_, at) => timeOn(job, at + 1, 0, built)).reduce(plus, ZERO);
}

/**
 * The work on a machine of a shop.
 * @param {number} machine
 * @param {Built} built
 */
function workAt(machine, built) {
  const onRoute = (/** @type {Job} */ job) => job.route.map((it, at) => it[0] === machine ? timeOn(job, at + 1, 0, built) : ZERO).reduce(plus, ZERO);
  return built.jobs.map(job => built.name[0] === 'J' ? onRoute(job) : timeOn(job, machine, 0, built)).reduce(plus, ZERO);
}

/**
 * Which jobs have arcs, or a path of arcs, to one of some others.
 * @param {Built} built
 * @param {Set<number>} others their rows
 * @returns {Set<number>} rows
 */
function before(built, others) {
  /** @type {Set<number>} */
  const found = new Set();
  for (let grown = true; grown;) {
    grown = false;
    for (const [first, then] of built.arcs) {
      const [from, to] = [built.jobs[first].row.id, built.jobs[then].row.id];
      if (found.has(from) || !others.has(to) && !found.has(to)) continue;
      found.add(from);
      grown = true;
    }
  }
  return found;
}

/**
 * What some jobs show that wait for nothing but their heads: the least head, their work, when the last of them ends at the earliest, and the
 * job that costs least as the last one.
 * @param {Certificate} found
 * @param {Built} built
 */
function blockOf({ rows, lines }, built) {
  const jobs = built.jobs.filter(it => rows.includes(it.row.id)), scale = fraction(built.scale);
  const heads = lines.filter(([word, name]) => word === 'head' && jobs.some(it => it.name === name)).map(it => fraction(BigInt(it[2])));
  const first = over(heads.reduce((least, it) => compare(it, least) < 0 ? it : least, heads[0] || ZERO), scale);
  const work = jobs.map(it => workOf(it, built)).reduce(plus, ZERO), last = plus(first, work), others = before(built, new Set(rows));
  const costs = jobs.filter(it => !others.has(it.row.id)).map(job => ({ job, cost: added(job, last, 'fmax') }));
  const least = costs.reduce((best, it) => compare(it.cost, best.cost) < 0 ? it : best, costs[0]);
  return { first, work, last, job: least ? least.job.row.id : 0, cost: least ? least.cost : ZERO };
}

/**
 * What a certificate is told by: the key of its words, their values, what it shows in units of the list, and the jobs that it is about.
 * @typedef {{key: string, values: string[], shows: Fraction, rows: number[]}} Told
 */

/**
 * The work of some jobs.
 * @param {Certificate} found
 * @param {App} app
 * @returns {Told}
 */
function groupTold({ rows }, app) {
  const { built } = app, jobs = built.jobs.filter(it => rows.includes(it.row.id)), work = jobs.map(it => workOf(it, built)).reduce(plus, ZERO);
  const used = Math.min(jobs.length, built.machines), speeds = [...built.speeds].sort((one, other) => one < other ? 1 : -1).slice(0, used);
  const speed = speeds.length ? speeds.reduce((sum, it) => sum + it, 0n) : BigInt(used), shows = over(work, fraction(speed || 1n));
  const numbers = [said(work, app), String(used), String(speed), said(shows, app)], key = speeds.length ? 'whyGroupSpeeds' : 'whyGroup';
  if (jobs.length === 1) return { key: `${key}1`, values: [app.jobName(rows[0]), ...numbers], shows, rows };
  return { key: used === 1 ? 'whyGroupOne' : key, values: [String(jobs.length), ...numbers], shows, rows };
}

/** How each kind is told.
 * @type {Object<string, (found: Certificate, app: App) => Told>} */
const TOLD = {
  group: groupTold,
  machine: ({ machine }, app) => {
    const { built } = app, shows = workAt(machine, built), rows = built.jobs.filter(it => workAt(machine, { ...built, jobs: [it] }).n > 0n);
    return { key: 'whyMachine', values: [app.machineName(machine), said(shows, app)], shows, rows: rows.map(it => it.row.id) };
  },
  line: ({ rows }, app) => {
    const shows = app.built.jobs.filter(it => it.row.id === rows[0]).map(it => workOf(it, app.built)).reduce(plus, ZERO);
    return { key: 'whyLine', values: [app.jobName(rows[0] || 0), said(shows, app)], shows, rows };
  },
  levels: ({ lines }, { built }) => {
    const tail = Number((lines.find(it => it[0] === 'tail') || ['', '0'])[1]), { machines } = built;
    const high = new Set(lines.filter(it => it[0] === 'level' && Number(it[2]) >= tail).map(it => it[1])), slots = Math.ceil(high.size / machines);
    return { key: tail ? 'whyLevels' : 'whySlots', values: [high.size, tail, machines, slots, slots + tail].map(String),
      shows: fraction(slots + tail), rows: built.jobs.filter(it => high.has(it.name)).map(it => it.row.id) };
  },
  segments: ({ lines, rows }, { built }) => {
    const starts = lines.flatMap((it, at) => it[0] === 'segment' ? [at] : []), { machines } = built;
    const sizes = starts.map((at, place) => (starts[place + 1] || lines.length) - at - 1), slots = sizes.map(it => Math.ceil(it / machines));
    const all = slots.reduce((sum, it) => sum + it, 0), values = [sizes.join(' + '), String(machines), slots.join(' + '), String(all)];
    if (sizes.length === 1) return { key: 'whySlots', values: [String(sizes[0]), '0', ...values.slice(1)], shows: fraction(all), rows };
    return { key: 'whySegments', values, shows: fraction(all), rows };
  },
  block: (found, app) => {
    const { first, work, last, job, cost } = blockOf(found, app.built), names = found.rows.map(it => app.jobName(it)).join(', ');
    const moment = (/** @type {Fraction} */ it, /** @type {boolean} */ ends) => momentText(it, app.clock, app.words.german, ends);
    const values = [names, moment(first, false), said(work, app), moment(last, true), app.jobName(job), shown(cost, app.words.mark)];
    return { key: found.rows.length === 1 ? 'whyBlock1' : 'whyBlock', values, shows: cost, rows: found.rows };
  },
  prices: ({ lines }, app) => {
    const sum = (/** @type {string} */ word, /** @type {number} */ at) => listCost(lines.filter(it => it[0] === word)
      .map(it => fraction(BigInt(it[at]))).reduce(plus, ZERO), 'sumC', app.built);
    const [jobs, places] = [sum('row', 2), sum('column', 3)], shows = plus(jobs, places);
    return { key: 'whyPrices', values: [jobs, places, shows].map(it => said(it, app)), shows, rows: [] };
  },
};

/**
 * @param {Fraction} value a length of time
 * @param {App} app
 */
function said(value, app) { return lengthText(value, app.problem.unit, app.words); }

/**
 * What a certificate is told by.
 * @param {Certificate} found
 * @param {App} app
 */
export function toldOf(found, app) { return TOLD[found.kind](found, app); }

/**
 * A certificate as a sentence; its bound stands in it as the program has it.
 * @param {Certificate} found
 * @param {App} app
 */
export function whyText(found, app) {
  const { key, values } = toldOf(found, app), { criterion } = app.problem.parts;
  const bound = costText(listCost(found.bound, criterion, app.built), criterion, app.problem.unit, app.words);
  return `${app.words.say(key, ...values)} ${app.words.say('whyBound', bound)}`;
}

/**
 * A certificate as people paste it, alone or behind an instance or in a report of `certify`; empty where there is none.
 * @param {string} text
 */
export function pastedText(text) {
  const lines = text.replace(/^\ufeff/, '').split(/\r\n?|\n/).map(it => it.trim().replace(/\s+/g, ' ')), at = lines.indexOf('certificate');
  const end = lines.indexOf('end', at);
  return at < 0 ? '' : `${lines.slice(at, end < 0 ? undefined : end).filter(Boolean).join('\n')}\nend\n`;
}

/**
 * The text of one's own certificate of a simple kind.
 * @param {'group' | 'machine' | 'line'} kind
 * @param {Fraction} bound in units of the list
 * @param {number[]} rows
 * @param {number} machine
 * @param {Built} built
 */
export function ownText(kind, bound, rows, machine, built) {
  const scaled = times(bound, fraction(built.scale)), value = scaled.d === 1n ? String(scaled.n) : `${scaled.n}/${scaled.d}`;
  const jobs = built.jobs.filter(it => rows.includes(it.row.id)).slice(0, kind === 'line' ? 1 : undefined).map(it => `job ${it.name}`);
  return ['certificate', `bound ${value}`, `kind ${kind}`, ...(kind === 'machine' ? [`machine ${machine}`] : jobs), 'end', ''].join('\n');
}

// A problem as it stands in the page, and the text of its instance: each fault stands at its cell.
import { CellFault, lengthOf, momentOf, numberOf } from './cells.js';
import { columnsOf, fixedMachines, hasSpeeds, kindOf } from './columns.js';
import { compare, fraction, lcm, print, times, ZERO } from '../fractions.js';
import { nameOf } from '../names.js';
import { arcsOf, namesOf } from './jobs.js';
import { saysSum } from './spreadsheet.js';

/** @typedef {import('../names.js').Parts} Parts */
/** @typedef {import('../fractions.js').Fraction} Fraction */
/** @typedef {import('./cells.js').Clock} Clock */
/**
 * A row of the table of jobs: its number, which it keeps, and its cells by the keys of their columns, as they are typed.
 * @typedef {{id: number, name: string, cells: Object<string, string>}} Row
 */
/**
 * A problem as it is typed. `time` is the time that all operations share, `unit` the word of a unit of time, `start` a date; `drawn` has the
 * number of jobs and the seed from which the jobs were drawn, `sheet` the name of the file from which they came.
 * @typedef {object} Problem
 * @property {Parts} parts
 * @property {string} machines
 * @property {string} speeds
 * @property {string} time
 * @property {string[]} machineNames
 * @property {string} unit
 * @property {string} start
 * @property {string} shifts
 * @property {string} holidays
 * @property {string} drawn
 * @property {string} sheet
 * @property {Row[]} rows
 */
/**
 * A fault: the number of its row (0 for the problem as a whole), the key of its column, a code of words.js and what stands there.
 * @typedef {{row: number, key: string, code: string, values: string[]}} Fault
 */
/**
 * A job whose cells were read: times are the factor of the instance already.
 * @typedef {{row: Row, name: string, r: Fraction, d: Fraction | null, w: Fraction, p: Fraction[], route: [number, Fraction][],
 *   curve: Fraction[]}} Job
 */
/**
 * An instance: its text; which row and which columns stand in each of its lines; its jobs; the factors by which moments and weights of the
 * list were made whole; arcs as pairs of places of jobs; and all faults, in which case the text is empty.
 * @typedef {object} Built
 * @property {string} text
 * @property {string} name the class
 * @property {{row: number, keys: string[]}[]} lines
 * @property {Job[]} jobs
 * @property {number} machines
 * @property {bigint[]} speeds
 * @property {Fraction} shared the time that all operations share, where the class has one
 * @property {bigint} scale
 * @property {bigint} weights
 * @property {[number, number][]} arcs
 * @property {Fault[]} faults
 */

/**
 * The rows that have something in a column of the class, or a name.
 * @param {Problem} problem
 */
export function usedRows(problem) {
  const keys = columnsOf(problem.parts, machinesOf(problem));
  return problem.rows.filter(it => it.name.trim() || keys.some(key => (it.cells[key] || '').trim()));
}

/**
 * The number of machines; 0 where what is typed is no number.
 * @param {Problem} problem
 */
export function machinesOf(problem) {
  return fixedMachines(problem.parts) || (/^\d{1,4}$/.test(problem.machines.trim()) ? Number(problem.machines.trim()) : 0);
}

/** Reads the cells of a problem, and keeps what is wrong. */
class Reader {
  /**
   * @param {Problem} problem
   * @param {Clock} clock
   */
  constructor(problem, clock) {
    this.problem = problem;
    this.clock = clock;
    /** @type {Fault[]} */
    this.faults = [];
    this.scale = 1n;
    this.weights = 1n;
  }

  /**
   * @param {number} row
   * @param {string} key
   * @param {string} code
   * @param {...string} values
   */
  fault(row, key, code, ...values) { this.faults.push({ row, key, code, values }); }

  /**
   * What a reader makes of a text; 0 where it finds a fault.
   * @param {number} row
   * @param {string} key
   * @param {string} text
   * @param {(text: string) => Fraction} reader
   */
  value(row, key, text, reader) {
    try {
      if (!text.trim()) throw new CellFault('empty');
      return reader(text);
    } catch (fault) {
      if (!(fault instanceof CellFault)) throw fault;
      this.fault(row, key, fault.code, ...fault.values);
      return ZERO;
    }
  }

  /**
   * A length of time, or a moment, which count for the factor of the list.
   * @param {Row} row
   * @param {string} key
   * @param {string} text
   * @param {boolean} isLength
   */
  moment(row, key, text, isLength) {
    const found = this.value(row.id, key, text, it => isLength ? lengthOf(it, this.clock) : momentOf(it, this.clock));
    this.scale = lcm(this.scale, found.d);
    return found;
  }

  /**
   * The operations of a route: machines, with a time behind each where times are general.
   * @param {Row} row
   * @returns {[number, Fraction][]}
   */
  route(row) {
    const fields = (row.cells.route || '').trim().split(/[\s;|>\u2192]+/).filter(Boolean), step = this.problem.parts.times ? 1 : 2;
    if (!fields.length || fields.length % step) this.fault(row.id, 'route', step === 2 ? 'routePairs' : 'routeMachines');
    /** @type {[number, Fraction][]} */
    const found = [];
    for (let at = 0; at + step <= fields.length; at += step) {
      const machine = this.machine(row, fields[at]);
      found.push([machine, step === 1 ? fraction(1) : this.moment(row, 'route', fields[at + 1], true)]);
    }
    return found;
  }

  /**
   * A machine of a route, by its number or its name.
   * @param {Row} row
   * @param {string} text
   */
  machine(row, text) {
    const named = this.problem.machineNames.findIndex(it => it.trim() && it.trim().toLowerCase() === text.toLowerCase());
    const found = named >= 0 ? named + 1 : /^\d{1,3}$/.test(text) ? Number(text) : 0;
    if (!found || found > machinesOf(this.problem)) this.fault(row.id, 'route', 'noMachine', text);
    return found;
  }

  /**
   * The numbers of a curve: slope, base, and pairs of a threshold and an add.
   * @param {Row} row
   */
  curve(row) {
    const fields = (row.cells.curve || '').trim().split(/[\s;|]+/).filter(Boolean);
    if (fields.length < 2 || fields.length % 2) this.fault(row.id, 'curve', 'curveForm');
    return fields.map((text, at) => at === 0 ? this.value(row.id, 'curve', text, numberOf) : this.moment(row, 'curve', text, false));
  }

  /**
   * @param {Row} row
   * @param {string} name
   * @returns {Job}
   */
  job(row, name) {
    const keys = columnsOf(this.problem.parts, machinesOf(this.problem)), cell = (/** @type {string} */ key) => row.cells[key] || '';
    /** @type {Job} */
    const job = { row, name, r: ZERO, d: null, w: fraction(1), p: [], route: [], curve: [] };
    for (const key of keys) {
      if (/^p\d*$/.test(key)) job.p.push(this.moment(row, key, cell(key), true));
      else if (key === 'r') job.r = this.moment(row, key, cell(key) || '0', false);
      else if (key === 'd') job.d = this.moment(row, key, cell(key), false);
      else if (key === 'w') {
        job.w = this.value(row.id, key, cell(key), numberOf);
        this.weights = lcm(this.weights, job.w.d);
      } else if (key === 'route') job.route = this.route(row);
      else if (key === 'curve') job.curve = this.curve(row);
    }
    return job;
  }

  /** The speeds of uniform machines. */
  speeds() {
    if (!hasSpeeds(this.problem.parts)) return [];
    const fields = this.problem.speeds.trim().split(/[\s;,]+/).filter(Boolean);
    if (fields.length !== machinesOf(this.problem)) this.fault(0, 'speeds', 'speedsCount', String(fields.length), String(machinesOf(this.problem)));
    if (fields.some(it => !/^[1-9]\d{0,8}$/.test(it))) this.fault(0, 'speeds', 'speedsWhole');
    return fields.map(it => /^\d{1,9}$/.test(it) ? BigInt(it) : 1n);
  }

  /** What is wrong with the problem as a whole. */
  whole() {
    const { parts } = this.problem;
    if (!machinesOf(this.problem)) this.fault(0, 'machines', 'notNumber', this.problem.machines);
    const shared = parts.times === 'p=p' ? this.value(0, 'time', this.problem.time, it => lengthOf(it, this.clock)) : fraction(1);
    this.scale = lcm(this.scale, shared.d);
    return shared;
  }
}

/**
 * Makes all moments whole: dates and times by one factor, weights by another. With unit times the factor has to be 1.
 * @param {Reader} reader
 * @param {Job[]} jobs
 */
function refuseParts(reader, jobs) {
  if (reader.problem.parts.times !== 'p=1') return;
  for (const { row, r, d, route } of jobs) {
    for (const [key, value] of /** @type {[string, Fraction | null][]} */ ([['r', r], ['d', d], ...route.map(it => ['route', it[1]])])) {
      if (value && value.d !== 1n) reader.fault(row.id, key, 'notWhole', (row.cells[key] || '').trim() || print(value));
    }
  }
}

/**
 * Says where a row is one of sums: by its name, or as the last one that has no name and sums.
 * @param {Reader} reader
 * @param {Job[]} jobs
 */
function refuseSums(reader, jobs) {
  const last = jobs[jobs.length - 1], above = jobs.slice(0, -1);
  for (const { row } of jobs) if (saysSum(row.name)) reader.fault(row.id, 'job', 'sumRow', row.name);
  if (!last || last.row.name.trim() || above.length < 2 || !last.p.length) return;
  const sums = last.p.map((_, at) => above.reduce((sum, it) => fraction(sum.n * it.p[at].d + it.p[at].n * sum.d, sum.d * it.p[at].d), ZERO));
  if (sums.every((it, at) => compare(it, last.p[at]) === 0)) reader.fault(last.row.id, 'job', 'sumRow', print(sums[0]));
}

/**
 * The number of a moment in the instance.
 * @param {Fraction} value
 * @param {bigint} scale
 */
function whole(value, scale) { return print(times(value, fraction(scale))); }

/** The text of an instance, with what stands in each line. */
class Writer {
  /**
   * @param {Built} built
   * @param {Parts} parts
   */
  constructor(built, parts) {
    this.built = built;
    this.parts = parts;
    this.text = '';
  }

  /**
   * @param {string} text
   * @param {number} row
   * @param {...string} keys
   */
  line(text, row, ...keys) {
    this.text += `${text}\n`;
    this.built.lines.push({ row, keys });
  }

  /** @param {Job} job */
  job(job) {
    const { scale, weights } = this.built, { parts } = this, kind = kindOf(parts), id = job.row.id;
    const fields = [['p', '1PQ'.includes(kind) && !parts.times ? whole(job.p[0], scale) : ''], ['r', parts.release ? whole(job.r, scale) : ''],
      ['d', job.d ? whole(job.d, scale) : ''], ['w', parts.criterion.startsWith('sumw') ? whole(job.w, weights) : '']].filter(it => it[1]);
    this.line([`job ${job.name}`, ...fields.map(([key, value]) => `${key}=${value}`)].join(' '), id, 'job', ...fields.map(([key]) => key));
    if ('ROF'.includes(kind) && !parts.times) {
      this.line(`times ${job.p.map(it => whole(it, scale)).join(' ')}`, id, ...job.p.map((_, at) => `p${at + 1}`));
    }
    if (kind === 'J') {
      this.line(`route ${job.route.map(([machine, time]) => parts.times ? machine : `${machine} ${whole(time, scale)}`).join(' ')}`, id, 'route');
    }
    if (job.curve.length) this.line(`curve ${job.curve.map((it, at) => at === 0 ? print(it) : whole(it, scale)).join(' ')}`, id, 'curve');
  }

  /** @param {Fraction} shared the time that all operations share */
  all(shared) {
    const { built, parts } = this;
    this.line('msp 1', 0, 'class');
    this.line(`class ${built.name}`, 0, 'class');
    if (!fixedMachines(parts)) this.line(`machines ${built.machines}`, 0, 'machines');
    if (hasSpeeds(parts)) this.line(`speeds ${built.speeds.join(' ')}`, 0, 'speeds');
    if (parts.times === 'p=p') this.line(`time ${whole(shared, built.scale)}`, 0, 'time');
    for (const it of built.jobs) this.job(it);
    for (const [before, after] of built.arcs.map(pair => pair.map(it => built.jobs[it]))) {
      this.line(`arc ${before.name} ${after.name}`, after.row.id, 'after');
    }
    this.line('end', 0, 'rows');
    return this.text;
  }
}

/**
 * The instance of a problem.
 * @param {Problem} problem
 * @param {Clock} clock
 * @returns {Built}
 */
export function built(problem, clock) {
  const reader = new Reader(problem, clock), shared = reader.whole(), speeds = reader.speeds();
  const rows = usedRows(problem), names = namesOf(rows, reader), jobs = rows.map((row, at) => reader.job(row, names[at]));
  refuseParts(reader, jobs);
  refuseSums(reader, jobs);
  const arcs = problem.parts.order ? arcsOf(rows, reader) : [];
  if (!rows.length) reader.fault(0, 'rows', 'noJobs');
  /** @type {Built} */
  const made = { text: '', name: nameOf(problem.parts), lines: [], jobs, machines: machinesOf(problem), speeds, shared,
    scale: reader.scale, weights: reader.weights, arcs, faults: reader.faults };
  if (!made.faults.length) made.text = new Writer(made, problem.parts).all(shared);
  return made;
}

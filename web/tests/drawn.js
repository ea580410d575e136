// Small instances, drawn by a seed: the same each time.

/** @typedef {import('../names.js').Parts} Parts */

/** Numbers from a seed (xorshift of 32 bits). */
export class Draw {
  /** @param {number} seed from 1 */
  constructor(seed) { this.state = seed * 2654435761 >>> 0 || 1; }

  /**
   * A whole number from one to the other, both included.
   * @param {number} from
   * @param {number} to
   */
  from(from, to) {
    this.state ^= this.state << 13;
    this.state ^= this.state >>> 17;
    this.state ^= this.state << 5;
    return from + (this.state >>> 0) % (to - from + 1);
  }

  /**
   * @template T
   * @param {T[]} those
   * @returns {T}
   */
  one(those) { return those[this.from(0, those.length - 1)]; }
}

/**
 * @param {Parts} parts
 * @param {number} machines
 * @param {Draw} draw
 */
function timesLines({ environment, times, short }, machines, draw) {
  if (environment[0] === 'J') {
    const machine = draw.from(1, 2), way = short ? draw.from(0, 2) ? [machine, 3 - machine] : [machine]
      : Array.from({ length: draw.from(1, 4) }, () => draw.from(1, machines));
    return [`route ${way.map(it => times ? it : `${it} ${draw.from(1, 9)}`).join(' ')}`];
  }
  if (times || !'ROF'.includes(environment[0])) return [];
  const all = Array.from({ length: machines }, () => draw.from('OF'.includes(environment[0]) ? 0 : 1, 9));
  return [`times ${(all.some(it => it > 0) ? all : [...all.slice(1), 1]).join(' ')}`];
}

/**
 * The lines of a job.
 * @param {Parts} parts
 * @param {number} at
 * @param {number} machines
 * @param {number} horizon
 * @param {Draw} draw
 */
function jobLines(parts, at, machines, horizon, draw) {
  const { environment, times, release, criterion } = parts, due = /[LUT]/.test(criterion.replace('sum', '').replace('Cmax', ''));
  const keys = [times || !'1PQ'.includes(environment[0]) ? '' : `p=${draw.from(1, 9)}`, release ? `r=${draw.from(0, horizon)}` : '',
    due ? `d=${draw.from(0, horizon)}` : '', criterion.startsWith('sumw') ? `w=${draw.from(1, 6)}` : ''];
  const lines = [['job', `j${at}`, ...keys.filter(Boolean)].join(' '), ...timesLines(parts, machines, draw)];
  if (criterion === 'fmax') {
    const first = draw.from(0, horizon), steps = draw.from(0, 1) ? [first, draw.from(1, 20), first + 3, draw.from(1, 20)] : [];
    lines.push(['curve', draw.from(0, 3), draw.from(-9, 9), ...steps].join(' '));
  }
  return lines;
}

/**
 * The arcs of an order: each job waits for earlier ones, as many as the order lets it.
 * @param {string} order
 * @param {number} jobs
 * @param {Draw} draw
 */
function arcLines(order, jobs, draw) {
  /** @type {string[]} */
  const lines = [];
  const outs = new Array(jobs).fill(0), most = order === 'chains' || order === 'intree' ? 1 : jobs;
  for (let at = 1; order && at < jobs; at++) {
    const wanted = order === 'chains' || order === 'outtree' ? draw.from(0, 3) > 0 ? 1 : 0 : draw.from(0, 2), seen = new Set();
    for (let times = 0; times < wanted; times++) {
      const before = draw.from(0, at - 1);
      if (outs[before] >= most || seen.has(before)) continue;
      seen.add(before);
      outs[before]++;
      lines.push(`arc j${before} j${at}`);
    }
  }
  return lines;
}

/**
 * The line of speeds, where machines have some.
 * @param {Parts} parts
 * @param {number} machines
 * @param {Draw} draw
 */
function speedsLines({ environment }, machines, draw) {
  return environment[0] === 'Q' ? [`speeds ${Array.from({ length: machines }, () => draw.from(1, 5)).join(' ')}`] : [];
}

/**
 * An instance of a class, as a text.
 * @param {string} name
 * @param {Parts} parts
 * @param {Draw} draw
 */
export function drawn(name, parts, draw) {
  const fixed = parts.environment.match(/^[A-Z]?([1-9])$/), least = parts.environment === 'J' ? 2 : 1,
    machines = fixed ? Number(fixed[1]) : draw.from(least, 4), jobs = draw.from(1, 9);
  const horizon = draw.from(1, 5 * jobs);
  return ['msp 1', `class ${name}`, ...fixed ? [] : [`machines ${machines}`], ...speedsLines(parts, machines, draw),
    ...parts.times === 'p=p' ? [`time ${draw.from(1, 5)}`] : [],
    ...Array.from({ length: jobs }, (_, at) => jobLines(parts, at, machines, horizon, draw)).flat(),
    ...arcLines(parts.order, jobs, draw), 'end', ''].join('\n');
}

// Horn; Bruno, Coffman and Sethi: the sum of the ends on unrelated machines: jobs to places from the end, with prices that show the bound.
import { fraction, lcm, plus, ZERO } from '../fractions.js';
import { allOf, count, timeOf } from './jobs.js';
import { listed, said, Telling } from './telling.js';

/** @typedef {import('./types.js').Instance} Instance */
/** @typedef {import('./types.js').Piece} Piece */

/**
 * Jobs come in one after another, and each takes the way of least cost to a free place (shortest augmenting paths). Place number `at` is
 * the one that is `at / machines + 1` from the end of machine `at % machines + 1`. No job's price and its place's price are together more
 * than what the job costs there, and they are equal where it stands. Numbers are whole: times by a common factor, each sum below 2^53.
 */
class Places {
  /** @param {Instance} instance */
  constructor(instance) {
    const jobs = allOf(instance), machines = instance.machines;
    this.machines = machines;
    this.scale = jobs.reduce((all, job) => this.row(instance, job).reduce((it, time) => lcm(it, time.d), all), 1n);
    this.times = jobs.map(job => this.row(instance, job).map(it => Number(it.n * (this.scale / it.d))));
    /** @type {number[]} of each job that is in, its place */
    this.places = [];
    this.owners = new Array(jobs.length * machines).fill(-1);
    this.prices = new Array(jobs.length).fill(0);
    this.placePrices = new Array(jobs.length * machines).fill(0);
  }

  /**
   * The times of a job on the machines.
   * @param {Instance} instance
   * @param {number} job
   */
  row(instance, job) { return Array.from({ length: instance.machines }, (_, at) => timeOf(instance, job, at + 1)); }

  /**
   * What a job costs at a place.
   * @param {number} job
   * @param {number} at
   */
  cost(job, at) { return (Math.floor(at / this.machines) + 1) * this.times[job][at % this.machines]; }

  /** @param {number} it a number, in units of the instance */
  shown(it) { return fraction(BigInt(it), this.scale); }

  /**
   * Lets a job come in.
   * @param {number} job
   */
  add(job) {
    const { open, from, end } = this.search(job);
    for (let it = end; it >= 0; it = from[it]) {
      const owner = from[it] < 0 ? job : this.owners[open[from[it]]];
      this.owners[open[it]] = owner;
      this.places[owner] = open[it];
    }
  }

  /** The places that are taken, and on each machine the free one next to them: those in front of it cost more. */
  open() {
    const free = Array.from({ length: this.machines }, (_, machine) => {
      const taken = this.places.reduce((sum, at) => sum + (at % this.machines === machine ? 1 : 0), 0);
      return taken * this.machines + machine;
    });
    return [...this.places, ...free];
  }

  /**
   * The way of least cost from a job to a free place, which changes the prices so that this way costs nothing more.
   * @param {number} job
   */
  search(job) {
    const open = this.open(), far = open.map(() => Infinity), from = open.map(() => -1), seen = open.map(() => false);
    for (let here = -1, done = 0; ;) {
      const owner = here < 0 ? job : this.owners[open[here]];
      let next = -1;
      open.forEach((at, it) => {
        if (seen[it]) return;
        const length = done + this.cost(owner, at) - this.prices[owner] - this.placePrices[at];
        if (length < far[it]) [far[it], from[it]] = [length, here];
        if (next < 0 || far[it] < far[next]) next = it;
      });
      done = far[next];
      if (this.owners[open[next]] < 0) {
        this.prices[job] += done;
        open.filter((_, it) => seen[it]).forEach(at => this.reprice(at, done - far[open.indexOf(at)]));
        return { open, from, end: next };
      }
      seen[next] = true;
      here = next;
    }
  }

  /**
   * @param {number} at a place that is taken
   * @param {number} difference
   */
  reprice(at, difference) {
    this.prices[this.owners[at]] += difference;
    this.placePrices[at] -= difference;
  }

  /**
   * The jobs that are in, on each machine from its last place to the first.
   * @param {Instance} instance
   * @returns {Piece[]}
   */
  pieces(instance) {
    return Array.from({ length: this.machines }, (_, machine) => {
      const those = this.places.map((at, job) => ({ at, job })).filter(it => it.at % this.machines === machine);
      let now = ZERO;
      return those.sort((one, other) => other.at - one.at).map(({ job }) => {
        const from = now;
        now = plus(now, timeOf(instance, job, machine + 1));
        return { job, op: 1, machine: machine + 1, from, to: now };
      });
    }).flat();
  }
}

/**
 * @param {Telling} telling
 * @param {Places} places
 */
function tellTable(telling, places) {
  telling.rows = places.places.map((at, job) => [{ job }, { machine: at % places.machines + 1 }, count(Math.floor(at / places.machines) + 1),
    places.shown(places.cost(job, at)), places.shown(places.prices[job]), places.shown(places.placePrices[at])]);
}

/**
 * @param {Instance} instance
 * @returns {import('./types.js').Step[]}
 */
export function steps(instance) {
  const places = new Places(instance), telling = new Telling(said('job'), said('machine'), said('fromEnd'), said('costsThere'), said('jobPrice'),
    said('placePrice'));
  for (const job of allOf(instance)) {
    const before = places.places.slice();
    places.add(job);
    tellTable(telling, places);
    telling.pieces = places.pieces(instance);
    const moved = allOf(instance).filter(it => it < job && before[it] !== places.places[it]), place = places.places[job];
    const cells = [{ job }, { machine: place % places.machines + 1 }, count(Math.floor(place / places.machines) + 1)];
    telling.tell(said(moved.length ? 'price moves' : 'price comes', ...cells, listed(moved)), { row: job, column: -1, kind: 'now' },
      ...moved.map(row => /** @type {import('./types.js').Mark} */ ({ row, column: 1, kind: 'chosen' })));
  }
  const all = [...places.prices, ...places.placePrices].reduce((sum, it) => sum + it, 0);
  telling.tell(said('price ends', places.shown(all)));
  return telling.steps;
}

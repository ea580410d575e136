// How an order of jobs becomes a schedule, in three named ways. `list`: at the earliest moment at which a machine is free and a job can begin,
// the first such job of the order begins, on the free machine of least number. `serial`: in the order, each job as early as those in front of it
// allow. `active`, in shops: of all operations that could begin before the earliest end of one on its machine, that of the first job begins. On
// machines that are not alike a job goes where it ends first.

/** @typedef {import('./plain.js').Timed} Timed */
/** @typedef {import('./plain.js').Step} Step */
/** @typedef {{job: number, number: number, machine: number, start: number, end: number}} Placed */

/**
 * The order in which each job stands behind those for which it waits: the first job of the order that may go next, always.
 * @param {Timed} timed
 * @param {number[]} order
 * @returns {number[]}
 */
export function allowed(timed, order) {
  if (!timed.before.some(it => it.length)) return order;
  const waits = timed.before.map(it => it.length), found = [], rest = order.slice();
  while (rest.length) {
    const at = rest.findIndex(job => !waits[job]);
    if (at < 0) return found;
    const [job] = rest.splice(at, 1);
    found.push(job);
    for (const other of timed.after[job]) waits[other]--;
  }
  return found;
}

/**
 * When a job can begin.
 * @param {Timed} timed
 * @param {number} job
 * @param {number[]} ends
 */
function readyAt(timed, job, ends) {
  let now = timed.release[job];
  for (const it of timed.before[job]) if (ends[it] > now) now = ends[it];
  return now;
}

/**
 * The machine for a job that can begin at a moment: of machines that are alike the one that is free last by then, else the first to be free;
 * of others the one on which it ends first.
 * @param {Timed} timed
 * @param {number} job
 * @param {number} now
 * @param {number[]} free
 */
function machineFor(timed, job, now, free) {
  let best = 0;
  for (let at = 1; at < free.length; at++) {
    if (timed.alike ? free[at] <= now ? free[best] > now || free[at] >= free[best] : free[best] > now && free[at] < free[best]
      : Math.max(free[at], now) + timed.times[job][at] < Math.max(free[best], now) + timed.times[job][best]) best = at;
  }
  return best;
}

/**
 * The step of an open shop's job that can begin first, of equal ones the longest.
 * @param {Step[]} rest
 * @param {number} now
 * @param {number[]} free
 */
function soonest(rest, now, free) {
  let best = 0;
  const begin = (/** @type {Step} */ it) => Math.max(free[it.machine], now);
  for (let at = 1; at < rest.length; at++) {
    const far = begin(rest[at]) - begin(rest[best]);
    if (far < 0 || far === 0 && rest[at].time > rest[best].time) best = at;
  }
  return best;
}

/**
 * The schedule of an order by `serial`. In a shop a job may stand in the order once for each of its operations: each time the next one is placed.
 * @param {Timed} timed
 * @param {number[]} order
 * @returns {Placed[]}
 */
export function serial(timed, order) {
  const those = allowed(timed, order);
  return timed.shop ? serialShop(timed, those.flatMap(job => timed.steps[job].map(() => job))) : serialJobs(timed, those);
}

/**
 * @param {Timed} timed
 * @param {number[]} order
 */
function serialJobs(timed, order) {
  const free = timed.begins.slice(), ends = new Array(timed.times.length).fill(0);
  /** @type {Placed[]} */
  const found = [];
  for (const job of order) {
    const now = readyAt(timed, job, ends), machine = machineFor(timed, job, now, free), start = Math.max(free[machine], now);
    const end = start + timed.times[job][machine];
    free[machine] = ends[job] = end;
    found.push({ job, number: 1, machine, start, end });
  }
  return found;
}

/**
 * The schedule of a shop from an order of operations, each named by its job. A job that waits for another one that stands behind it is
 * placed when that is done.
 * @param {Timed} timed
 * @param {number[]} tokens
 * @returns {Placed[]}
 */
export function serialShop(timed, tokens) {
  const free = timed.begins.slice(), ends = new Array(timed.steps.length).fill(0), now = timed.release.slice();
  const rest = timed.steps.map(it => it.slice()), late = /** @type {number[]} */ ([]), waits = timed.before.map(it => it.length);
  /** @type {Placed[]} */
  const found = [];
  const place = (/** @type {number} */ job) => {
    if (rest[job].length === timed.steps[job].length) now[job] = Math.max(now[job], readyAt(timed, job, ends));
    const [step] = rest[job].splice(timed.open ? soonest(rest[job], now[job], free) : 0, 1);
    const start = Math.max(free[step.machine], now[job]), end = start + step.time;
    free[step.machine] = now[job] = end;
    found.push({ job, number: step.number, machine: step.machine, start, end });
    if (rest[job].length) return;
    ends[job] = end;
    for (const other of timed.after[job]) waits[other]--;
  };
  for (const job of tokens) {
    if (waits[job]) late.push(job);
    else place(job);
    for (let at = 0; late.length && at < late.length;) {
      if (waits[late[at]]) at++;
      else { place(late.splice(at, 1)[0]); at = 0; }
    }
  }
  return found;
}

/** @typedef {{job: number, step: Step, start: number}} Rival an operation that may go next, and when it could begin */

/**
 * The operations among which an order chooses: those that could begin first; or with delays those on the machine of the earliest end that
 * could begin before it.
 * @param {Rival[]} those
 * @param {boolean} delays
 */
function rivals(those, delays) {
  const first = those.reduce((best, it) => isSooner(it, best, delays) ? it : best), until = first.start + first.step.time;
  return delays ? those.filter(it => it.step.machine === first.step.machine && it.start < until) : those.filter(it => it.start === first.start);
}

/**
 * The schedule of a shop in which an order says what goes next, of what could begin first, or with delays by `active`.
 * @param {Timed} timed
 * @param {number[]} order
 * @param {boolean} delays
 * @returns {Placed[]}
 */
function dispatched(timed, order, delays) {
  const free = timed.begins.slice(), now = timed.release.slice(), rest = timed.steps.map(it => it.slice());
  const waits = timed.before.map(it => it.length), places = new Array(order.length);
  order.forEach((job, at) => { places[job] = at; });
  let there = order.filter(job => !waits[job]);
  /** @type {Placed[]} */
  const found = [];
  while (there.length) {
    const those = there.flatMap(job => (timed.open ? rest[job] : rest[job].slice(0, 1))
      .map(step => ({ job, step, start: Math.max(free[step.machine], now[job]) })));
    const { job, step, start } = rivals(those, delays).reduce((best, it) => places[it.job] < places[best.job]
      || it.job === best.job && it.step.machine < best.step.machine ? it : best), end = start + step.time;
    free[step.machine] = now[job] = end;
    rest[job].splice(rest[job].indexOf(step), 1);
    found.push({ job, number: step.number, machine: step.machine, start, end });
    if (rest[job].length) continue;
    there = there.filter(it => it !== job);
    for (const other of timed.after[job]) {
      now[other] = Math.max(now[other], end);
      if (!--waits[other]) there.push(other);
    }
  }
  return found;
}

/**
 * Whether an operation can begin sooner than another, or with delays end sooner, of equal ones that on the machine of less number.
 * @param {Rival} one
 * @param {Rival} other
 * @param {boolean} delays
 */
function isSooner(one, other, delays) {
  const far = one.start - other.start + (delays ? one.step.time - other.step.time : 0);
  return far < 0 || far === 0 && one.step.machine < other.step.machine;
}

/**
 * The schedule of an order by `active`.
 * @param {Timed} timed
 * @param {number[]} order
 */
export function active(timed, order) { return dispatched(timed, order, true); }

/**
 * The machine for a job that begins now by `list`: the free one of least number, or where machines are not alike that on which it ends first.
 * @param {Timed} timed
 * @param {number} job
 * @param {number} now
 * @param {number[]} free
 */
function freeFor(timed, job, now, free) {
  const ends = free.map((it, at) => Math.max(it, now) + timed.times[job][at]);
  return timed.alike ? free.findIndex(it => it <= now) : ends.reduce((best, it, at) => it < ends[best] ? at : best, 0);
}

/**
 * The schedule of an order by `list`.
 * @param {Timed} timed
 * @param {number[]} order
 * @returns {Placed[]}
 */
export function listed(timed, order) {
  if (timed.shop) return dispatched(timed, order, false);
  const free = timed.begins.slice(), now = timed.release.slice(), waits = timed.before.map(it => it.length);
  let rest = order.slice();
  /** @type {Placed[]} */
  const found = [];
  for (let there = rest.filter(it => !waits[it]); there.length; there = rest.filter(it => !waits[it])) {
    const first = Math.max(Math.min(...free), Math.min(...there.map(it => now[it]))), job = there.find(it => now[it] <= first) || 0;
    const machine = freeFor(timed, job, first, free), start = Math.max(free[machine], first), end = start + timed.times[job][machine];
    free[machine] = end;
    found.push({ job, number: 1, machine, start, end });
    rest = rest.filter(it => it !== job);
    for (const other of timed.after[job]) {
      now[other] = Math.max(now[other], end);
      waits[other]--;
    }
  }
  return found;
}

/**
 * The operations of a plan that goes on, in their order: each with the machine on which it stands, or null where it may go to any.
 * @typedef {{job: number, number: number, machine: number | null}} Next
 */

/**
 * The schedule of operations one after another, each as early as it can be on its machine; where none is named, on that where it ends first.
 * @param {Timed} timed
 * @param {Next[]} order
 * @returns {Placed[]}
 */
export function carriedOn(timed, order) {
  const free = timed.begins.slice(), ends = timed.release.map(() => 0);
  return order.map(({ job, number, machine }) => {
    const now = Math.max(timed.release[job], ends[job], ...timed.before[job].map(it => ends[it]));
    const step = timed.shop ? timed.steps[job].find(it => it.number === number) : undefined, on = step ? [] : timed.times[job];
    const soonestOf = () => on.reduce((best, it, at) => Math.max(free[at], now) + it < Math.max(free[best], now) + on[best] ? at : best, 0);
    const at = step ? step.machine : machine === null ? soonestOf() : machine, start = Math.max(free[at], now);
    free[at] = ends[job] = start + (step ? step.time : on[at]);
    return { job, number, machine: at, start, end: ends[job] };
  });
}

/** The ways by their names.
 * @type {Object<string, (timed: Timed, order: number[]) => Placed[]>} */
export const TIMINGS = { list: listed, serial, active };

/**
 * What a job costs that ends at a moment.
 * @param {Timed} timed
 * @param {number} job
 * @param {number} end
 */
function jobCost({ criterion, due, weight, curve, parts }, job, end) {
  if (criterion === 'fmax') {
    const [slope, base, ...steps] = curve[job];
    let cost = slope * end + base * parts;
    for (let at = 0; at + 1 < steps.length; at += 2) if (end > steps[at] * parts) cost += steps[at + 1] * parts;
    return cost;
  }
  const late = end - due[job];
  switch (criterion[criterion.length - 1]) {
  case 'C': return weight[job] * end;
  case 'T': return late > 0 ? weight[job] * late : 0;
  case 'U': return late > 0 ? weight[job] : 0;
  default: return criterion === 'Lmax' ? late : end;
  }
}

/**
 * The cost of a schedule, in parts (counted jobs and weights as they are), for the comparison of orders alone.
 * @param {Timed} timed
 * @param {Placed[]} placed
 */
export function costOf(timed, placed) {
  const ends = new Array(timed.release.length).fill(0);
  for (const it of placed) if (it.end > ends[it.job]) ends[it.job] = it.end;
  const costs = ends.map((end, job) => jobCost(timed, job, end));
  return timed.criterion.startsWith('sum') ? costs.reduce((sum, it) => sum + it, 0) : costs.reduce((most, it) => Math.max(most, it), -Infinity);
}

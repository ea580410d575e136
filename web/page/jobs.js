// The names of jobs in an instance, and which job comes after which others.

/** @typedef {import('./instance.js').Row} Row */
/** @typedef {{fault: (row: number, key: string, code: string, ...values: string[]) => void}} Told */

/**
 * A name with signs that a job name may have.
 * @param {string} name
 */
export function plain(name) {
  const text = name.replace(/\u00df/g, 'ss').normalize('NFKD').replace(/[^\x20-\x7e]/g, '');
  return text.trim().replace(/[^A-Za-z0-9_.-]+/g, '_').replace(/^_+|_+$/g, '').slice(0, 32) || 'job';
}

/**
 * How a row is called: by its name, or by its place.
 * @param {Row} row
 * @param {number} at from 0
 */
export function calledAt(row, at) { return row.name.trim() || `j${at + 1}`; }

/**
 * How a machine is called: by its name, or by its number. A name that is a number stands for the machine of that number, in each language.
 * @param {string[]} names
 * @param {number} machine from 1
 * @param {import('../words.js').Words} words
 */
export function machineAt(names, machine, words) {
  const name = (names[machine - 1] || '').trim();
  return /^\d{1,3}$/.test(name) ? words.say('machine', name) : name || words.say('machine', machine);
}

/**
 * A name for each row as the instance has it, all distinct.
 * @param {Row[]} rows
 * @param {Told} told
 * @returns {string[]}
 */
export function namesOf(rows, told) {
  /** @type {Map<string, number>} */
  const said = new Map(), taken = new Set();
  return rows.map((row, at) => {
    const name = calledAt(row, at), before = said.get(name);
    if (before !== undefined) told.fault(row.id, 'job', 'nameAgain', name, String(before + 1));
    said.set(name, at);
    let found = plain(name);
    for (let count = 2; taken.has(found); count++) found = `${plain(name).slice(0, 28)}-${count}`;
    taken.add(found);
    return found;
  });
}

/**
 * The places of the jobs by their names; of two with one name, that of the last.
 * @param {Row[]} rows
 */
export function placesOf(rows) { return new Map(rows.map((row, at) => [calledAt(row, at), at])); }

/**
 * The names in a cell of the column after, with |, commas, semicolons or blanks between them; names may hold such signs.
 * @param {string} text
 * @param {Map<string, number>} places of the jobs by their names
 * @returns {string[]}
 */
export function namesBefore(text, places) {
  if (!text) return [];
  if (places.has(text)) return [text];
  const mark = ['|', ';', ','].find(it => text.includes(it));
  const parts = text.split(mark || /\s+/).map(it => it.trim()).filter(Boolean), found = [];
  for (let at = 0; at < parts.length;) {
    let long = parts.length - at;
    while (long > 1 && !places.has(parts.slice(at, at + long).join(mark ? `${mark} ` : ' '))) long--;
    found.push(parts.slice(at, at + long).join(mark ? `${mark} ` : ' '));
    at += long;
  }
  return found;
}

/**
 * The arcs that the column after says, as places of jobs; names that are no job's are faults. What the class allows the program says.
 * @param {Row[]} rows
 * @param {Told} told
 * @returns {[number, number][]}
 */
export function arcsOf(rows, told) {
  const places = placesOf(rows);
  /** @type {[number, number][]} */
  const arcs = [];
  rows.forEach((row, at) => {
    const those = namesBefore((row.cells.after || '').trim(), places);
    those.forEach((name, place) => {
      const found = places.get(name);
      if (found === undefined) told.fault(row.id, 'after', 'noJob', name);
      else if (found === at) told.fault(row.id, 'after', 'afterItself', name);
      else if (those.indexOf(name) !== place) told.fault(row.id, 'after', 'afterAgain', name);
      else arcs.push([found, at]);
    });
  });
  return arcs;
}

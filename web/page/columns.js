// What an instance of a class is made of: its machines, its columns, and the words by which people name columns.

/** @typedef {import('../names.js').Parts} Parts */

/** How many machines, jobs and operations there may be; the program says the same of what is beyond. */
export const MOST = { machines: 32, jobs: 400 };

/**
 * The number of machines that an environment fixes; 0 where the instance says it.
 * @param {Parts} parts
 */
export function fixedMachines(parts) { return parts.environment === '1' ? 1 : Number(parts.environment.slice(1) || 0); }

/** @param {Parts} parts */
export function kindOf(parts) { return parts.environment[0]; }

/** @param {Parts} parts */
export function isShop(parts) { return 'OFJ'.includes(kindOf(parts)); }

/** @param {Parts} parts */
export function hasDue(parts) { return /^Lmax$|^sumw?[UT]$/.test(parts.criterion); }

/** @param {Parts} parts */
export function hasWeight(parts) { return parts.criterion.startsWith('sumw'); }

/** Whether speeds stand in the instance.
 * @param {Parts} parts */
export function hasSpeeds(parts) { return kindOf(parts) === 'Q'; }

/**
 * The keys of the columns of times.
 * @param {Parts} parts
 * @param {number} machines
 */
function timeKeys(parts, machines) {
  const kind = kindOf(parts);
  if (kind === 'J') return ['route'];
  if (parts.times) return [];
  return '1PQ'.includes(kind) ? ['p'] : Array.from({ length: Math.min(machines, MOST.machines) }, (_, at) => `p${at + 1}`);
}

/**
 * The keys of the columns of a class, in their order in the table, besides the name of the job.
 * @param {Parts} parts
 * @param {number} machines
 * @returns {string[]}
 */
export function columnsOf(parts, machines) {
  return [...timeKeys(parts, machines), ...(parts.release ? ['r'] : []), ...(hasDue(parts) ? ['d'] : []), ...(hasWeight(parts) ? ['w'] : []),
    ...(parts.order ? ['after'] : []), ...(parts.criterion === 'fmax' ? ['curve'] : [])];
}

/**
 * Words of headers, in small letters and without their unit, by what they mean.
 * @type {Object<string, string>}
 */
const HEADER_WORDS = {
  job: 'job jobs name order orders auftrag auftr\u00e4ge auftragsnummer nr nummer no number id artikel artikelnummer teil part task aufgabe '
    + 'bezeichnung vorgang kunde customer item produkt product bestellung',
  p: 'p time times duration processing work length dauer zeit zeiten arbeit aufwand bearbeitungszeit laufzeit r\u00fcstzeit minuten stunden '
    + 'hours minutes h min std runtime processingtime arbeitszeit',
  r: 'r release ready arrival available earliest start freigabe ab fr\u00fchestens fr\u00fchester eingang ankunft verf\u00fcgbar beginn',
  d: 'd due deadline duedate date until delivery fertig f\u00e4llig termin liefertermin lieferdatum bis f\u00e4lligkeit datum lieferung soll',
  w: 'w weight priority prio importance gewicht priorit\u00e4t wichtigkeit gewichtung',
  after: 'after predecessor predecessors pred nach vorg\u00e4nger danach wartet folgt prec depends waits',
  route: 'route weg ablauf arbeitsplan arbeitsgang machines maschinenfolge', curve: 'curve kurve cost kosten',
};

/**
 * What a word of a header means: a key, or an empty text.
 * @param {string} header without its unit
 */
export function keyOf(header) {
  const text = header.toLowerCase().trim(), machine = text.match(/^(?:p|m|machine|maschine|station|zeit|time|dauer)\s*_?(\d{1,2})$/);
  if (machine && Number(machine[1]) >= 1 && Number(machine[1]) <= MOST.machines) return `p${Number(machine[1])}`;
  const words = text.split(/[^\p{L}\p{N}]+/u).filter(Boolean);
  const keys = Object.keys(HEADER_WORDS), lists = keys.map(key => HEADER_WORDS[key].split(' '));
  const whole = words.join('');
  const exact = keys.find((_, at) => lists[at].includes(whole));
  if (exact) return exact;
  // (the word that says most stands last in English and German: `Auftrag Dauer`, `order due date`)
  return keys.find((_, at) => words.some(word => lists[at].includes(word)) && keys[at] !== 'job')
    || keys.find((_, at) => words.some(word => lists[at].includes(word))) || '';
}

/** Seconds of the words of units. */
const UNITS = Object.entries({
  1: 's sec secs second seconds sek sekunde sekunden', 60: 'm min mins minute minutes minuten', 3600: 'h hr hrs hour hours std stdn stunde stunden',
  86400: 'd day days tag tage tagen', 604800: 'w wk week weeks woche wochen',
});

/**
 * The seconds of a unit by its word; 0 of another word.
 * @param {string} word
 */
export function secondsOf(word) {
  const found = UNITS.find(([, words]) => words.split(' ').includes(word.toLowerCase().replace(/\.$/, '')));
  return found ? Number(found[0]) : 0;
}

/**
 * A header without its unit, and the seconds of that: `Dauer [min]`, `Waschen (Std.)`, `Dauer in min`; 0 without one.
 * @param {string} header
 * @returns {{name: string, seconds: number}}
 */
export function withoutUnit(header) {
  const text = header.replace(/\s+/g, ' ').trim();
  const found = text.match(/^(.*\S)\s*[[(]\s*(?:in\s+)?([A-Za-z]+)\.?\s*[\])]$/) || text.match(/^(.*\S)\s+in\s+([A-Za-z]+)\.?$/);
  const seconds = found ? secondsOf(found[2]) : 0;
  return found && seconds ? { name: found[1].replace(/[ ,:]+$/, ''), seconds } : { name: text, seconds: 0 };
}

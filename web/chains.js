// Chains of reductions, as the page has them packed: the rule of `msp why`, worked out by companions/atlas.

/** @typedef {[number, number]} Step the row and the class to which it leads */
/** @typedef {'easy' | 'pseudo' | 'hard' | 'strong'} Kind */
/**
 * A chain behind a label: the entry that decides, the first class, and the rows.
 * @typedef {{record: number, start: number, rows: Step[]}} Chain
 */

/** @type {Kind[]} */
export const KINDS = ['easy', 'pseudo', 'hard', 'strong'];

/**
 * Whether chains of a kind lead down from the class to the entry, and not from the entry to the class.
 * @param {Kind} kind
 */
export function leadsToEntry(kind) { return kind === 'easy' || kind === 'pseudo'; }

/**
 * Numbers in pairs.
 * @param {number[]} numbers
 * @returns {Step[]}
 */
function inPairs(numbers) {
  /** @type {Step[]} */
  const found = [];
  for (let it = 0; it < numbers.length; it += 2) found.push([numbers[it], numbers[it + 1]]);
  return found;
}

/**
 * The chain of a class by the packed words of a kind, or null. A word is empty, `r` and a record, `!` and a whole chain, or a row and the
 * class whose chain has the rest.
 * @param {(at: number) => string} wordOf
 * @param {Kind} kind
 * @param {number} at
 * @returns {Chain | null}
 */
export function chainOf(wordOf, kind, at) {
  const word = wordOf(at);
  if (!word) return null;
  if (word[0] === 'r') return { record: Number(word.slice(1)), start: at, rows: [] };
  if (word[0] === '!') {
    const [record, start, ...rest] = word.slice(1).split(':').map(Number);
    return { record, start, rows: inPairs(rest) };
  }
  const [row, other] = word.split(':').map(Number), chain = chainOf(wordOf, kind, other);
  if (!chain) return null;
  return leadsToEntry(kind) ? { record: chain.record, start: at, rows: [[row, other], ...chain.rows] }
    : { record: chain.record, start: chain.start, rows: [...chain.rows, [row, at]] };
}

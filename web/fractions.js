// Exact numbers: what people write with decimals, and what the program prints as a fraction.

/** @typedef {{n: bigint, d: bigint}} Fraction in lowest terms, with a denominator from 1 */

/**
 * @param {bigint} one
 * @param {bigint} other
 * @returns {bigint}
 */
export function gcd(one, other) { return other === 0n ? (one < 0n ? -one : one) : gcd(other, one % other); }

/**
 * @param {bigint} one
 * @param {bigint} other
 */
export function lcm(one, other) { return one / gcd(one, other) * other; }

/**
 * @param {bigint | number} n
 * @param {bigint | number} d
 * @returns {Fraction}
 */
export function fraction(n, d = 1n) {
  const [top, bottom] = [BigInt(n), BigInt(d)], common = gcd(top, bottom) * (bottom < 0n ? -1n : 1n);
  return { n: top / common, d: bottom / common };
}

export const ZERO = fraction(0);

/**
 * @param {Fraction} one
 * @param {Fraction} other
 */
export function plus(one, other) { return fraction(one.n * other.d + other.n * one.d, one.d * other.d); }

/**
 * @param {Fraction} one
 * @param {Fraction} other
 */
export function minus(one, other) { return fraction(one.n * other.d - other.n * one.d, one.d * other.d); }

/**
 * @param {Fraction} one
 * @param {Fraction} other
 */
export function times(one, other) { return fraction(one.n * other.n, one.d * other.d); }

/**
 * @param {Fraction} one
 * @param {Fraction} other
 */
export function over(one, other) { return fraction(one.n * other.d, one.d * other.n); }

/**
 * Below 0 where the first is less, above 0 where it is greater.
 * @param {Fraction} one
 * @param {Fraction} other
 */
export function compare(one, other) {
  const left = one.n * other.d, right = other.n * one.d;
  return left < right ? -1 : left > right ? 1 : 0;
}

/**
 * @param {Fraction} first
 * @param {...Fraction} others
 */
export function greatest(first, ...others) { return others.reduce((most, it) => compare(it, most) > 0 ? it : most, first); }

/** @param {Fraction} it */
export function near(it) { return Number(it.n * 1000000n / it.d) / 1000000; }

/**
 * The fraction that the program prints, as `14`, `-3` or `9/2`; null of another text.
 * @param {string} text
 */
export function printed(text) {
  const found = text.match(/^(-?\d+)(?:\/([1-9]\d*))?$/);
  return found ? fraction(BigInt(found[1]), BigInt(found[2] || 1)) : null;
}

/** @param {Fraction} it */
export function print(it) { return it.d === 1n ? String(it.n) : `${it.n}/${it.d}`; }

/**
 * The decimals of a fraction that has few, else null.
 * @param {Fraction} it
 */
function decimals(it) {
  let places = 0, factor = 1n;
  while (places <= 6 && factor * 1n % it.d !== 0n) {
    places++;
    factor *= 10n;
  }
  if (places > 6) return null;
  const whole = String((it.n < 0n ? -it.n : it.n) * factor / it.d).padStart(places + 1, '0');
  return { sign: it.n < 0n ? '\u2212' : '', whole: whole.slice(0, whole.length - places), rest: whole.slice(whole.length - places) };
}

/**
 * A number as it is shown: exact, with decimals where there are few of them, and else as `3 1/3`.
 * @param {Fraction} it
 * @param {string} mark the decimal mark
 */
export function shown(it, mark = '.') {
  const found = decimals(it);
  if (found) return `${found.sign}${found.whole}${found.rest ? mark + found.rest : ''}`;
  const top = it.n < 0n ? -it.n : it.n, whole = top / it.d;
  return `${it.n < 0n ? '\u2212' : ''}${whole ? `${whole} ` : ''}${top % it.d}/${it.d}`;
}

// Exact fractions, of BigInts, and whole cents in their place. Pure.

const divisor = (a, b) => (b ? divisor(b, a % b) : a < 0n ? -a : a);

/** A fraction in lowest terms. */
export function frac(n, d = 1n) {
  const by = divisor(n, d) * (d < 0n ? -1n : 1n);
  return { n: n / by, d: d / by };
}

/** A fraction from its text, "100" or "100/3". */
export const toFrac = (text) => frac(...String(text).split('/').map(BigInt));
/** The sum of fractions. */
export const total = (list) => list.reduce((a, b) => frac(a.n * b.d + b.n * a.d, a.d * b.d), frac(0n));
/** One fraction less another. */
export const minus = (a, b) => frac(a.n * b.d - b.n * a.d, a.d * b.d);
/** Whether two fractions in lowest terms are equal. */
export const same = (a, b) => a.n === b.n && a.d === b.d;
/** The text of a fraction. */
export const exact = (a) => (a.d === 1n ? `${a.n}` : `${a.n}/${a.d}`);
/** A fraction as a number of the machine, to draw with. */
export const near = (a) => Number(a.n) / Number(a.d);
const floor = (a) => a.n / a.d - (a.n % a.d < 0n ? 1n : 0n);

/** The cent plan: each amount rounded down, and the cents left over one each to the greatest remainders, ties to the
    lower place. */
export function centPlan(amounts, whole) {
  const pays = amounts.map(floor);
  const rest = amounts.map((a, place) => ({ place, left: minus(a, frac(pays[place])) }));
  rest.sort((a, b) => { const by = minus(b.left, a.left).n; return by > 0n ? 1 : by < 0n ? -1 : a.place - b.place; });
  const over = Number(whole - pays.reduce((a, b) => a + b, 0n));
  for (const { place } of rest.slice(0, over)) pays[place] += 1n;
  return pays;
}

// What the second checker needs of divisions of items: pairs of a count and a product, and the plain bound. Pure.
import { LIMITS } from './rules.js';

/** A page can go on after so many marks of a tree. */
export const YIELDS = 20_000;
/** So many whole numbers, from `from` on. */
export const range = (n, from = 0) => Array.from({ length: n }, (_, i) => i + from);

/** Lists of small numbers in the order of dictionaries: below 0, 0 or above. */
export function compare(a, b) {
  const i = a.findIndex((x, at) => x !== b[at]);
  return i < 0 ? 0 : a[i] - b[i];
}

/** A pair: how many have points at all, and the product of their points. */
export function pairOf(points) {
  const some = points.filter((p) => p > 0);
  return { count: some.length, product: some.reduce((a, p) => a * BigInt(p), 1n) };
}
/** Which of two pairs is greater: below 0, 0 or above. */
export const comparePairs = (a, b) => a.count - b.count || (a.product < b.product ? -1 : a.product > b.product ? 1 : 0);
/** The sum of small numbers. */
export const sumOf = (list) => { let all = 0; for (const x of list) all += x; return all; };

/** The greatest pair of whole points between low and high with a sum of at most top. */
export function bound(low, high, top) {
  let left = top - sumOf(low);
  const open = low.map((l, i) => i).filter((i) => high[i] > 0);
  const empty = open.filter((i) => low[i] === 0);
  if (empty.length > left) return pairOf([...low.filter((l) => l > 0), ...Array(left).fill(1)]);
  left -= empty.length;
  const lows = open.map((i) => Math.max(low[i], 1)), highs = open.map((i) => high[i]);
  const filled = (level) => lows.map((l, i) => Math.min(highs[i], Math.max(l, level)));
  const room = sumOf(lows) + left;
  let from = 1, to = LIMITS.points + 1; // the greatest level that fits; nobody has more points
  while (to - from > 1) { const mid = (from + to) >> 1; if (sumOf(filled(mid)) <= room) from = mid; else to = mid; }
  const points = filled(from);
  left = room - sumOf(points);
  for (let i = 0; i < points.length && left > 0; i++) {
    if (points[i] === from && highs[i] > from) { points[i]++; left--; }
  }
  return pairOf(points);
}

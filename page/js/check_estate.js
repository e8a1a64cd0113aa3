// The second checker of certificates of the second kind, in which weights, prices and twins close what a search leaves
// (docs/DEFINITIONS.md, the text of an estate). Pure, with exact arithmetic, and not proved.
import { YIELDS, bound, compare, comparePairs, pairOf, range, sumOf } from './pairs.js';

const [WEIGHT, PRICE] = [65_535, 2 ** 24 - 1]; // the greatest of each
const PLACES = 32; // of a logarithm behind the point
const BITS = 96n; // with which logarithms are worked out
const LETTER = 65; // of the first player
const POINTS = 1000;

export const ESTATE = [
  ['rules.goods.3', ({ walk }) => walk.tree],
  ['rules.estate.numbers', ({ walk }) => walk.numbers],
  ['rules.estate.count', ({ walk }) => walk.count],
  ['rules.goods.4', ({ walk }) => walk.cuts],
  ['rules.goods.5', ({ walk }) => walk.leaves],
  ['rules.goods.6', ({ walk }) => walk.answer],
  ['rules.estate.twins', ({ walk }) => walk.twins],
];

const divisor = (a, b) => (b ? divisor(b, a % b) : a);
const power = (base, exponent) => BigInt(base) ** BigInt(exponent);
const product = (list) => list.reduce((all, one) => all * BigInt(one), 1n);
const falling = (list) => [...list].sort((a, b) => b - a);

/** The binary logarithm of a whole number in units of 2^-32, rounded up or down: it is doubled by squaring, and what
    falls off behind the first bits is rounded the same way. */
function logarithm(number, isUp) {
  let [m, e] = [BigInt(number), 0n];
  const lengthOf = () => BigInt(m.toString(2).length);
  for (let i = 0; i < PLACES; i++) {
    [m, e] = [m * m, 2n * e];
    const over = lengthOf() - BITS;
    if (over <= 0n) continue;
    m = (m + (isUp ? (1n << over) - 1n : 0n)) >> over;
    e += over;
  }
  const below = lengthOf() - 1n;
  return Number(e + below + (isUp && m !== 1n << below ? 1n : 0n));
}

/** The logarithms of 1 to 1000, worked out once somebody needs them; those of 0 are never asked for. */
const tables = {};
const logarithms = (way) => (tables[way] ??= [null, ...range(POINTS, 1).map((n) => logarithm(n, way === 'up'))]);

/** The points of a case in the order of its search, and what follows from them at each depth. */
class Estate {
  constructor({ n, g, values, owners }) {
    const points = values.map((row) => row.map(Number));
    const greatest = range(g).map((good) => Math.max(...points.map((row) => row[good])));
    const order = range(g).sort((a, b) => greatest[b] - greatest[a] || a - b);
    const rows = points.map((row) => order.map((good) => row[good]));
    Object.assign(this, { n, g, order, rows, answer: order.map((good) => Number(owners[good]) - 1) });
    this.sums = this.sumsOf(this.answer);
    this.pair = pairOf(this.sums);
    this.unit = rows.flat().reduce(divisor, 0);
    this.alike = rows.map((row) => rows.findIndex((other) => compare(row, other) === 0));
    this.free = range(g + 1).map((depth) => rows.map((row) => sumOf(row.slice(depth))));
    this.tops = range(g + 1).map((depth) => sumOf(order.slice(depth).map((good) => greatest[good])));
    // for each depth and player, the sums of the goods behind it that are worth most to them, by how many
    this.best = range(g + 1).map((depth) => rows.map((row) => {
      let all = 0;
      return [0, ...falling(row.slice(depth)).map((value) => (all += value))];
    }));
  }

  /** The points of each player from the first owners. */
  sumsOf(owners) {
    const sums = Array(this.n).fill(0);
    owners.forEach((owner, at) => { sums[owner] += this.rows[owner][at]; });
    return sums;
  }

  /** The sums, those of players with the same points in falling order. */
  named(sums) {
    const out = [...sums];
    for (const first of new Set(this.alike)) {
      const same = range(this.n).filter((player) => this.alike[player] === first);
      falling(same.map((player) => sums[player])).forEach((sum, i) => { out[same[i]] = sum; });
    }
    return out;
  }

  /** Whether the bound shows that nothing below a prefix is better than the answer, nor as good where it is earlier. */
  isPlain({ prefix: { length }, low, isAfter }) {
    const { unit, free, tops } = this;
    const units = low.map((sum) => sum / unit);
    const high = units.map((sum, player) => sum + free[length][player] / unit);
    const { count, product: most } = bound(units, high, sumOf(units) + tops[length] / unit);
    const by = comparePairs({ count, product: most * power(unit, count) }, this.pair);
    return by < 0 || (by === 0 && isAfter);
  }

  /** Whether nobody can show a greater count than that of the answer (Hall). */
  showsCount(short) {
    const players = short.map((player) => Number(player) - 1);
    const isRising = players.every((player, i) => player >= 0 && player < this.n && !(players[i - 1] >= player));
    const wanted = isRising ? range(this.g).filter((at) => players.some((player) => this.rows[player][at] > 0)) : [];
    return isRising && this.n - players.length + wanted.length <= this.pair.count;
  }
}

/** Weights: with them no sum of what a prefix leaves is great enough. */
class Weights {
  constructor(estate, weights) {
    const most = range(estate.g).map((at) => Math.max(...weights.map((weight, i) => weight * estate.rows[i][at])));
    Object.assign(this, { estate, weights, tops: range(estate.g + 1).map((depth) => sumOf(most.slice(depth))) });
  }

  /** Whether they close a prefix. */
  close({ prefix: { length }, low, isAfter }) {
    const { estate: { n, g, pair }, weights, tops } = this;
    const have = low.filter((sum) => sum > 0).length;
    if (have + g - length < pair.count) return true;
    if (have > pair.count) return false;
    const others = range(n).filter((player) => low[player] === 0).map((player) => weights[player]).sort((a, b) => a - b)
      .slice(0, pair.count - have);
    const isShown = (most, least) => most < least || (most === least && isAfter);
    const held = range(n).filter((player) => low[player] > 0).map((player) => weights[player]);
    const top = sumOf(low.map((sum, player) => sum * weights[player])) + tops[length];
    const needed = power(pair.count, pair.count) * product([...held, ...others]) * pair.product;
    if (isShown(power(top, pair.count), needed)) return true;
    return have + g - length === pair.count
      && isShown(this.oneEach(length, low), product(others) * pair.product);
  }

  /** The greatest product where each good that is left goes to another player without points, times their weights. */
  oneEach(length, low) {
    const { estate: { n, g, rows }, weights } = this;
    const none = range(n).filter((player) => low[player] === 0);
    const most = range(g - length, length).map((at) => (
      Math.max(...none.map((player) => weights[player] * rows[player][at]))));
    return product([...low.filter((sum) => sum > 0), ...most]);
  }
}

/** Prices: a rate for each point and a fee for each good, by which nobody gains enough. */
class Prices {
  constructor(estate, numbers) {
    const full = numbers.map((number) => number * 2 ** (PLACES - 16));
    const [rates, fees] = [full.slice(0, estate.n), full.slice(estate.n)];
    const price = (at) => Math.max(...rates.map((rate, player) => rate * estate.rows[player][at] + fees[player]));
    const prices = range(estate.g).map((at) => BigInt(price(at)));
    const tops = range(estate.g + 1).map((depth) => prices.slice(depth).reduce((a, b) => a + b, 0n));
    Object.assign(this, { estate, rates, fees, tops, gains: rates.map(gainsOf) });
  }

  /** Whether they close a prefix. */
  close({ prefix: { length }, low }) {
    const { estate: { n, pair, sums, best }, rates, fees, tops, gains } = this;
    if (pair.count !== n) return false;
    const gain = (player) => Math.max(...best[length][player].map((more, k) => (
      gains[player][low[player] + more] - fees[player] * k)));
    const all = range(n).map(gain);
    if (all.includes(-Infinity)) return true;
    const most = all.reduce((sum, one, player) => (
      sum + BigInt(one) + BigInt(rates[player] * low[player])), tops[length]);
    return most < BigInt(sumOf(sums.map((sum) => logarithms('down')[sum])));
  }
}

/** For each number of points, what up to so many are worth to somebody less their rate, at most. */
function gainsOf(rate) {
  let most = -Infinity;
  return [most, ...range(POINTS, 1).map((points) => (most = Math.max(most, logarithms('up')[points] - rate * points)))];
}

/** A walk through the tree, mark by mark: where it is, and what it saw. */
class EstateWalk {
  constructor(said) {
    const estate = new Estate(said);
    const seen = { tree: true, numbers: true, cuts: true, leaves: true, answer: true, twins: true,
      marks: said.tree.length, order: estate.order, pair: estate.pair, count: estate.showsCount(said.short) };
    Object.assign(this, { estate, seen, given: said.given, next: 0, nearest: [{}], isOver: false });
    Object.assign(this, { prefix: [], low: Array(said.n).fill(0) });
  }

  get isWhole() { return this.prefix.length === this.estate.g; }
  get order() { return compare(this.prefix, this.estate.answer); }
  get isAfter() { return this.order > 0; }

  down(owner) {
    this.low[owner] += this.estate.rows[owner][this.prefix.length];
    this.nearest.push(this.nearest.at(-1));
    this.prefix.push(owner);
  }

  /** Goes on to the next sibling, or up. */
  up() {
    while (this.prefix.length) {
      const owner = this.prefix.pop();
      this.nearest.pop();
      this.low[owner] -= this.estate.rows[owner][this.prefix.length];
      if (owner + 1 < this.estate.n) { this.down(owner + 1); return; }
    }
    this.isOver = true;
  }

  /** Takes the next line of weights or prices for this place and all below it; whether there is one. */
  take() {
    const { estate, given, nearest } = this;
    if (this.next === given.length) return false;
    const { word, numbers } = given[this.next++];
    const isPrices = word === 'prices';
    const hasRange = (x, i) => x >= (isPrices && i >= estate.n ? 0n : 1n) && x <= (isPrices ? PRICE : WEIGHT);
    if (!numbers.every(hasRange)) this.seen.numbers = false;
    else nearest.push({ ...nearest.pop(), [word]: new (isPrices ? Prices : Weights)(estate, numbers.map(Number)) });
    return true;
  }

  /** A mark below which nothing better may lie. */
  cut() {
    const { estate, seen, low } = this;
    if (this.isWhole) {
      const by = comparePairs(pairOf(low), estate.pair);
      if (by > 0 || (by === 0 && !this.isAfter)) seen.leaves = false;
      return;
    }
    const { weights, prices } = this.nearest.at(-1);
    if (!weights?.close(this) && !prices?.close(this) && !estate.isPlain(this)) seen.cuts = false;
  }

  /** Whether the last owners in other hands leave everyone as well off, and somebody better, or come earlier. */
  isTwin(letters) {
    const { estate, prefix, low } = this;
    const owners = [...letters].map((letter) => letter.charCodeAt(0) - LETTER);
    const other = [...prefix.slice(0, prefix.length - owners.length), ...owners];
    const [own, others] = [estate.named(low), estate.named(estate.sumsOf(other))];
    return others.every((sum, player) => sum >= own[player])
      && (others.some((sum, player) => sum > own[player]) || compare(other, prefix) < 0);
  }

  /** Takes a mark, with the letters behind it; whether it may stand here. */
  mark(mark, letters) {
    const { seen, isWhole, prefix } = this;
    if (letters && mark !== '~') return false;
    if (mark === '!') return this.take();
    if (mark === '+') {
      if (!isWhole) this.down(0);
      return !isWhole;
    }
    if (mark === '=' && !isWhole) return false;
    if (mark === '~' && (!letters || letters.length > prefix.length)) return false;
    if (mark === '=') seen.answer &&= this.order === 0;
    else if (mark === '-') this.cut();
    else seen.twins &&= this.isTwin(letters);
    this.up();
    return true;
  }
}

/** Walks the tree. Yields now and then, so that a page can go on; returns what it saw. */
export function* walkEstate(said) {
  const walk = new EstateWalk(said);
  let [at, count] = [0, 0];
  for (const [whole, mark, letters] of said.tree.matchAll(/([-+=!~])([A-L]*)/g)) {
    if (++count % (YIELDS / 10) === 0) yield at;
    if (walk.isOver || !walk.mark(mark, letters)) return { ...walk.seen, tree: false };
    at += whole.length;
  }
  walk.seen.tree = walk.isOver && at === said.tree.length && walk.next === said.given.length;
  return walk.seen;
}

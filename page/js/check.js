// The second checker of certificates by the rules of docs/CERTIFICATES.md, with exact arithmetic. Pure, and not proved:
// the proved one is in judge/, and shares no code with it. Each rule is [its sentence in words.js, whether it holds].
import { frac, same, total } from './fractions.js';
import { ESTATE, walkEstate } from './check_estate.js';
import { YIELDS, bound, compare, comparePairs, pairOf, range, sumOf } from './pairs.js';
import { LIMITS } from './rules.js';

const NUMBER = new RegExp(`^(0|-?[1-9]\\d{0,${LIMITS.digits - 1}})$`);
const sum = (list) => list.reduce((a, b) => a + b, 0n);
const power = (base, exponent) => BigInt(base) ** BigInt(exponent);
/** The sets of riders but the empty one, each as its bits, and the riders of one. */
const setsOf = (n) => range((1 << n) - 1, 1);
const ridersOf = (set, n) => range(n).filter((r) => set & (1 << r));
const isAtMost = (a, b) => a.n * b.d <= b.n * a.d;
const rising = (list, most) => list.every((x, i) => x >= 1n && x <= most && (i === 0 || list[i - 1] < x));
const isOrder = (list) => [...list].sort((a, b) => (a < b ? -1 : 1)).every((x, i) => x === BigInt(i + 1));

class BadLine extends Error { constructor(line) { super(`line ${line}`); this.line = line; } }

/** The lines of a certificate, read one by one. Each method throws at a line that is not valid. */
class Lines {
  constructor(text) { Object.assign(this, { lines: text.split('\n'), at: 0 }); }

  bad() { throw new BadLine(this.at); }

  next() {
    const line = this.lines[this.at++];
    return this.at < this.lines.length ? line : this.bad();
  }

  literal(wanted) { if (this.next() !== wanted) this.bad(); }

  /** What a pattern finds in the next line. */
  match(pattern) { return pattern.exec(this.next())?.[1] ?? this.bad(); }

  number(word) { return NUMBER.test(word) ? BigInt(word) : this.bad(); }

  /** A whole number, or a fraction in lowest terms. */
  fraction(word) {
    const [n, d, ...more] = word.split('/');
    if (d === undefined) return frac(this.number(n));
    const got = { n: this.number(n), d: this.number(d) };
    const isValid = more.length === 0 && got.d >= 2n && got.d <= LIMITS.denominator && same(got, frac(got.n, got.d));
    return isValid ? got : this.bad();
  }

  words(word, least, most = least) {
    const [first, ...rest] = this.next().split(' ');
    return first === word && rest.length >= least && rest.length <= most ? rest : this.bad();
  }

  row(word, n) { return this.words(word, n).map((one) => this.number(one)); }
  /** Whether the next line begins with a word that has numbers behind it. */
  begins(word) { return this.lines[this.at]?.startsWith(`${word} `); }
  /** No number, or up to so many. */
  between(word, most) { return this.words(word, 0, most).map((one) => this.number(one)); }
  rows(word, n, m) { return range(n).map(() => this.row(word, m)); }
  fractions(word, n) { return this.words(word, n).map((one) => this.fraction(one)); }
  one(word) { return this.row(word, 1)[0]; }

  /** How many there are of something. */
  count(word, most) {
    const got = this.one(word);
    return got >= 1n && got <= most ? Number(got) : this.bad();
  }

  /** The last line, with nothing behind it. */
  end() {
    this.literal('end');
    this.at++;
    if (this.lines.length !== this.at || this.lines[this.at - 1] !== '') this.bad();
  }
}

/** The lines of items up to the steps, which both kinds of text have. */
function shared(lines) {
  const n = lines.count('players', LIMITS.members[1]);
  const g = lines.count('goods', LIMITS.goods[1]);
  return { n, g, limit: lines.one('limit'), who: lines.row('who', n), values: lines.rows('values', n, g),
    owners: lines.row('owners', g), steps: lines.one('steps') };
}

/** The lines of weights and of prices: { word, numbers }. */
function given(lines, n) {
  const all = [];
  for (;;) {
    const word = ['weights', 'prices'].find((one) => lines.begins(one));
    if (!word) return all;
    all.push({ word, numbers: lines.row(word, word === 'prices' ? 2 * n : n) });
  }
}

/** What a text of the second kind says: items whose search closes what it leaves by weights, prices and twins. */
function estate(lines) {
  const said = shared(lines);
  const short = lines.between('short', said.n);
  const last = String.fromCharCode(64 + said.n);
  return { ...said, isEstate: true, short, given: given(lines, said.n),
    tree: lines.match(new RegExp(`^tree ([-+=!~A-${last}]+)$`)) };
}

/** What the lines between the kind and the end say. */
const READS = {
  rent(lines) {
    const n = lines.count('members', LIMITS.members[1]);
    const said = { n, rent: lines.one('rent'), values: lines.rows('values', n, n) };
    for (const word of ['rooms', 'left', 'right', 'walks', 'ranks']) said[word] = lines.row(word, n);
    return { ...said, prices: lines.fractions('prices', n) };
  },
  goods: (lines) => ({ ...shared(lines), tree: lines.match(/^tree ([-+=]*)$/) }),
  fares(lines) {
    const n = lines.count('riders', LIMITS.riders[1]);
    const places = lines.count('places', LIMITS.places[1]);
    const said = { n, places, flag: lines.one('flag'), legs: lines.rows('legs', places + 1, places),
      who: lines.row('who', n), at: lines.row('at', n), sets: [null] };
    for (const set of setsOf(n)) {
      const [number, ...costs] = lines.row('set', 2 + n - ridersOf(set, n).length);
      said.sets.push(number === BigInt(set) ? costs : lines.bad());
    }
    return { ...said, route: lines.row('route', n), fares: lines.fractions('fares', n) };
  },
};

/** Whether a text says that it is one of the second kind. */
export const isEstate = (text) => text.startsWith('fairsplit 2\n');

/** Reads a certificate: what its lines say, as BigInts. Throws at the first line that is not valid. */
export function read(text) {
  if (new TextEncoder().encode(text).length > LIMITS.certificate) throw new BadLine('too long');
  const lines = new Lines(text);
  const isSecond = lines.match(/^fairsplit ([12])$/) === '2';
  const kind = lines.match(isSecond ? /^kind (goods)$/ : /^kind (rent|goods|fares)$/);
  const said = { kind, ...(isSecond ? estate : READS[kind])(lines) };
  lines.end();
  return said;
}

const RENT = [
  ['rules.rent.1', ({ n, rent, values }) => n >= LIMITS.members[0] && rent >= 1n && rent <= LIMITS.rent
    && values.every((row) => row.every((v) => v >= 0n) && sum(row) === rent)],
  ['rules.rent.2', ({ rooms }) => isOrder(rooms)],
  ['rules.rent.3', (c) => range(c.n).every((m) => range(c.n).every((r) => c.left[m] + c.right[r] >= c.key(m, r)))],
  ['rules.rent.4', (c) => range(c.n).every((m) => c.left[m] + c.right[c.own(m)] === c.key(m, c.own(m)))],
  ['rules.rent.5', (c) => range(c.n).every((to) => c.walks[to] >= 0n
    && range(c.n).every((from) => c.walks[from] + c.step(from, to) <= c.walks[to]))],
  ['rules.rent.6', (c) => range(c.n).every((to) => (c.ranks[to] === 0n && c.walks[to] === 0n) || isReached(c, to))],
  ['rules.rent.7', (c) => {
    const n = BigInt(c.n);
    const least = sum(range(c.n).map((m) => c.values[m][c.own(m)])) - c.rent - sum(c.walks);
    const price = (m) => frac(n * c.values[m][c.own(m)] - least - n * c.walks[m], n);
    return range(c.n).every((m) => same(c.prices[c.own(m)], price(m)));
  }],
];

/** Whether the walk to a member goes on from one of the rank below. */
function isReached({ n, ranks, walks, step }, to) {
  const isBefore = (from) => ranks[from] + 1n === ranks[to] && walks[from] + step(from, to) === walks[to];
  return ranks[to] >= 1n && ranks[to] < BigInt(n) && range(n).some(isBefore);
}

function rentCase(said) {
  const { n, values, rooms, prices } = said;
  const c = { ...said, own: (m) => Number(rooms[m]) - 1 };
  c.key = (m, r) => values[m][r] * power(n, n) - BigInt(r) * power(n, n - 1 - m);
  c.step = (from, to) => values[to][c.own(from)] - values[from][c.own(from)];
  const gain = (m, r) => frac(values[m][r] * prices[r].d - prices[r].n, prices[r].d);
  const isContent = (m) => range(n).every((r) => isAtMost(gain(m, r), gain(m, c.own(m))));
  c.facts = () => [
    ['facts.prices', same(total(prices), frac(c.rent))],
    ['facts.envyFree', range(n).every(isContent)],
  ];
  return c;
}

/** The cost of the cheapest way for each set of riders, from each place, found anew and not read off the lines. */
function costsOf({ n, legs, at }) {
  const costs = [Array(legs.length).fill(0n)];
  const first = (set, from) => (r) => {
    const to = Number(at[r]);
    return legs[from][to - 1] + costs[set ^ (1 << r)][to];
  };
  const least = (all) => all.reduce((a, b) => (b < a ? b : a));
  for (const set of setsOf(n)) {
    const riders = ridersOf(set, n);
    costs.push(range(legs.length).map((from) => least(riders.map(first(set, from)))));
  }
  return costs;
}

/** The Shapley value of each rider: over all sets of others, what the rider adds, times in how many orders just these
    go before. */
function shapley({ n, flag }, costs) {
  const factorial = (k) => (k < 2 ? 1n : BigInt(k) * factorial(k - 1));
  const orders = (set) => factorial(ridersOf(set, n).length) * factorial(n - ridersOf(set, n).length - 1);
  const worth = (set) => (set ? flag + costs[set][0] : 0n);
  const others = (r) => [0, ...setsOf(n)].filter((set) => !(set & (1 << r)));
  const added = (r) => sum(others(r).map((set) => orders(set) * (worth(set | (1 << r)) - worth(set))));
  return range(n).map((r) => frac(added(r), factorial(n)));
}

const isCost = (cents) => cents >= 0n && cents <= LIMITS.cost;

const FARES = [
  ['rules.fares.1', ({ flag, legs, who, at, places }) => isCost(flag)
    && legs.every((row, from) => row.every((leg, to) => isCost(leg) && (from !== to + 1 || leg === 0n)))
    && rising(who, LIMITS.riders[1]) && at.every((place) => place >= 1n && place <= BigInt(places))],
  ['rules.fares.2', (c) => setsOf(c.n).every((set) => {
    const others = range(c.n).filter((r) => !(set & (1 << r)));
    return [0, ...others.map((r) => Number(c.at[r]))].every((from, i) => c.sets[set][i] === c.costs[set][from]);
  })],
  ['rules.fares.3', ({ route }) => isOrder(route)],
  ['rules.fares.4', (c) => {
    let left = (1 << c.n) - 1, from = 0;
    const isCheapest = (r) => left & (1 << r)
      && c.legs[from][Number(c.at[r]) - 1] + c.costs[left ^ (1 << r)][Number(c.at[r])] === c.costs[left][from];
    return c.route.every((rider) => {
      const lowest = range(c.n).find(isCheapest);
      left ^= 1 << lowest; from = Number(c.at[lowest]);
      return BigInt(lowest + 1) === rider;
    });
  }],
  ['rules.fares.5', (c) => c.values.every((value, r) => same(value, c.fares[r]))],
];

function fareCase(said) {
  const c = { ...said };
  if (FARES[0][1](c)) {
    c.costs = costsOf(c);
    c.values = shapley(c, c.costs);
    c.total = c.flag + c.costs[(1 << c.n) - 1][0];
  }
  c.facts = () => {
    let from = 0, along = c.flag;
    for (const rider of c.route) {
      const to = Number(c.at[Number(rider) - 1]);
      along += c.legs[from][to - 1];
      from = to;
    }
    return [['facts.fares', same(total(c.fares), frac(c.total))], ['facts.route', along === c.total]];
  };
  return c;
}

/** The first two rules of items, whose search may take so many steps. */
const itemRules = (most) => [
  ['rules.goods.1', ({ limit, who, values }) => limit >= 1n && limit <= most && rising(who, LIMITS.members[1])
    && values.every((row) => row.every((v) => v >= 0n) && sum(row) === BigInt(LIMITS.points))],
  ['rules.goods.2', ({ owners, n }) => owners.every((o) => o >= 1n && o <= BigInt(n))],
];

const GOODS = [
  ...itemRules(LIMITS.steps),
  ['rules.goods.3', ({ walk }) => walk.tree],
  ['rules.goods.4', ({ walk }) => walk.tree && walk.cuts],
  ['rules.goods.5', ({ walk }) => walk.tree && walk.leaves],
  ['rules.goods.6', ({ walk }) => walk.tree && walk.answer],
];

/** A walk through the tree of bounds, mark by mark: where it is, what each player has there, and what it saw. */
class Walk {
  constructor({ n, g, values, owners, tree }) {
    const points = values.map((row) => row.map(Number));
    const greatest = range(g).map((good) => Math.max(...points.map((row) => row[good])));
    const order = range(g).sort((a, b) => greatest[b] - greatest[a] || a - b);
    const answer = order.map((good) => Number(owners[good]) - 1);
    const have = Array(n).fill(0);
    answer.forEach((owner, i) => { have[owner] += points[owner][order[i]]; });
    // what lies behind a depth: for each player all points still to come, and the sum of the greatest
    const tails = range(g + 1).map((depth) => points.map((row) => sumOf(order.slice(depth).map((good) => row[good]))));
    const tops = range(g + 1).map((depth) => sumOf(order.slice(depth).map((good) => greatest[good])));
    const seen = { tree: true, cuts: true, leaves: true, answer: true, marks: tree.length, order, pair: pairOf(have) };
    Object.assign(this, { n, g, points, order, answer, tails, tops, seen });
    Object.assign(this, { prefix: [], low: Array(n).fill(0), isOver: false }); // over: the whole tree was read
  }

  get isWhole() { return this.prefix.length === this.g; }

  down(owner) {
    this.low[owner] += this.points[owner][this.order[this.prefix.length]];
    this.prefix.push(owner);
  }

  /** Goes on to the next sibling, or up. */
  up() {
    while (this.prefix.length) {
      const owner = this.prefix.pop();
      this.low[owner] -= this.points[owner][this.order[this.prefix.length]];
      if (owner + 1 < this.n) { this.down(owner + 1); return; }
    }
    this.isOver = true;
  }

  /** The best pair that can lie at this place or below. */
  best() {
    const { low, prefix: { length } } = this;
    if (this.isWhole) return pairOf(low);
    return bound(low, low.map((l, i) => l + this.tails[length][i]), sumOf(low) + this.tops[length]);
  }

  /** A mark where nothing better may lie. */
  cut() {
    const by = comparePairs(this.best(), this.seen.pair);
    const isBetter = by > 0 || (by === 0 && compare(this.prefix, this.answer) <= 0);
    if (isBetter) this.seen[this.isWhole ? 'leaves' : 'cuts'] = false;
  }

  /** Takes one mark; whether it may stand here. */
  take(mark) {
    if (mark === '+') {
      if (this.isWhole) return false;
      this.down(0);
      return true;
    }
    if (mark === '=' && !this.isWhole) return false;
    if (mark === '=') this.seen.answer &&= compare(this.prefix, this.answer) === 0;
    else this.cut();
    this.up();
    return true;
  }
}

/** Walks the tree of bounds. Yields now and then, so that a page can go on; returns what it saw. */
function* walkTree(said) {
  const walk = new Walk(said);
  const { tree } = said;
  let at = 0;
  for (; at < tree.length && !walk.isOver; at++) {
    if (at % YIELDS === YIELDS - 1) yield at;
    if (!walk.take(tree[at])) return { ...walk.seen, tree: false };
  }
  walk.seen.tree = walk.isOver && at === tree.length;
  return walk.seen;
}

function goodsCase(said, walk) {
  const { n, owners, values } = said;
  const owned = (other) => range(owners.length).filter((good) => Number(owners[good]) === other + 1);
  const has = (player, other, without) => sum(owned(other).map((g) => (g === without ? 0n : values[player][g])));
  const isContent = (p, q) => has(p, q) <= has(p, p) || owned(q).some((good) => has(p, q, good) <= has(p, p));
  const facts = () => [['facts.envyOne', range(n).every((p) => range(n).every((q) => isContent(p, q)))]];
  return { ...said, walk, facts };
}

/** Of each kind of text its rules, the case that they look at, and the walk through its tree. */
const CASES = {
  rent: [RENT, rentCase], fares: [FARES, fareCase],
  goods: [GOODS, goodsCase, walkTree],
  estate: [[...itemRules(LIMITS.estateSteps), ...ESTATE], goodsCase, walkEstate],
};

/** Judges a certificate: a generator that yields while it walks a long tree, and returns
    { verdict: 'yes' | 'no' | 'refused', rule, line, rules: [[text, holds]], facts: [[text, holds]] },
    and what the lines say as `said`. */
export function* judging(text) {
  let said;
  try { said = read(text); } catch (fault) {
    if (!(fault instanceof BadLine)) throw fault;
    return { verdict: 'refused', line: fault.line, rules: [], facts: [] };
  }
  const [table, caseOf, walkOf] = CASES[said.isEstate ? 'estate' : said.kind];
  const isWalked = walkOf && table[0][1](said) && table[1][1](said);
  const c = caseOf(said, isWalked ? yield* walkOf(said) : null);
  const rules = [];
  for (const [says, holds] of table) {
    const ok = Boolean(holds(c));
    rules.push([says, ok]);
    if (!ok) return { verdict: 'no', rule: rules.length, rules, facts: [], said };
  }
  return { verdict: 'yes', rule: 0, rules, facts: c.facts(), said };
}

/** A verdict as the line that `fairsplit check` writes. */
export function lineOf({ verdict, rule, line }) {
  if (verdict !== 'refused') return verdict === 'no' ? `no ${rule}` : 'yes';
  return line === 'too long' ? 'refused: too long' : `refused: line ${line}`;
}

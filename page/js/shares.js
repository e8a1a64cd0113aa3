// What follows from a certificate: who pays how many cents, who has which points, who envies whom, and what two could
// share by adjusted winner. Pure.
import { centPlan, frac, minus } from './fractions.js';

const range = (n) => Array.from({ length: n }, (_, i) => i);
const sum = (list) => list.reduce((a, b) => a + b, 0n);

/** The greatest of a list of fractions: its place; -1 where there is none. */
const greatest = (list) => list.reduce((at, one, i) => (at < 0 || minus(one, list[at]).n > 0n ? i : at), -1);

/** Of a rent, by member: the place of their room, and the cents that they pay; by member and room what they would gain
    by having it at its price; the least gain that anybody has; and the one whose room at its price would be best for a
    member beside their own. */
export function rentShares({ n, rent, values, rooms, prices }) {
  const room = rooms.map((number) => Number(number) - 1);
  const gain = (member, at) => minus(frac(values[member][at]), prices[at]);
  const own = range(n).map((member) => gain(member, room[member]));
  const least = own.reduce((a, b) => (minus(b, a).n < 0n ? b : a));
  const rival = (member) => {
    const others = range(n).filter((other) => other !== member);
    return others[greatest(others.map((other) => gain(member, room[other])))];
  };
  return { room, pays: centPlan(room.map((at) => prices[at]), rent), gain, least, rival };
}

/** Of goods, by player: the points of their own share; and the product of those that are above 0. Then what each would
    gain by swapping with another; and each envy, with the good that the envious player would want most of what the
    other has, and whether there is none without it. */
export function goodsShares(said) {
  const players = range(said.n);
  const worthOf = (player, other) => (
    sum(said.values[player].filter((_, good) => Number(said.owners[good]) === other + 1)));
  const points = players.map((player) => worthOf(player, player));
  const envy = (player, other) => worthOf(player, other) - points[player];
  const owned = players.map((player) => range(said.g).filter((good) => Number(said.owners[good]) === player + 1));
  const envies = players.flatMap((player) => players.flatMap((other) => {
    const by = envy(player, other);
    if (by <= 0n) return [];
    const worth = (good) => said.values[player][good];
    const good = owned[other].reduce((a, b) => (worth(b) > worth(a) ? b : a));
    return [{ player, other, good, isOne: by <= worth(good) }];
  }));
  const best = (player) => greatest(players.map((other) => frac(other === player ? -1n : worthOf(player, other))));
  const product = points.filter((some) => some > 0n).reduce((a, b) => a * b, 1n);
  return { points, owned, envy, envies, worthOf, best, product };
}

/** The sets of riders who pay more together than a ride of their own would cost: how many, of how many, and the one
    with the greatest excess. */
function groupsOf({ n, flag, fares, sets }) {
  const unit = range(n).reduce((all, i) => all * BigInt(i + 1), 1n); // the denominator of each fare divides it
  const parts = fares.map((fare) => (fare.n * unit) / fare.d);
  const riders = (set) => range(n).filter((rider) => set & (1 << rider));
  const excess = (set) => sum(riders(set).map((rider) => parts[rider])) - (flag + sets[set][0]) * unit;
  const all = range((1 << n) - 1).map((at) => ({ set: at + 1, by: excess(at + 1) }));
  const above = all.filter(({ by }) => by > 0n);
  const worst = above.reduce((a, b) => (a && a.by >= b.by ? a : b), null);
  const told = worst && { riders: riders(worst.set), by: frac(worst.by, unit) };
  return { count: above.length, of: all.length, worst: told };
}

/** Of a ride, by rider: where they get off, the cents that they pay, and what a ride alone would cost; the stops in
    order, what the whole ride costs, and the groups that would pay less on their own. The certificate lists what each
    set of riders costs. */
export function fareShares(said) {
  const place = said.at.map((number) => Number(number) - 1);
  const stops = [];
  for (const rider of said.route.map((number) => Number(number) - 1)) {
    const last = stops.at(-1);
    const way = said.legs[last ? last.place + 1 : 0][place[rider]];
    if (last?.place === place[rider]) last.off.push(rider);
    else stops.push({ place: place[rider], off: [rider], way });
  }
  const alone = place.map((to) => said.flag + said.legs[0][to]);
  const whole = said.flag + said.sets.at(-1)[0];
  return { place, stops, alone, whole, pays: centPlan(said.fares, whole), groups: groupsOf(said) };
}

/** Adjusted winner for two (Brams and Taylor 1996): of each good the share of the first, and the points that both have
    then. Each good goes to whoever gives it more points; then goods move from the richer to the poorer, those first
    whose points for the richer are lowest beside those for the poorer. */
export function adjustedWinner(values) {
  const goods = range(values[0].length);
  const owner = goods.map((good) => (values[0][good] >= values[1][good] ? 0 : 1));
  const shares = goods.map((good) => frac(owner[good] === 0 ? 1n : 0n));
  const had = values.map((row, player) => sum(row.filter((_, good) => owner[good] === player)));
  const rich = had[0] >= had[1] ? 0 : 1;
  let [more, less] = [had[rich], had[1 - rich]];
  const [greater, lesser] = [values[rich], values[1 - rich]];
  const moving = goods.filter((good) => owner[good] === rich && lesser[good] > 0n)
    .sort((a, b) => Number(greater[a] * lesser[b] - greater[b] * lesser[a]) || a - b);
  for (const good of moving) {
    const part = frac(more - less, greater[good] + lesser[good]);
    if (part.n <= part.d) {
      shares[good] = rich === 0 ? minus(frac(1n), part) : part;
      return { shares, total: minus(frac(more), frac(greater[good] * part.n, part.d)) };
    }
    more -= greater[good];
    less += lesser[good];
    shares[good] = frac(BigInt(rich));
  }
  return { shares, total: frac(more) };
}

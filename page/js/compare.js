// Holds a certificate and the names of a round against what this browser saw before the close. Pure.

const equal = (a, b) => JSON.stringify(a) === JSON.stringify(b);
const numbers = (list) => list.map(Number);

/** The people whom a certificate speaks of, by their numbers among the members. */
export const peopleOf = ({ kind, n, who }) => (
  kind === 'rent' ? Array.from({ length: n }, (_, i) => i + 1) : numbers(who));

/** How many rooms, goods or places a certificate has. */
export const countOf = ({ kind, n, g, places }) => ({ rent: n, goods: g, fares: places })[kind];

/** Whether these names can be those of a certificate: there are as many as it needs. */
export function fits(said, { members, things }) {
  if (!Array.isArray(members) || !Array.isArray(things)) return false;
  const people = peopleOf(said);
  const enough = said.kind === 'rent' ? members.length === said.n : Math.max(...people) <= members.length;
  return enough && Math.min(...people) >= 1 && things.length === countOf(said);
}

/** The bid that a certificate lists for a member, as a list of numbers; null where it lists none. */
export function listedBid(said, you) {
  const at = peopleOf(said).indexOf(you);
  if (at < 0) return null;
  return numbers(said.kind === 'fares' ? [said.at[at]] : said.values[at]);
}

/** The bid that this browser sent last, as a list of numbers; null where it took its bid back. */
const sentBid = ({ values, place }) => values ?? (place ? [place] : null);

/** Where the amounts of a certificate are not those that were seen. */
function otherAmounts(seen, said) {
  if (said.kind === 'goods') return [];
  const isOther = ({ then, now }) => then !== now;
  const whole = said.kind === 'rent' ? 'rent' : 'flag';
  const first = { what: whole, then: seen[whole], now: Number(said[whole]) };
  const legs = (said.legs ?? []).flatMap((row, from) => row.map((leg, to) => (
    { what: 'leg', from, to, then: seen.legs[from]?.[to], now: Number(leg) })));
  return [...[first].filter(isOther), ...legs.filter(isOther).slice(0, 1)];
}

/** Where the bid that a certificate lists is not the one that was sent last from here. */
function otherBid(seen, said) {
  if (!seen.bid) return [];
  const [then, now] = [sentBid(seen.bid), listedBid(said, seen.you)];
  return equal(then, now) ? [] : [{ what: 'bid', then, now }];
}

/** Each thing in which a round, or its certificate, is not what was seen before the close: { what, then, now }. */
export function differences(seen, face, said) {
  if (seen.kind !== said.kind || !fits(said, seen)) return [{ what: 'other' }];
  const names = ['title', 'members', 'things', 'you'].filter((what) => !equal(seen[what], face[what]));
  return [...names.map((what) => ({ what, then: seen[what], now: face[what] })),
    ...otherAmounts(seen, said), ...otherBid(seen, said)];
}

/** Where a certificate that somebody handed on is not one of a round: `bid` is what the server has of whoever looks, or
    null. */
export function strange(said, { bids, you }, bid) {
  const others = equal(peopleOf(said), bids) ? [] : [{ what: 'others' }];
  const listed = listedBid(said, you);
  return !bid || equal(bid, listed) ? others : [...others, { what: 'held', then: bid, now: listed }];
}

/** How a certificate that holds is to be read: with which names, and what this browser saw otherwise before the close.
    `face` is what the server says now, and `numbered` makes names where there are none. */
export function held(said, face, seen, numbered) {
  const base = seen ?? face;
  const known = base.kind === said.kind && fits(said, base);
  const differ = seen ? differences(seen, face, said) : known ? [] : [{ what: 'fit' }];
  const names = known ? base : { ...numbered(said), you: 0 };
  const isMember = Number.isInteger(names.you) && names.you >= 0 && names.you <= names.members.length;
  return { names: { ...names, you: isMember ? names.you : 0 }, differ };
}

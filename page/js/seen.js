// What this browser knows of a round from before it closed: the names, the amounts and its own bid, to hold the result
// against. Only a bid or a creation counts, since any server can say of a closed round that it is open.
import { keep, kept } from './store.js';
import { THINGS } from './rules.js';

// A few digits of the key tell the members of a round apart, and open nothing.
export const slotOf = ({ id, key }) => `seen.${id}.${key.slice(0, 12)}`;

/** What a round says beside its bids: `things` are its rooms, goods or places. */
export const faceOf = ({ kind, title, members, you, rent, flag, legs, ...more }) => (
  { kind, title, members, things: more[THINGS[kind]], you, rent, flag, legs });

/** What this browser knows, with the `bid` that it sent last; null where it knows nothing. */
export const seen = (link) => kept(slotOf(link));

/** Keeps the round as it stood there when this bid, or a withdrawal, was sent. */
export const seeBid = (link, round, bid) => (
  keep(slotOf(link), { ...faceOf(round), bid, until: round.deadline * 1000 }));

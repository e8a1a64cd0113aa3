// All that this browser knows of rounds from before they closed (seen.js).
import { keep, kept, keysOf } from './store.js';
import { faceOf, seen, slotOf } from './seen.js';

const KEPT_FOR = 90 * 86_400_000; // after the close

/** Everything that it knows, with the numbers of the rounds. */
export const allSeen = () => keysOf('seen.').map((key) => ({ id: key.split('.')[1], ...kept(key) }));

/** Forgets the rounds that have been closed for long. */
export function forgetOld(now) {
  for (const key of keysOf('seen.')) if (!(kept(key)?.until + KEPT_FOR > now)) keep(key, null);
}

/** Notes that the round is closed, which can be before its deadline. */
export function seeClose(link, now) {
  const known = seen(link);
  if (known && !(known.until <= now)) keep(slotOf(link), { ...known, until: now });
}

/** Keeps what the organiser typed. */
export const seeCreation = (link, creation) => keep(slotOf(link), {
  ...faceOf({ ...creation, you: 0 }), until: Date.parse(creation.deadline) });

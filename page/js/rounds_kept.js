// The rounds that this browser remembers, each with its link and so with its key, for the list on the start page.
import { HERE, keep, kept, keysOf } from './store.js';
import { fragment, parse } from './link.js';
import { THINGS } from './rules.js';

const slot = ({ id, key }) => `round.${id}.${key.slice(0, 12)}`;

/** Remembers a round with its link; `at` is the path of the host that has it. */
export const rememberRound = (link, { kind, title, members, you, deadline }, at = HERE) => keep(slot(link), {
  link: fragment(link), kind, title, who: you > 0 ? members[you - 1] : '', until: deadline }, at);

export const forgetRound = (link) => keep(slot(link), null);

/** Remembers again what was forgotten. */
export const putBack = (round) => keep(slot(parse(round.link)), round);

export const isRemembered = (link) => kept(slot(link)) !== null;

/** Notes that a round which is remembered has closed. */
export function rememberClose(link) {
  const known = kept(slot(link));
  if (known && !known.isClosed) keep(slot(link), { ...known, isClosed: true });
}

const isRound = (one) => Boolean(THINGS[one?.kind]) && typeof one.title === 'string' && typeof one.who === 'string'
  && Number.isFinite(one.until) && Boolean(parse(String(one.link)));

/** All of them, those that end last first. */
export const roundsKept = () => keysOf('round.').map((key) => kept(key)).filter(isRound)
  .sort((a, b) => b.until - a.until);

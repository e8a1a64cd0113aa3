// The tick by which this browser remembers a round.
import { fill, h } from './dom.js';
import { t } from './language.js';
import { isBorrowed } from './store.js';
import { forgetRound, isRemembered, rememberRound } from './rounds_kept.js';

/** The tick, with what it means: { tick, input, isTicked }. */
export function rememberTick(isTicked = true) {
  const input = h('input', { type: 'checkbox', checked: isTicked && !isBorrowed(), disabled: isBorrowed() });
  const tick = h('div', { class: 'remember' },
    h('label', { class: 'tick' }, input, h('span', {}, t('device.remember'))),
    h('p', { class: 'hint' }, t('device.rememberWhy')));
  return { tick, input, isTicked: () => input.checked };
}

const follow = (input, link, round) => (input.checked ? rememberRound(link, round) : forgetRound(link));

/** The tick beside a link, which counts at once. */
export function rememberLink(link, round) {
  const { tick, input } = rememberTick(isRemembered(link));
  input.addEventListener('change', () => follow(input, link, round));
  return tick;
}

/** The tick at a bid, put into `place`: it counts from the first bid on. Answers what to call after each bid. */
export function rememberBid(place, { link, round, bid }) {
  const { tick, input } = rememberTick(bid.turn === 0 || isRemembered(link));
  let hasBid = bid.turn > 0;
  input.addEventListener('change', () => { if (hasBid) follow(input, link, round); });
  fill(place, tick);
  return () => { hasBid = true; follow(input, link, round); };
}

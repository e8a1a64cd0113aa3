// A round like an earlier one: what somebody bid there can be bid here again.
import { action, announce, box, fill, h, p } from './dom.js';
import { t, text } from './language.js';
import { get, sentence } from './api.js';
import { parse } from './link.js';
import { allSeen } from './all_seen.js';

const equal = (a, b) => JSON.stringify(a) === JSON.stringify(b);

/** What this browser last bid on the same items among the same people in another round; null where it didn't. */
export function earlierBid({ id, members, goods, you }) {
  const isLike = (one) => one.kind === 'goods' && one.id !== String(id) && one.you === you && one.bid?.values
    && equal(one.members, members) && equal(one.things, goods);
  return allSeen().filter(isLike).sort((a, b) => b.until - a.until)[0]?.bid.values ?? null;
}

/** The bid behind a link that was pasted: { values }, or { fault }, a sentence. */
async function bidBehind(pasted, { goods }) {
  const link = parse(pasted.slice(Math.max(0, pasted.indexOf('#'))).trim());
  if (!link) return { fault: text('link.brokenWhy') };
  try {
    const { values } = await get(`instances/${link.id}/bid`, link.key);
    return values?.length === goods.length ? { values } : { fault: text('old.otherThings') };
  } catch (refused) { return { fault: sentence(refused) }; }
}

/** Offers the old numbers: in `earlier` where they are known, else in `later` to be asked for. `take` puts them
    into the form. */
export function offerOld({ earlier, later }, round, take) {
  const known = earlierBid(round);
  const wrong = h('p', { class: 'fault' });
  const use = (old) => {
    take(old);
    fill(later);
    fill(earlier, box('note', p(t('old.ready'))));
    announce(text('old.ready'));
  };
  if (known) {
    fill(earlier, box('note', p(t('old.known')), action({ click: () => use(known) }, t('old.again'))));
    return;
  }
  const input = h('input', { id: 'old-link', autocomplete: 'off', spellcheck: 'false' });
  const ask = async () => {
    const { values, fault = '' } = await bidBehind(input.value, round);
    wrong.textContent = fault;
    if (values) use(values);
  };
  fill(later, h('details', {}, h('summary', {}, t('old.asked')), p(t('old.how')),
    h('label', { for: 'old-link' }, t('old.link')), input, wrong, p(action({ click: ask }, t('old.again')))));
}

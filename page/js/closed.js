// A closed round: its result, and for the organiser the links.
import { box, h, heading, name, turn } from './dom.js';
import { tableStyle } from './more_style.js';
import { t } from './language.js';
import { hostNow } from './api.js';
import { seeClose } from './all_seen.js';
import { again } from './create.js';
import { links } from './organiser.js';
import { result } from './result.js';
import { rememberClose } from './rounds_kept.js';
import { bidDraft } from './store.js';

/** What to say of a round that was closed before its deadline without everyone: the server's clock was ahead. */
const clockAhead = ({ bids, members, deadline }) => bids.length < members.length && deadline * 1000 > hostNow()
  && box('note', t('none.clockAhead'));

export async function showClosed(root, { title }, view) {
  const { link, round, alive } = view;
  const body = h('div', {}, heading(t('wait')));
  const below = h('div', { class: 'unprinted' });
  await tableStyle();
  turn(root, h('p', { class: 'eyebrow' }, name(String(title)), round.you === 0 && [' · ', t('youOrganise')]),
    clockAhead(round), body, below);
  seeClose(link, hostNow());
  rememberClose(link);
  bidDraft(link).drop(); // it can't be sent any more
  await result(body, { ...view, again: () => again({ ...round, currency: link.currency }) });
  if (link.tag && alive()) await links(below, view);
}

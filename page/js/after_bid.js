// What somebody who has bid can take along: an appointment for the result, and the link.
import { action, h } from './dom.js';
import { download } from './parts.js';
import { t, text } from './language.js';
import { hostNow } from './api.js';
import { address } from './link.js';
import { calendarFile } from './calendar.js';
import { sendButton } from './share.js';

/** The row of both. */
export function takeAlong({ link, round: { title, deadline } }) {
  const url = address(link);
  const words = text('invite.self', { title });
  const appointment = () => calendarFile({ id: `${link.id}-${link.key.slice(0, 12)}@${location.host}`, url,
    title: text('calendar.title', { title }), text: text('calendar.text', { url }),
    until: deadline * 1000, now: hostNow() });
  const save = () => download(`round-${link.id}.ics`, appointment(), 'text/calendar');
  return [h('p', { class: 'row' }, action({ click: save }, t('calendar.add')),
    sendButton({ title, words, url, whose: title }, () => {}, 'links.shareSelf')),
  h('p', { class: 'hint' }, t('calendar.why'))];
}

// A creation is sent to a host that has room, and kept until it is answered, so that it can be sent again after a
// reload: under the same tag a host makes the same round.
import { action, box, fill, h, name, p } from './dom.js';
import { HERE, formDraft, keep, kept } from './store.js';
import { t } from './language.js';
import { isOpen, isUnsent, peek, postNew, sentence } from './api.js';
import { fragment } from './link.js';
import { rememberRound } from './rounds_kept.js';
import { seeCreation } from './all_seen.js';

/** A tag that nobody can guess. */
export const newTag = () => (
  [...crypto.getRandomValues(new Uint8Array(16))].map((x) => x.toString(16).padStart(2, '0')).join(''));

const FIELDS = [
  'kind', 'title', 'members', 'rooms', 'rent', 'goods', 'limit', 'places', 'flag', 'legs', 'deadline', 'tag'];

/** The creation of a round, as the round tells it: under the tag in the organiser's link, it gets the members' keys
    again. */
export const creationOf = (round, tag) => JSON.stringify({
  ...round, deadline: new Date(round.deadline * 1000).toISOString().replace('.000', ''), tag }, FIELDS);

// So many other hosts are asked. With a last one that is asked three times, and the organiser's page that asks for the
// links, a creation stays below the 20 that the proxies of hosting/ let a client send.
const OTHERS = 15;

/** The path of the host to ask behind the one at a path. Where hosts share a name, /hosts.json has their paths; the
    tag picks the first of them, so that they fill alike. Nothing behind the last. */
async function next(at, tag) {
  const all = [await peek('/hosts.json').catch(() => [])].flat().filter((path) => /^\/\w+\/$/.test(path));
  const first = parseInt(tag.slice(0, 8), 16) % all.length;
  const row = [...all.slice(first), ...all.slice(0, first)].slice(0, OTHERS);
  return row[row.indexOf(at) + 1];
}

/** The host at a path made the round: nothing is left to be sent, and the organiser's page follows. Its place in the
    history is that of the form, so that nobody comes back to an empty one. */
function made(link, creation, { at, remembers }) {
  keep('creation', null);
  formDraft(creation.kind).drop();
  if (!at) seeCreation(link, creation); // what another page knows is its own
  const until = Date.parse(creation.deadline) / 1000;
  if (remembers) rememberRound(link, { ...creation, you: 0, deadline: until }, at || HERE);
  location.replace(at + fragment(link));
}

/** Sends a creation to the host at a path, that of this page where it is empty, and goes to the organiser's page.
    Answers what went wrong. The next host is asked only where this one has certainly not kept it: it is full, or never
    got it; not so if the creation is `inDoubt`, sent to it before without an answer. */
export async function make(body, { currency = '', remembers = false, at = '', inDoubt = false }) {
  const creation = JSON.parse(body);
  const { tag } = creation;
  keep('creation', { body, currency, at, remembers });
  try {
    const { id, organiser } = await postNew(`${at}instances`, body);
    made({ id: String(id), key: organiser, currency, tag }, creation, { at, remembers });
    return null;
  } catch (refused) {
    const isFree = refused.code === 'host_full' || (isUnsent(refused) && !inDoubt);
    const other = isFree && await next(at, tag);
    if (other) return make(body, { currency, remembers, at: other });
    if (isFree || !isOpen(refused)) keep('creation', null);
    return refused;
  }
}

/** A creation that was sent and not answered, to be sent again; null where there is none. */
export function pending() {
  if (!kept('creation')) return null;
  const { body, ...how } = kept('creation');
  const wrong = h('div', {});
  const resend = action({ class: 'main', click: async () => {
    resend.disabled = true;
    const refused = await make(body, { ...how, inDoubt: true });
    resend.disabled = false;
    if (refused) fill(wrong, h('p', { class: 'fault' }, sentence(refused)));
  } }, t('bid.sendAgain'));
  const forget = action({
    click: (event) => { keep('creation', null); event.target.closest('.box').remove(); } }, t('pending.forget'));
  return box('note', p(t('pending.what', { title: name(JSON.parse(body).title) })), wrong,
    h('p', { class: 'row' }, resend, forget));
}

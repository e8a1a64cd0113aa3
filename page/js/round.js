// A round as its link shows it. Who has bid, one's own bid, the organiser's links and the result have files of their
// own, loaded when needed.
import { action, box, fill, h, heading, name, p, turn } from './dom.js';
import { entitle, locale, shortMoment, t, text } from './language.js';
import { setCurrency } from './money.js';
import { NoReply, SLOW, get, hostNow, isRound, sentence } from './api.js';
import { seen } from './seen.js';

let shown = 0; // counts views, so that a late reply to an earlier one is dropped
let asks = null; // who has bid: asks the host now and then

/** Ends the view: nothing is asked any more. */
export function stop() {
  asks?.stop();
  asks = null;
  shown++;
}

document.addEventListener('visibilitychange', () => { if (!document.hidden) asks?.tick(); });

/** Asks for the round of a link, and for one's own bid while it is open. */
async function ask(path, link) {
  const round = await get(path, link.key);
  if (!isRound(round)) throw new NoReply('no round');
  const bid = !round.closed && round.you > 0 ? await get(`${path}/bid`, link.key) : null;
  return { round, bid };
}

/** What stands above an open round: a question to a member, or the title for the organiser. */
const topOf = ({ kind, title, members, you, deadline }) => h('header', {}, h('p', { class: 'eyebrow' }, you > 0
  ? [name(title), ' · ', t('until', { time: shortMoment(deadline * 1000, hostNow()) })] : t('youOrganise')),
you > 0 ? asked(kind, members[you - 1]) : heading(name(title)));

/** What somebody is asked. */
const asked = (kind, member) => h('h1', { class: 'tight', tabindex: -1 },
  t(`bid.${kind}`, { name: name(String(member)) }));

/** What to do where nothing can be shown. */
const ways = (retry) => h('p', { class: 'row' }, action({ class: 'main', click: retry }, t('again')),
  h('a', { href: '#' }, t('toStart')));

/** Says why nothing can be shown. */
function shut(root, refused, retry) {
  const isLost = refused instanceof NoReply;
  const title = isLost ? 'noReply.title' : 'link.shut';
  entitle(text(title));
  turn(root, heading(t(title)), box('bad', sentence(refused)),
    !isLost && [p(t('link.lost')), p(t('link.lostOwn'))], ways(retry));
}

/** Says that the host is asked, and after a while that it takes long; answers how to end that. */
function waiting(root, retry) {
  const status = h('div', { role: 'status' }, p(t('asking')));
  entitle(text('wait'));
  turn(root, heading(t('wait')), status);
  const slow = setTimeout(() => fill(status, p(t('noReply.slow')), ways(retry)), SLOW);
  return () => clearTimeout(slow);
}

/** Whose view of a round this is, for the title of the window. */
const roleOf = ({ title, members, you }) => (
  text(you > 0 ? 'titles.member' : 'titles.organiser', { title, name: you > 0 ? members[you - 1] : '' }));

/** Draws the round of a link; `closing` where it was told as closed a moment ago. */
async function draw(root, link, reload, closing = false) {
  stop();
  const mine = shown;
  const alive = () => mine === shown;
  setCurrency(link.currency, locale());
  const path = `instances/${link.id}`;
  const answered = waiting(root, reload);
  let round, bid;
  try { ({ round, bid } = await ask(path, link)); } catch (refused) {
    if (!alive()) return;
    if (refused.code === 'closed' && !closing) await draw(root, link, reload, true);
    else shut(root, refused, reload);
    return;
  } finally { answered(); }
  if (!alive()) return;
  const view = { link, path, round, bid, alive, reload };
  const face = (round.closed && seen(link)) || round;
  entitle(roleOf(face));
  root.dataset.view = round.closed ? 'result' : round.you > 0 ? 'bid' : 'organiser';
  if (round.closed) await (await import('./closed.js')).showClosed(root, face, view);
  else await showOpen(root, view);
}

/** Shows the round of a link; `failed` is called where a part of the page did not load. */
export async function show(root, link, failed = () => {}) {
  try { await draw(root, link, () => show(root, link, failed)); } catch { failed(); }
}

/** Who has bid, in `place`. */
async function showBidders(place, view) {
  const { Bidders } = await import('./bidders.js');
  if (view.alive()) asks = new Bidders(place, view);
}

/** An open round: one's own bid and who has bid, or all that the organiser has. */
async function showOpen(root, view) {
  const { round } = view;
  const body = h('div', { class: 'form' });
  if (round.you === 0) {
    const { Organiser } = await import('./organiser.js');
    if (!view.alive()) return;
    turn(root, h('div', { class: 'narrow' }, topOf(round), body));
    asks = new Organiser(body, view);
    await asks.begin();
    return;
  }
  const people = h('section', { class: 'people form' });
  turn(root, h('div', { class: 'form' }, topOf(round)), body, people);
  const told = showBidders(people, view);
  const tick = (quiet) => asks?.tick(quiet);
  const own = (has) => asks?.own(has);
  await (await import('./bid.js')).bidForm(body, { ...view, tick, own });
  await told;
}

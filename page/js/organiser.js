// What the organiser has: a row for each person, with who has answered and the way to send them their link.
import { announce, box, fill, h, name, p } from './dom.js';
import { tableStyle } from './more_style.js';
import { learnMore, moment, names, shortMoment, t, text } from './language.js';
import { hostNow, post, sentence } from './api.js';
import { Asking, left } from './bidders.js';
import { Closing } from './closing.js';
import { creationOf } from './creation.js';
import { icon, who } from './draw.js';
import { address, cameFrom, fragment } from './link.js';
import { card } from './parts.js';
import { rememberLink } from './remember.js';
import { codeButton, copyButton, letterLink, sendButton } from './share.js';
import { keep, kept } from './store.js';

const sentOf = ({ id }) => kept(`sent.${id}`) ?? [];

/** The menu of a link: what can be done with it beside sending it. */
function menuOf({ url, whose, title, words, open, isMe, place }) {
  const input = h('input', { readonly: true, value: url, spellcheck: 'false', 'aria-label': whose,
    focus: (event) => event.target.select() });
  const all = [input, copyButton(url, whose, input), letterLink({ title, words, url, whose }),
    codeButton(url, whose, place),
    open && h('a', { class: 'button', href: open, 'aria-label': text('links.openOf', { whose }) }, icon('open'),
      t('links.open')),
    isMe && h('a', { class: 'button me', href: open, click: isMe }, icon('person'), t('links.me'))];
  const close = ({ key }) => { if (key === 'Escape') menu.open = false; };
  const menu = h('details', { class: 'menu', name: 'menu', keydown: close },
    h('summary', { 'aria-label': text('links.moreOf', { whose }) }, icon('dots')), h('div', {}, all));
  return { menu, input };
}

/** The rows of all members, and what draws anew who has answered. */
export class People {
  constructor({ link, round }, keys, sent) {
    Object.assign(this, { link, round, sent, hasSent: sentOf(link) });
    this.rows = round.members.map((member, i) => this.row(member, i, { ...link, tag: '', key: keys[i] }));
    this.list = h('ul', { class: 'links rows card' }, this.rows.map(({ node }) => node));
  }

  words(member) {
    const { round } = this;
    return text(round.closed ? 'invite.result' : `invite.${round.kind}`, {
      title: round.title, name: member, time: moment(round.deadline * 1000) });
  }

  row(member, i, link) {
    const { round } = this;
    const [url, place] = [address(link), h('div', { class: 'code' })];
    const given = { url, whose: member, title: round.title, words: this.words(member) };
    const state = h('span', { class: 'status' });
    const send = sendButton(given, () => this.noteSent(i));
    const isMe = !round.closed && (() => cameFrom.set(this.link.id, fragment(this.link)));
    const { menu, input } = menuOf({ ...given, place, open: fragment(link), isMe });
    input.id = `link-${i + 1}`;
    const node = h('li', { class: 'person' }, who(round.members, i, 'big'),
      h('div', { class: 'name' }, h('b', {}, name(member)), state), h('span', { class: 'do' }, send, menu), place);
    return { node, state, send };
  }

  noteSent(i) {
    this.hasSent = [...new Set([...this.hasSent, i])];
    keep(`sent.${this.link.id}`, this.hasSent);
    this.sent();
  }

  /** Draws who has answered, `bids` by their numbers; whoever is missing stands first. */
  draw(bids) {
    const { round, rows, hasSent, list } = this;
    const next = round.closed ? -1 : rows.findIndex((_, i) => !bids.includes(i + 1) && !hasSent.includes(i));
    rows.forEach(({ state, send }, i) => {
      const has = bids.includes(i + 1);
      const says = has ? 'hasBid' : hasSent.includes(i) ? 'lacksBid' : 'links.notSent';
      fill(state, !round.closed && [has && icon('check'), t(says)]).setAttribute('class', `status ${has ? 'has' : ''}`);
      send.setAttribute('class', `button ${i === next ? 'main' : has ? '' : 'tint'}`);
    });
    if (list.contains(document.activeElement)) return; // nothing moves under somebody's hand
    const isLate = (i) => Number(bids.includes(i + 1));
    const order = rows.map((_, i) => i).sort((a, b) => isLate(a) - isLate(b) || a - b);
    list.append(...order.map((i) => rows[i].node));
  }
}

/** The organiser's own link, and whether this browser remembers it. */
function ownLink({ link, round }) {
  const whose = text('links.organiser');
  const place = h('div', {});
  const given = { url: address(link), whose, title: round.title, words: text('invite.own', { title: round.title }) };
  const { menu, input } = menuOf({ ...given, place });
  input.id = 'link-0';
  return h('section', { class: 'card keep' }, h('h2', {}, t('links.own')), p(t('links.ownWhy')),
    h('div', { class: 'row' }, sendButton(given, () => {}, 'links.keep'), menu), place, rememberLink(link, round));
}

/** The members' keys, got again by the tag in the organiser's link; or { says }, what stands there instead. */
async function keysOf({ link, round }) {
  if (!link.tag) return { says: p(t('links.none')) };
  try { return await post('instances', null, creationOf(round, link.tag)); } catch (refused) {
    return { says: box('bad', sentence(refused)) };
  }
}

/** Of a closed round: the links again, to tell the others. */
export async function links(place, view) {
  const { keys, says } = await keysOf(view);
  if (!view.alive()) return;
  keep(`sent.${view.link.id}`, null);
  if (says) { fill(place, card(t('links.title'), says)); return; }
  const people = new People(view, keys, () => {});
  people.draw(view.round.bids);
  fill(place, h('h2', {}, t('links.tell')), p(t('links.why')), people.list, ownLink(view));
}

/** An open round: who has answered, the links, and the button that closes it. */
export class Organiser extends Asking {
  constructor(place, view) {
    super(place, view);
    this.closing = new Closing({ ...view, tick: () => this.tick() });
    Object.assign(this, { top: h('div', { class: 'people' }), below: h('div', {}), people: null });
  }

  async begin() {
    await Promise.all([tableStyle(), learnMore()]);
    const { keys, says } = await keysOf(this.view);
    if (!this.view.alive()) return;
    if (keys) this.people = new People(this.view, keys, () => this.draw());
    fill(this.place, this.top, keys ? this.people.list : card(t('links.title'), says), this.below);
    fill(this.below, this.closing.place, keys && ownLink(this.view), this.next());
    this.draw();
    this.plan();
  }

  /** What happens next, folded up. */
  next() {
    return h('details', { class: 'fold' }, h('summary', {}, t('links.next')), p(t('links.why')),
      p(t(this.round.kind === 'rent' ? 'endsRent' : 'ends')));
  }

  draw() {
    const { members, bids, deadline, kind } = this.round;
    const missing = members.filter((_, i) => !bids.includes(i + 1));
    const time = h('time', { datetime: new Date(deadline * 1000).toISOString() },
      shortMoment(deadline * 1000, hostNow()));
    const lead = missing.length < members.length ? null : h('p', { class: 'lead' }, t(`links.send.${kind}`));
    fill(this.top, lead, h('p', { class: 'count' },
      h('b', {}, missing.length ? t('someBid', { n: bids.length, of: members.length }) : t('allBid')),
      h('small', {}, t('openUntil', { time, left: left(deadline * 1000 - hostNow()) }))),
    bids.length > 0 && missing.length > 0 && box('note', t(`lacking.${kind}`, { names: names(missing) })),
    this.silent && box('note', t('silent')));
    this.people?.draw(bids);
    this.closing.draw(missing);
  }

  hear(now, quiet) {
    const had = this.round.bids.length;
    super.hear(now, quiet);
    if (had < now.members.length && now.bids.length === now.members.length) announce(text('allBid'));
  }
}

// Who has bid, and until when: asked for now and then while somebody looks, and drawn for a member.
import { announce, box, fill, h, name } from './dom.js';
import { locale, shortMoment, t, text } from './language.js';
import { hostNow, isRound, peek } from './api.js';

const EVERY = 20_000;

/** How long it is still, in the greatest two units. */
export function left(ms) {
  const minutes = Math.max(0, Math.floor(ms / 60_000));
  const [days, hours] = [Math.floor(minutes / 1440), Math.floor((minutes % 1440) / 60)];
  const some = (unit, n) => n.toLocaleString(locale(), { style: 'unit', unit, unitDisplay: 'long' });
  if (days) return `${some('day', days)} ${some('hour', hours)}`;
  return hours ? `${some('hour', hours)} ${some('minute', minutes % 60)}` : some('minute', minutes);
}

/** Asks who has bid; `draw` of a class below shows it. */
export class Asking {
  constructor(place, view) {
    Object.assign(this, { place, view, round: view.round });
    this.silent = false; // whether the host did not answer when it was asked last
  }

  /** Asks who has bid; the form is left alone. */
  async tick(quiet) {
    const { path, link, alive, reload } = this.view;
    clearTimeout(this.timer);
    const now = await peek(path, link.key).catch(() => null);
    if (!alive()) return;
    if (now?.closed) { announce(text('closed')); reload(); return; }
    if (isRound(now)) this.hear(now, quiet);
    else {
      if (!this.silent) announce(text('silent'));
      this.silent = true;
    }
    this.draw();
    this.plan();
  }

  /** The host said how the round is now. */
  hear(now, quiet) {
    if (!quiet && now.bids.length > this.round.bids.length) {
      announce(text('someBid', { n: now.bids.length, of: now.members.length }));
    }
    this.round = now;
    this.silent = false;
  }

  plan() {
    const rest = this.round.deadline * 1000 - hostNow();
    const pause = rest > 0 && rest < EVERY ? rest + 1500 : EVERY + Math.random() * 5000;
    this.timer = setTimeout(() => (document.hidden ? this.plan() : this.tick()), pause);
  }

  stop() { clearTimeout(this.timer); }
}

/** For a member: who has bid, below their own bid. */
export class Bidders extends Asking {
  constructor(place, view) {
    super(place, view);
    this.draw();
    this.plan();
  }

  chip(member, i) {
    const { bids, you } = this.round;
    const has = bids.includes(i + 1);
    return h('li', { class: has ? 'has' : 'lacks' }, h('span', { 'aria-hidden': 'true' }, has ? '✓' : '·'),
      name(member), h('span', { class: 'sr' }, ' ', t(has ? 'hasBid' : 'lacksBid')), you === i + 1 && [' ', t('you')]);
  }

  draw() {
    const { members, bids, deadline, kind } = this.round;
    const time = h('time', { datetime: new Date(deadline * 1000).toISOString() },
      shortMoment(deadline * 1000, hostNow()));
    fill(this.place,
      h('h2', {}, bids.length < members.length ? t('someBid', { n: bids.length, of: members.length }) : t('allBid')),
      h('ul', { class: 'chips' }, members.map((member, i) => this.chip(member, i))),
      h('p', { class: 'hint' }, t('openUntil', { time, left: left(deadline * 1000 - hostNow()) }), ' ',
        t(kind === 'rent' ? 'endsRent' : 'ends')),
      this.silent && box('note', t('silent')));
  }

  /** What the member who looks has just done is counted at once. */
  own(has) {
    const { bids, you } = this.round;
    this.round = { ...this.round, bids: bids.filter((member) => member !== you).concat(has ? you : []) };
    this.draw();
  }
}

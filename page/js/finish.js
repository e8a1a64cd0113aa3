// A closed round of items for which the server's search took too long: whoever has the links of all finishes it in this
// browser, and anybody else takes what comes of it.
import { action, fill, h, heading, p } from './dom.js';
import { number, t } from './language.js';
import { get, post } from './api.js';
import { creationOf } from './creation.js';
import { Estate } from './estate.js';
import { handedTo, handing, keepHanded, taking } from './handed.js';
import { Proposal } from './proposal.js';

/** What everyone said, by their places among those who answered, as far as this browser may read it: the organiser's
    has all keys, a member's its own. */
async function knownBids({ link, path, round }) {
  const bidOf = async (key) => (await get(`${path}/bid`, key).catch(() => null))?.values ?? null;
  if (round.you > 0) {
    const own = await bidOf(link.key);
    return round.bids.map((member) => (member === round.you ? own : null));
  }
  const made = link.tag ? await post('instances', null, creationOf(round, link.tag)).catch(() => null) : null;
  return made ? Promise.all(round.bids.map((member) => bidOf(made.keys[member - 1]))) : round.bids.map(() => null);
}

export class Finish {
  /** `view.show` shows a certificate, with where it comes from; `limit` is that of the server's search, and `both` what
      there is for two people. */
  constructor(view, limit, both) {
    Object.assign(this, { view, limit, both, place: h('div', { 'aria-busy': 'true' }, heading(t('divide.working'))) });
  }

  draw(...children) {
    fill(this.place, children).removeAttribute('aria-busy');
  }

  /** Shows a certificate: one that was made `here`, or one that was `given`. */
  show(certificate, by) {
    const { view: { alive, link, round, show }, bids } = this;
    if (!alive()) return;
    show(certificate, { bid: bids[round.bids.indexOf(round.you)] ?? null,
      keeps: (one) => keepHanded(link, one), tells: (known, one) => this.told(by, known, one) });
  }

  /** Who made a certificate; and the way to the others, or to another certificate. */
  told(by, known, certificate) {
    const { view: { link, reload } } = this;
    const other = () => { keepHanded(link, null); reload(); };
    return h('section', { class: 'box note unprinted' }, p(t(`estate.${by}`, { limit: number(this.limit) })),
      by === 'here' ? handing(known, certificate, link)
        : p(action({ class: 'link', click: other }, t('estate.another'))));
  }

  /** Asks for what everyone said. What follows goes on by itself. */
  async begin() {
    const { link, round, alive } = this.view;
    this.bids = await knownBids(this.view);
    if (!alive()) return;
    const had = handedTo(link);
    if (had) this.show(had, 'given');
    else if (this.bids.every(Boolean)) {
      const bids = round.members.map((_, i) => this.bids[round.bids.indexOf(i + 1)] ?? null);
      this.search(new Estate({ kind: 'goods', bids }), (estate) => estate.search());
    } else this.take();
  }

  async search(estate, begin) {
    this.draw(heading(t('divide.working')), estate.parts);
    this.place.setAttribute('aria-busy', 'true');
    const { status, text: written } = await begin(estate);
    if (!this.view.alive()) return;
    if (status === 0) this.show(written, 'here');
    else if (estate.owners) this.found(estate);
    else this.take(estate.isStopped ? 'divide.stopped' : 'divide.noModule', estate);
  }

  /** What a member can do, and an organiser whose browser can't finish it: take the result from somebody. */
  take(why, estate) {
    const { limit, both, view: { link, round, again } } = this;
    const lead = [t('none.limit', { limit: number(limit) }), ' ', t(round.you > 0 ? 'estate.ask' : 'estate.full')];
    const on = estate && action({ class: 'main', click: () => this.search(estate, (one) => one.search()) }, t('again'));
    this.draw(heading(t('estate.title')), h('p', { class: 'lead' }, lead), why && p(t(why)), both,
      taking(link, (certificate) => this.show(certificate, 'given')),
      h('p', { class: 'row' }, on, round.you === 0 && action({ click: again }, t('none.again'))));
  }

  /** Even the longer search found no end. */
  found(estate) {
    const { both, bids, view: { link, round, again } } = this;
    const on = estate.canGoOn && action({ class: 'main', click: () => this.search(estate, (one) => one.more()) },
      t('none.searchOn'));
    const people = round.bids.map((m) => round.members[m - 1]);
    const proposal = new Proposal({ people, goods: round.goods, points: bids, link,
      owners: estate.owners.map((owner) => owner - 1) });
    this.draw(heading(t('none.bestFound')), both, proposal.drawn(on, action({ click: again }, t('none.again'))));
  }
}

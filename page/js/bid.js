// One's own bid: the form, and what stands.
import { action, announce, box, fill, h, name, p, showFault } from './dom.js';
import { learnMore, shortMoment, t, text } from './language.js';
import { CHIPS, LIMITS, THINGS } from './rules.js';
import { money } from './money.js';
import { SLOW, get, hostNow, isOpen, post, sentence } from './api.js';
import { askBeforeLeaving, bidDraft } from './store.js';
import { cameFrom } from './link.js';
import { seeBid } from './seen.js';

const TURNS_TOLD = 15; // from so many on it is told how many are left

/** What stands, as a line. */
function standing(round, bid) {
  if (round.kind === 'fares') return t('bid.getOff', { place: name(round.places[bid.place - 1]) });
  const things = round[THINGS[round.kind]];
  const shown = (value) => h('strong', {}, round.kind === 'rent' ? money(value) : value);
  return bid.values.map((value, i) => [i ? ' · ' : '', name(things[i]), '\u00a0', shown(value)]);
}

/** The form of a bid, and what stands. */
class BidForm {
  /** `fieldsOf` makes the fields of the kind. */
  constructor(view, fieldsOf) {
    const { round, bid, alive, link } = view;
    Object.assign(this, { view, bid, open: null }); // open: what was sent and not answered, to be sent again as it is
    this.typed = bidDraft(link);
    this.stands = h('div', { id: 'stands' });
    this.along = h('div', {});
    this.earlier = h('div', {});
    this.later = h('div', {});
    this.message = h('div', { id: 'message' });
    const calm = () => this.calm();
    this.fields = fieldsOf(round, bid, { message: this.message, alive, calm, hasChips: link.currency === CHIPS });
    this.send = h('button', { class: 'main' });
    this.back = action({ click: () => this.ask('withdraw') }, t('bid.takeBack'));
    this.remember = h('div', {});
    this.form = this.drawn();
    this.restore();
  }

  drawn() {
    const { fields, stands, along, earlier, message, send, back, remember } = this;
    const submit = (event) => { event.preventDefault(); this.ask('bids'); };
    const input = () => { this.calm(); this.typed.put(fields.raw); };
    fields.set.addEventListener('input', input);
    return h('form', { novalidate: true, submit }, stands, along, earlier, fields.set, message,
      h('div', { class: 'bar' }, fields.sum, send), h('p', { class: 'row' }, back, this.wayBack()),
      this.view.round.kind !== 'fares' && this.whoSees(), this.later, remember);
  }

  /** The way back to the organiser's view, for whoever came from there. */
  wayBack() {
    const from = cameFrom.get(this.view.link.id);
    return from && h('a', { href: from }, t('links.back'));
  }

  /** Who can see a bid. */
  whoSees() {
    return h('details', {}, h('summary', {}, t('bid.whoSees')), h('p', { class: 'hint' }, t('bid.sealed')));
  }

  /** What was typed before and not sent is there again. */
  restore() {
    const raw = this.typed.get();
    if (raw === null) return;
    this.fields.raw = raw;
    askBeforeLeaving(true);
    fill(this.message, box('note', t('bid.draft')));
  }

  /** What was wrong is told until something is changed. */
  calm() {
    if (!this.open && this.message.querySelector('.bad')) fill(this.message);
  }

  draw() {
    const { bid, open } = this;
    const { round } = this.view;
    const has = Boolean(bid.values ?? bid.place);
    const used = bid.turn >= LIMITS.turns;
    this.stands.setAttribute('data-turn', bid.turn);
    fill(this.stands, (has || bid.turn > 0) && h('h2', {}, t(has ? 'bid.stands' : 'bid.tookBack')),
      has && h('p', { class: 'standing' }, standing(round, bid)),
      has && p(t('bid.resultAfter', { time: this.end() })),
      bid.turn >= TURNS_TOLD && h('p', { class: 'hint' },
        t(used ? 'bid.turnsUsed' : 'bid.turns', { n: LIMITS.turns - bid.turn, of: LIMITS.turns })));
    fill(this.send, t(open ? 'bid.sendAgain' : has ? 'bid.change' : 'bid.send'));
    this.back.hidden = !has || Boolean(open);
    this.fields.set.disabled = Boolean(open);
    this.send.disabled = this.back.disabled = used;
    this.more(has).catch(() => {}); // not loaded: a bid needs none of it
  }

  end() { return shortMoment(this.view.round.deadline * 1000, hostNow()); }

  /** What can come later: the tick that remembers the round, what to take along, and a bid from an earlier round. */
  async more(has) {
    const { round } = this.view;
    this.remembers ??= (await import('./remember.js')).rememberBid(this.remember, this.view);
    if (has && !this.along.firstChild) {
      const [{ takeAlong }] = await Promise.all([import('./after_bid.js'), learnMore()]);
      fill(this.along, takeAlong(this.view));
    }
    if (!has) fill(this.along);
    const isNew = round.kind === 'goods' && this.bid.turn === 0;
    if (isNew && !this.earlier.firstChild && !this.later.firstChild) {
      (await import('./old_bid.js')).offerOld(this, round, (points) => this.fields.putPoints(points));
    } else if (!isNew) { fill(this.earlier); fill(this.later); }
  }

  /** What is to be sent, or null where something is wrong or the member thought better of it. */
  prepared(what) {
    const says = what === 'bids' ? this.fields.wrong() : '';
    if (says) { this.fields.complain(says); return null; }
    if (what === 'withdraw' && this.bid.turn === LIMITS.turns - 1 && !confirm(text('bid.lastTurn'))) return null;
    const said = { turn: this.bid.turn + 1, ...(what === 'bids' && this.fields.said()) };
    return { what, said, body: JSON.stringify(said) };
  }

  /** Sends a bid or a withdrawal with the next turn, or what is open once more. */
  async ask(what) {
    const { path, link, alive, reload } = this.view;
    this.open ??= this.prepared(what);
    if (!this.open) return;
    this.send.disabled = this.back.disabled = this.fields.set.disabled = true;
    fill(this.send, t('bid.sending'));
    const slow = setTimeout(() => fill(this.message, box('note', t('noReply.slowSent'))), SLOW);
    try {
      await post(`${path}/${this.open.what}`, link.key, this.open.body);
      this.taken();
    } catch (refused) {
      if (!alive()) return;
      if (refused.code === 'closed') { reload(); return; }
      await this.refused(refused);
    } finally { clearTimeout(slow); }
    this.draw();
  }

  /** The server has what was sent. */
  taken() {
    const { link, round, tick, own } = this.view;
    const isBack = this.open.what === 'withdraw';
    this.bid = this.open.said;
    this.open = null;
    this.typed.drop();
    seeBid(link, round, this.bid);
    this.remembers?.();
    const says = isBack ? 'bid.taken' : this.bid.turn < LIMITS.turns ? 'bid.kept' : 'bid.keptLast';
    fill(this.message, box('good', t(says, { time: this.end() })));
    announce(this.message.textContent);
    own(!isBack);
    tick(true);
  }

  /** Tells a refusal; where the turn was another one, what stands is asked for, and nothing is sent by itself. */
  async refused(refused) {
    if (isOpen(refused)) { fill(this.message, box('bad', sentence(refused))); return; }
    this.open = null;
    if (['turn', 'no_bid', 'turns_used'].includes(refused.code)) {
      try { this.bid = await get(`${this.view.path}/bid`, this.view.link.key); } catch { /* what stood is shown on */ }
    }
    if (refused.body?.field === 'place') showFault('place', sentence(refused));
    else fill(this.message, box('bad', refused.code === 'turn' ? t('bid.elsewhere') : sentence(refused)));
  }
}

/** What makes the fields of a kind. */
async function fieldsOf(kind) {
  if (kind === 'fares') {
    const { PlaceField } = await import('./place_field.js');
    return (round, bid) => new PlaceField(round, bid);
  }
  const { ValueFields } = await import('./value_fields.js');
  return (round, bid, around) => new ValueFields(round, bid, around);
}

/** Shows the form. */
export async function bidForm(place, view) {
  const make = await fieldsOf(view.round.kind);
  if (!view.alive()) return;
  const form = new BidForm(view, make);
  fill(place, form.form);
  form.draw();
}

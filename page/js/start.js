// The first view: which kind? Beside it, an example that answers at once, and the rounds that this browser remembers.
import { action, announce, fill, h, heading, name, p } from './dom.js';
import { moment, t, text } from './language.js';
import { art } from './art.js';
import { icon } from './draw.js';
import { forgetRound, putBack, roundsKept } from './rounds_kept.js';
import { THINGS } from './rules.js';
import { parse } from './link.js';

const cardOf = (href, kind, title, about) => h('li', {}, h('a', { href, class: `kind ${kind}` }, art(kind),
  h('span', {}, h('strong', {}, t(title)), h('span', {}, t(about)))));

/** The cards of the kinds, and of a division on this device. */
const cards = () => h('ul', { class: 'kinds' },
  Object.keys(THINGS).map((kind) => cardOf(`#new-${kind}`, kind, `kinds.${kind}.title`, `kinds.${kind}.short`)),
  cardOf('#divide', 'here', 'divide.here', 'divide.hereShort'));

/** What a round that is remembered is at: closed, or open until when. */
const stateOf = ({ who, until, isClosed }) => [who ? t('kept.member', { name: name(who) }) : t('kept.organiser'), ' · ',
  isClosed ? t('kept.closed') : t('kept.until', { time: moment(until * 1000) })];

/** A round that is remembered, with the way to it, and to forget it. */
function roundOf(round, forget) {
  const { link, title, isClosed } = round;
  const menu = h('details', { class: 'menu' }, h('summary', { 'aria-label': text('links.moreOf', { whose: title }) },
    icon('dots')), h('div', {}, action({ click: () => forget(round) }, t('kept.forget'))));
  return h('li', {}, h('span', { class: isClosed ? 'badge done' : 'badge' }, icon(isClosed ? 'check' : 'clock')),
    h('div', { class: 'name' }, h('a', { href: link }, name(title)), h('small', {}, stateOf(round))), menu);
}

/** The rounds of this browser. What is forgotten can be put back for as long as the view is open. */
class Rounds {
  constructor() { Object.assign(this, { node: h('div', {}), gone: null }); this.draw(); }

  draw() {
    const rounds = roundsKept();
    const undo = action({ class: 'link', click: () => this.undo() }, t('kept.undo'));
    fill(this.node, (rounds.length > 0 || this.gone) && h('section', { class: 'yours' }, h('h2', {}, t('kept.title')),
      this.gone && h('p', { class: 'box note' }, t('kept.gone', { title: name(this.gone.title) }), ' ', undo),
      rounds.length > 0 && h('ul', { class: 'rows kept' },
        rounds.map((round) => roundOf(round, (one) => this.forget(one)))),
      h('p', { class: 'hint' }, t('kept.why'))));
  }

  forget(round) {
    if (!confirm(text(round.who ? 'kept.sure' : 'kept.sureOrganiser', { title: round.title }))) return;
    this.gone = round;
    forgetRound(parse(round.link));
    this.draw();
    announce(text('kept.gone', { title: round.title }));
    this.node.querySelector('button.link').focus();
  }

  undo() {
    putBack(this.gone);
    this.gone = null;
    this.draw();
    this.node.querySelector('a').focus();
  }
}

/** The example, which is loaded once the view stands. */
function example() {
  const place = h('section', { class: 'shown', id: 'demo', 'aria-busy': 'true' },
    h('h2', {}, t('demo.title')), p(t('wait')));
  import('./demo.js').then(({ demo }) => demo(place), () => place.remove())
    .then(() => place.removeAttribute('aria-busy'));
  return place;
}

export function choose(root) {
  fill(root, h('div', { class: 'start' }, h('div', { class: 'opening' }, h('div', {}, heading(t('start.title')),
    h('p', { class: 'lead' }, t('start.lead')),
    h('p', { class: 'have' }, icon('lock'), t('start.private'))), cards(), example()), new Rounds().node));
}

// A shared ride in pictures: the route as a line with its stops, and who pays what beside a ride of their own.
import { h, name } from './dom.js';
import { names, t, text } from './language.js';
import { money } from './money.js';
import { bar, colour, who } from './draw.js';
import { amount, folded, hint, part, positive, price } from './picture_parts.js';
import { fareShares } from './shares.js';
import { table } from './parts.js';
import { peopleOf } from './compare.js';
import { meterBox } from './meter.js';

/** A stop with its lanes: one for each rider, which ends where they get off. */
function stop({ node, aboard, off = [], leg, isHere }) {
  const lanes = aboard.map((member) => h('i', { class: member === null ? null : colour(member) }));
  return h('li', { class: `stop ${isHere ? 'here' : ''}` }, h('span', { class: 'node', 'aria-hidden': 'true' }),
    h('div', {}, node), h('span', { class: 'offs' }, off),
    leg && [h('span', { class: 'strands', 'aria-hidden': 'true' }, lanes), h('p', { class: 'leg' }, leg)]);
}

/** The way of the taxi, from stop to stop. */
function route({ said, names: { members, things, you } }, { stops, whole }) {
  const people = peopleOf(said);
  const leg = (at) => stops[at] && [h('b', { 'data-way': stops[at].way }, money(stops[at].way)),
    h('small', {}, t('fares.inTheCar', { n: said.n - stops.slice(0, at).flatMap(({ off }) => off).length }))];
  const gone = (at) => stops.slice(0, at).flatMap(({ off }) => off);
  const aboard = (at) => people.map((m, rider) => (gone(at).includes(rider) ? null : m - 1));
  const flag = h('span', { 'data-flag': said.flag }, money(said.flag));
  const begin = stop({ node: [h('b', {}, t('fares.start')), h('small', {}, t('fares.getOn', { n: said.n, flag }))],
    aboard: aboard(0), leg: leg(0) });
  const one = ({ place, off }, at) => stop({
    node: [h('b', {}, name(things[place])),
      h('small', {}, t('fares.getOff', { n: off.length,
        names: names(off.map((rider) => members[people[rider] - 1])) }))],
    off: off.map((rider) => who(members, people[rider] - 1)), aboard: aboard(at + 1), leg: leg(at + 1),
    isHere: off.some((rider) => people[rider] === you) });
  const total = h('span', { 'data-total': whole }, money(whole));
  return part('fares.route', h('ol', { class: said.n > 6 ? 'route many' : 'route' }, begin, stops.map(one)),
    h('p', { class: 'hint' }, t('fares.total', { total })));
}

/** Who pays what, beside what a ride alone would cost them, and which groups would pay less on their own. */
function shares({ said, names: { members, things, you } }, { place, alone, whole, pays, groups }) {
  const people = peopleOf(said);
  const most = Math.max(...pays.map((_, r) => Math.max(Number(alone[r]), Number(pays[r]))), 1);
  const row = (m, r) => h('li', { class: `pay ${colour(m - 1)}` }, who(members, m - 1, 'big'),
    h('div', { class: 'name' }, h('b', {}, name(members[m - 1]), m === you && [' ', h('small', {}, t('you'))]),
      h('small', {}, name(things[place[r]]), ' · ', t('fares.alone', {
        amount: h('span', { 'data-alone': alone[r] }, money(alone[r])) }))),
    price(m - 1, pays[r], said.fares[r]), bar(m - 1, Math.max(0, Number(pays[r])) / most, Number(alone[r]) / most));
  const { count, of, worst } = groups;
  return part('fares.title', h('ul', { class: 'pays' }, people.map(row)),
    hint('fares.bars', { all: h('span', { 'data-all': whole }, money(whole)) }),
    h('p', { id: 'audit', class: 'hint' },
      count === 0 ? t('fares.groupsNone', { of }) : t('fares.groups', { n: count, of }),
      worst && [' ', t('fares.worst', { names: names(worst.riders.map((rider) => members[people[rider] - 1])),
        amount: amount(worst.by) })]),
    meterBox(pays, whole, people.map((m) => members[m - 1])));
}

/** What each trip costs, from each place to each. */
function tripTable({ said, names: { things } }) {
  const row = (legs, from) => h('tr', {}, h('th', { scope: 'row' }, from ? name(things[from - 1]) : t('form.origin')),
    legs.map((leg, to) => h('td', {}, from === to + 1 ? '–' : h('span', { 'data-leg': leg }, money(leg)))));
  const head = [t('form.fromTo'), things.map(name)];
  return folded('fares.ways', table(text('fares.waysTable'), head, said.legs.map(row)));
}

/** The headline of somebody who rides, and the reason below it. */
function own({ names: { things } }, { place, alone, pays }, me) {
  const saved = alone[me] - pays[me];
  return {
    title: t(pays[me] < 0n ? 'fares.minePaid' : 'fares.mine',
      { place: name(things[place[me]]), amount: money(positive(pays[me])) }),
    lead: t(saved > 0n ? 'fares.mineSaves' : 'fares.mineAlone',
      { alone: money(alone[me]), saved: h('span', { 'data-saved': saved }, money(saved)) }),
  };
}

export function pictureOfFares(scene) {
  const { said, names: { members, you } } = scene;
  const people = peopleOf(said);
  const found = fareShares(said);
  const me = people.indexOf(you);
  const absent = members.filter((_, m) => !people.includes(m + 1));
  const general = you > 0 ? { title: t('goods.noPart'), lead: t('fares.noBid') }
    : { title: t('fares.all', { total: money(found.whole) }) };
  return {
    ...(me < 0 ? general : own(scene, found, me)),
    absent: absent.length > 0 && t('fares.without', { names: names(absent) }),
    parts: [h('div', { class: 'cols' }, route(scene, found), shares(scene, found)), tripTable(scene)],
    why: t('fares.why'),
  };
}

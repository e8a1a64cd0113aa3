// A rent in pictures: the flat as rooms, and what each room would be worth to whoever looks, less its price.
import { h, name } from './dom.js';
import { t, text } from './language.js';
import { exact, minus, near } from './fractions.js';
import { money } from './money.js';
import { colour, svg, who } from './draw.js';
import { amount, folded, hint, numbers, part, positive, price } from './picture_parts.js';
import { rentShares } from './shares.js';

/** Rooms in rows that are about equally dear, the dearest first: lists of members. */
export function rowsOf(prices) {
  const order = prices.map((_, m) => m).sort((a, b) => prices[b] - prices[a] || a - b);
  const perRow = Math.ceil(order.length / Math.ceil(Math.sqrt(order.length)));
  const first = order.length % perRow;
  const rows = first ? [order.slice(0, first)] : [];
  for (let at = first; at < order.length; at += perRow) rows.push(order.slice(at, at + perRow));
  return rows;
}

const door = () => svg('svg', { class: 'door', viewBox: '0 0 30 33', 'aria-hidden': 'true' },
  svg('path', { class: 'gap', d: 'M2 30h26v3H2z' }), svg('path', { class: 'arc', d: 'M2 30A26 26 0 0128 4v26' }));

/** The flat: rooms as wide, and rows as high, as their prices, a hall between the rows. */
function plan({ said, names: { members, things, you } }, { room, pays }) {
  const prices = members.map((_, m) => Math.max(0, near(said.prices[room[m]])));
  const most = Math.max(...prices, 1);
  const size = (ms) => ({ n: Math.round(ms.reduce((all, m) => all + Math.max(prices[m], most / 4), 0) / most * 100) });
  const one = (m) => h('li', { class: `room ${colour(m)} ${m + 1 === you ? 'mine' : ''}`, vars: size([m]) },
    h('b', {}, name(things[room[m]])),
    h('span', { class: 'holder' }, who(members, m), h('span', {}, name(members[m]), m + 1 === you && [' ', t('you')])),
    price(m, pays[m], said.prices[room[m]]), door());
  const rows = rowsOf(prices);
  const hall = () => h('li', { class: 'hall', 'aria-hidden': 'true' });
  return h('ul', { class: 'plan' }, rows.map((row, i) => [i > 0 && i % 2 === 1 && hall(),
    h('li', { class: i % 2 ? 'above' : null, vars: size(row) }, h('ul', {}, row.map(one)))]));
}

/** One bar a room: what it is worth to somebody less its price. No bar goes past the line where their own ends. */
function gains({ said, names: { things } }, { room, gain }, me) {
  const of = things.map((_, r) => gain(me, r));
  const all = of.map(near);
  const [low, high] = [Math.min(0, ...all), Math.max(0, ...all)];
  const at = (value) => `${(high > low ? (value - low) / (high - low) : 0) * 88 + 6}%`;
  const width = (value) => `${(high > low ? Math.abs(value) / (high - low) : 0) * 88}%`;
  const line = (kind, value) => svg('line', { class: kind, x1: at(value), x2: at(value), y1: 0, y2: '100%' });
  const plot = (r) => h('span', { class: `plot ${colour(me)}` }, svg('svg', { 'aria-hidden': 'true' }, line('zero', 0),
    svg('rect', { class: all[r] < 0 ? 'fill less' : 'fill', x: at(Math.min(0, all[r])), width: width(all[r]), y: '30%',
      height: '40%', rx: 3 }), line('goal', all[room[me]])));
  const row = (r) => h('li', { class: r === room[me] ? 'gain mine' : 'gain' }, h('span', { class: 'what' },
    h('b', {}, name(things[r]), r === room[me] && [' ', h('small', { class: 'tag' }, t('rent.yours'))]),
    h('small', {}, `${money(said.values[me][r])} − ${money(said.prices[r])} = `,
      h('strong', { 'data-exact': exact(of[r]) }, money(of[r])))), plot(r));
  const order = [room[me], ...things.map((_, r) => r).filter((r) => r !== room[me])];
  return h('ul', { class: 'gains' }, order.map(row));
}

/** For whoever has a room: that no other would suit them better. */
function ownPart(scene, shares, me) {
  const { room, gain, rival } = shares;
  const isEven = minus(gain(me, room[rival(me)]), gain(me, room[me])).n === 0n;
  return part(isEven ? 'rent.noneBetterEven' : 'rent.noneBetter', gains(scene, shares, me), hint('rent.bars'),
    isEven && h('p', { class: 'hint', id: 'even' },
      t('own.roomEven', { room: name(scene.names.things[room[rival(me)]]) })));
}

/** For whoever has none: what each gains with their own room, and at most with another one. */
function everyone({ names: { members } }, { room, gain, rival }) {
  const row = (member, m) => h('li', { class: 'line' }, who(members, m), h('span', { class: 'name' },
    h('b', {}, name(member)), h('small', {}, t('own.gains', { own: money(gain(m, room[m])),
      other: money(gain(m, room[rival(m)])), name: name(members[rival(m)]) }))));
  return part('rent.envy', h('ul', { class: 'rows' }, members.map(row)));
}

/** What everyone said, and what each would gain by swapping. */
function tables({ said, names: { members, things } }, { room, gain }) {
  const heads = members.map((other, o) => [name(other), h('small', {}, name(things[room[o]]))]);
  return folded('result.said',
    numbers(text('rent.envyTable'), t('result.who'), heads, members.map(name), (m, o) => {
      const by = minus(gain(m, room[o]), gain(m, room[m]));
      return { shown: m === o ? '—' : money(by), own: m === o, is: exact(by) };
    }),
    numbers(text('rent.saidTable'), t('result.who'), things.map(name), members.map(name),
      (m, r) => ({ shown: money(said.values[m][r]), own: room[m] === r })));
}

/** The headline of whoever has a room, and the reason below it. */
function own({ said, names: { things } }, { room, pays, gain }, me) {
  const less = gain(me, room[me]);
  return {
    title: t(pays[me] < 0n ? 'rent.minePaid' : 'rent.mine',
      { room: name(things[room[me]]), amount: money(positive(pays[me])) }),
    lead: h('span', { id: 'own' }, t(less.n === 0n ? 'rent.mineEven' : 'rent.mineWorth',
      { worth: money(said.values[me][room[me]]), gain: amount(less) })),
  };
}

export function pictureOfRent(scene) {
  const { said, names: { you } } = scene;
  const shares = rentShares(said);
  const all = h('span', { 'data-all': said.rent }, money(said.rent));
  const flat = part('rent.title', plan(scene, shares), h('p', { class: 'hint' }, t('rent.together', { all }),
    said.prices.some(({ d }) => d > 1n) && [' ', t('rent.fractions')]));
  return {
    ...(you > 0 ? own(scene, shares, you - 1) : { title: t('rent.all') }),
    parts: [h('div', { class: 'cols' }, flat, you > 0 ? ownPart(scene, shares, you - 1) : everyone(scene, shares)),
      tables(scene, shares)],
    why: t('rent.envyWhy', { least: money(shares.least) }),
  };
}

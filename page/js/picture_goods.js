// Items in pictures: a card a person with their items as tiles, and what the others' cards would be worth to somebody.
import { h, name } from './dom.js';
import { locale, names, number, t, text } from './language.js';
import { exact, frac, minus, near } from './fractions.js';
import { bar, colour, who } from './draw.js';
import { amountOfPoints, folded, hint, numbers, part } from './picture_parts.js';
import { adjustedWinner, goodsShares } from './shares.js';
import { sign, table } from './parts.js';
import { peopleOf } from './compare.js';

const sum = (list) => list.reduce((a, b) => a + b, 0);
const LARGE = 100; // points from which a tile has larger letters
const NAMED = 3; // so many items stand in a headline, or one fewer with a count

/** Items in strips of about equal weight, the heaviest first: lists of [place, points]. */
export function stripsOf(goods) {
  const order = [...goods].sort((a, b) => b[1] - a[1] || a[0] - b[0]);
  const strips = [];
  for (const one of order) {
    const last = strips.at(-1);
    const isFull = !last || last.length === 3 || sum(last.map(([, n]) => n)) >= LARGE;
    if (isFull) strips.push([one]);
    else last.push(one);
  }
  return strips;
}

/** The tiles of a share, as large as their points are to somebody. */
function tiles(things, owned, points) {
  const tile = ([good, n]) => h('li', { class: n >= LARGE ? 'tile top' : 'tile', vars: { n: Math.max(n, 10) } },
    h('span', {}, name(things[good])), h('b', {}, n));
  const goods = owned.map((good) => [good, Number(points[good])]);
  const strip = (row) => h('li', { class: 'strip', vars: { n: sum(row.map(([, n]) => Math.max(n, 10))) } },
    h('ul', {}, row.map(tile)));
  return owned.length > 0 ? h('ul', { class: 'tiles', vars: { n: sum(goods.map(([, n]) => n)) } },
    stripsOf(goods).map(strip)) : h('p', { class: 'hint' }, t('goods.nothing'));
}

/** What each share is worth to a player: a bar each, the own one solid. */
function worths(scene, { worthOf }, player, isReader) {
  const { members } = scene.names;
  const people = peopleOf(scene.said);
  const most = Math.max(...people.map((_, other) => Number(worthOf(player, other))), 1);
  const row = (m, other) => h('li', { class: other === player ? 'own' : null }, who(members, m - 1),
    h('span', {}, other === player && isReader ? t('goods.own') : name(members[m - 1])),
    bar(m - 1, Number(worthOf(player, other)) / most), h('b', {}, worthOf(player, other)));
  return h('ul', { class: 'mini' }, people.map(row));
}

/** The card of a share: whose it is, its points to the owner, its items, and what the others' are worth to them. */
function card(scene, shares, player, viewer) {
  const { said, names: { members, things } } = scene;
  const m = peopleOf(said)[player] - 1;
  const by = viewer < 0 ? player : viewer;
  return h('section', { class: `share ${colour(m)}` }, h('header', {}, who(members, m, 'big'),
    h(viewer < 0 ? 'h2' : 'h3', {}, name(members[m])), h('p', {}, amountOfPoints(shares.points[player], m))),
  tiles(things, shares.owned[player], said.values[by]),
  viewer < 0 && peopleOf(said).length > 1
    && [hint('goods.worths', { name: name(members[m]) }), worths(scene, shares, player)]);
}

/** Whether anybody would rather have what somebody else has, as lines. */
function envyLines({ said, names: { members, things } }, { envies }) {
  const called = (player) => name(members[peopleOf(said)[player] - 1]);
  const line = ({ player, other, good, isOne }) => h('li', { class: isOne ? 'yes' : 'no' },
    sign(isOne ? '✓ ' : '✗ '), t(isOne ? 'goods.envyOne' : 'goods.envyAll',
      { a: called(player), b: called(other), good: name(things[good]) }));
  return h('ul', { class: 'rules', id: 'audit' },
    envies.length ? envies.map(line) : h('li', { class: 'yes' }, sign('✓ '), t('goods.content')),
    h('li', { class: 'yes' }, sign('✓ '), t('goods.pareto')));
}

/** Who would rather swap, in numbers, and what everyone said. */
function tables(scene, { envy }) {
  const { said, names: { members, things } } = scene;
  const called = peopleOf(said).map((m) => name(members[m - 1]));
  const again = () => peopleOf(said).map((m) => name(members[m - 1]));
  return folded('result.said',
    numbers(text('goods.envyTable'), t('result.who'), called, again(), (player, other) => {
      const by = envy(player, other);
      return { shown: player === other ? '—' : String(by).replace('-', '−'), own: player === other, is: String(by) };
    }),
    numbers(text('goods.saidTable'), t('goods.thing'), again(), things.map(name), (g, player) => (
      { shown: String(said.values[player][g]), own: Number(said.owners[g]) === player + 1 })));
}

/** The items of a share as a row of names; where there are many, the best and how many more. */
function shortly(things, owned, points) {
  if (!owned.length) return t('goods.nothing');
  if (owned.length <= NAMED) return names(owned.map((good) => things[good]));
  const best = [...owned].sort((a, b) => Number(points[b] - points[a]) || a - b).slice(0, NAMED - 1);
  return t('goods.andMore', { names: best.map((good, i) => [i > 0 && ', ', name(things[good])]),
    n: owned.length - best.length });
}

/** Whom one would rather swap with, and what they would have to give up; or nobody. */
function ownEnvy({ said, names: { members, things } }, { envies }, me) {
  const called = (player) => name(members[peopleOf(said)[player] - 1]);
  const mine = envies.filter(({ player }) => player === me);
  if (!mine.length) return t('own.content');
  return mine.map(({ other, good, isOne }, i) => [i > 0 && ' ',
    t(isOne ? 'own.envyOne' : 'own.envyAll', { name: called(other), good: name(things[good]) })]);
}

/** The headline of somebody who takes part. */
const own = (scene, shares, me) => ({
  title: t('goods.mine', { share: shortly(scene.names.things, shares.owned[me], scene.said.values[me]) }),
  lead: h('span', { id: 'own' }, t('goods.mineWorth', { points: shares.points[me] }), ' ', ownEnvy(scene, shares, me)),
});

/** That of everybody else: how all of them fare. */
function general({ said, names: { you } }, { envies }) {
  if (you > 0) return { title: t('goods.noPart'), lead: t('goods.noBid') };
  const isOne = envies.every((envy) => envy.isOne);
  return { title: t(envies.length ? 'goods.all' : 'goods.allContent', { n: said.g }),
    lead: envies.length > 0 && isOne && t('goods.allOne') };
}

/** The pictures for somebody who takes part: their items, what each share is worth to them, and the others' items. */
function ownParts(scene, shares, me) {
  const { said, names: { things } } = scene;
  const people = peopleOf(said);
  const others = people.map((_, player) => player).filter((player) => player !== me);
  const yours = h('div', { class: colour(people[me] - 1) }, tiles(things, shares.owned[me], said.values[me]),
    h('p', { class: 'hint' }, amountOfPoints(shares.points[me], people[me] - 1)));
  return [h('div', { class: 'cols' }, part('goods.yours', yours),
    others.length > 0 && part('goods.sharesToYou', worths(scene, shares, me, true), hint('goods.bars'))),
  others.length > 0 && h('section', { class: 'below' }, h('h2', {}, t('goods.others')), hint('goods.inYours'),
    h('div', { class: 'shares' }, others.map((player) => card(scene, shares, player, me))))];
}

export function pictureOfGoods(scene) {
  const { said, names: { members, things, you } } = scene;
  const people = peopleOf(said);
  const shares = goodsShares(said);
  const me = people.indexOf(you);
  const absent = members.filter((_, m) => !people.includes(m + 1));
  const product = h('span', { class: 'num', 'data-product': shares.product }, shares.product.toLocaleString(locale()));
  const cards = () => h('div', { class: 'shares' }, people.map((_, player) => card(scene, shares, player, -1)));
  return {
    ...(me < 0 ? general(scene, shares) : own(scene, shares, me)),
    absent: absent.length > 0 && t('goods.without', { names: names(absent) }),
    parts: [me < 0 ? cards() : ownParts(scene, shares, me),
      folded('goods.envy', envyLines(scene, shares)), tables(scene, shares),
      said.n === 2 && winnerCard({ ...adjustedWinner(said.values), who: people, members, things },
        [hint('winner.computed')])],
    why: t('goods.why', { product }),
  };
}

/** For two: the division by adjusted winner, in which one thing may be split. */
export function winnerCard({ shares, total, who: both, members, things }, more, open) {
  const share = (of) => h('td', { 'data-exact': exact(of) }, `${number(near(of) * 100, 1)} %`);
  const points = h('strong', { 'data-exact': exact(total) },
    (total.d === 1n ? '' : '≈\u202f') + number(near(total), 1));
  const row = (thing, g) => h('tr', {}, h('th', { scope: 'row' }, name(thing)),
    share(shares[g]), share(minus(frac(1n), shares[g])));
  return h('details', { class: 'fold', id: 'winner', open },
    h('summary', {}, t('winner.title')), h('p', {}, t('winner.how', { points })),
    table(text('winner.table'), [t('goods.thing'), both.map((m) => name(members[m - 1]))], things.map(row)), more);
}

// What a server says of a division that nobody checked: a list, and no pictures.
import { h, name } from './dom.js';
import { card } from './parts.js';
import { names, t } from './language.js';
import { money } from './money.js';

/** Who gets what, by the people that a division names. */
function lines({ kind, rooms, pays, players, owners, riders }, { members, things }) {
  const called = (list, number) => name(String(list[number - 1] ?? number));
  if (kind === 'rent') return rooms.map((room, m) => [called(members, m + 1), called(things, room), money(pays[m])]);
  if (kind === 'fares') return riders.map((rider, r) => [called(members, rider), money(pays[r])]);
  const owned = (player) => things.filter((_, good) => owners[good] === player);
  const share = (player) => (owned(player).length ? names(owned(player)) : t('goods.nothing'));
  return players.map((player) => [called(members, player), share(player)]);
}

/** The card; null where the division is not one. */
export function unchecked(division, face) {
  try {
    const row = (parts) => h('li', {}, parts.map((part, i) => [i > 0 && ' · ', i ? part : h('strong', {}, part)]));
    return card(t('unchecked.title'), h('ul', { class: 'unchecked' }, lines(division, face).map(row)));
  } catch { return null; }
}

// A division in pictures. All of it follows from a certificate that was judged, and from the names that go with it:
// scene is { said, names: { members, things, you } }.
import { h, heading, name, p } from './dom.js';
import { text } from './language.js';
import { art } from './art.js';
import { colour, who } from './draw.js';
import { peopleOf } from './compare.js';
import { pictureOfFares } from './picture_fares.js';
import { pictureOfGoods } from './picture_goods.js';
import { pictureOfRent } from './picture_rent.js';

/** Of a kind: { title, lead, absent, parts, why }: the headline and the reason below it, who took no part, the
    pictures, and what shows that it is the best. */
export const picture = (scene) => (
  { rent: pictureOfRent, goods: pictureOfGoods, fares: pictureOfFares }[scene.said.kind](scene));

/** The answer, at the top: what whoever looks gets and pays, or who gets what. It is amber where that is only
    somebody's word, or somebody took no part. `proof` stands at its end. */
export function hero({ said, names: { members, you } }, shown, isDoubtful, proof, titled = heading) {
  const { title, lead, absent } = shown;
  const isAmber = isDoubtful || Boolean(absent);
  const own = you > 0 ? colour(you - 1) : 'open';
  return h('section', { class: `hero ${isAmber ? 'caution' : own}` }, h('div', {},
    absent && p(h('strong', { class: 'absent' }, absent)),
    you > 0 && h('p', { class: 'me' }, who(members, you - 1), name(members[you - 1])),
    titled(title), lead && h('p', { class: 'lead' }, lead)), art(said.kind), proof);
}

/** Names for whatever has none: "Person 1", "Room 2". */
export function numbered(said) {
  const called = (what, n) => Array.from({ length: n }, (_, i) => `${text(`kinds.${said.kind}.${what}`)} ${i + 1}`);
  const things = { rent: said.n, goods: said.g, fares: said.places }[said.kind];
  return { title: '', members: called('person', Math.max(...peopleOf(said))), things: called('thing', things) };
}

// What is drawn: icons, people's signs, and bars. A person's colour is the same everywhere, with a letter beside it.
import { build, h } from './dom.js';
import { locale } from './language.js';

const SVG = 'http://www.w3.org/2000/svg';

/** An element of a drawing. */
export const svg = (tag, attributes, ...children) => build(document.createElementNS(SVG, tag), attributes, children);

const ICONS = {
  check: 'M5 12.5l4.5 4.5L19 7.5', careful: 'M12 4.5l8.5 15h-17zM12 10v4.5M12 17.2v.01',
  send: 'M12 15V4M8 7.5L12 3.5l4 4M5 13v5a2 2 0 002 2h10a2 2 0 002-2v-5', save: 'M12 4v11M8 11.5l4 4 4-4M5 20h14',
  picture: 'M4 7a2 2 0 012-2h12a2 2 0 012 2v10a2 2 0 01-2 2H6a2 2 0 01-2-2zM4 16l4.5-4.5 4 4 3-3L20 17M15.5 8.6v.01',
  print: 'M7 9V4h10v5M7 17H5a1 1 0 01-1-1v-6a1 1 0 011-1h14a1 1 0 011 1v6a1 1 0 01-1 1h-2M7 14h10v6H7z',
  dots: 'M5.5 12h.01M12 12h.01M18.5 12h.01', copy: 'M9 9h11v11H9zM15 9V6a2 2 0 00-2-2H6a2 2 0 00-2 2v7a2 2 0 002 2h3',
  code: 'M4 4h6v6H4zM14 4h6v6h-6zM4 14h6v6H4zM14 14h2v2M20 14v2M14 20h2M18 18h2v2',
  open: 'M13 5h6v6M19 5l-8 8M17 14v4a1 1 0 01-1 1H6a1 1 0 01-1-1V8a1 1 0 011-1h4',
  person: 'M12 4.4a3.6 3.6 0 110 7.2 3.6 3.6 0 010-7.2M5 20c.8-4 3.5-6 7-6s6.2 2 7 6',
  clock: 'M12 4a8 8 0 110 16 8 8 0 010-16M12 7.5V12l3 2',
  lock: 'M5.5 13a2 2 0 012-2h9a2 2 0 012 2v5a2 2 0 01-2 2h-9a2 2 0 01-2-2zM8.5 11V8a3.5 3.5 0 017 0v3',
};

/** A sign that is seen and not read aloud. */
export const icon = (name) => svg('svg', { class: 'icon', viewBox: '0 0 24 24', 'aria-hidden': 'true' },
  svg('path', { d: ICONS[name], ...(name === 'dots' && { 'stroke-width': 3.2 }) }));

/** The colour of a member, by their place among all: a class of the style. */
export const colour = (member) => `p${(member % 12) + 1}`;

/** The letters of each name: one, or two where others begin alike, else a number behind it; of "Room 2" the number. */
export function letters(names) {
  const numbers = names.map((text) => / (\d+)$/.exec(text)?.[1]);
  if (numbers.every(Boolean)) return numbers;
  const first = (text, n) => [...text.trim()].slice(0, n).join('').toLocaleUpperCase(locale());
  const [one, two] = [1, 2].map((n) => names.map((text) => first(text, n)));
  const isTwice = (all, i) => all.indexOf(all[i]) !== i || all.lastIndexOf(all[i]) !== i;
  return names.map((_, i) => (!isTwice(one, i) ? one[i] : !isTwice(two, i) ? two[i] : `${one[i]}${i + 1}`));
}

/** A person's sign: a circle in their colour with their letter. */
export const who = (members, member, size = '') => h('span',
  { class: `who ${colour(member)} ${size}`, 'aria-hidden': 'true' }, letters(members)[member]);

const percent = (part) => `${Math.max(0, Math.min(1, part)) * 100}%`;

/** A bar in the colour of a member: solid is `part`, outlined is `rail`; both between 0 and 1. */
export const bar = (member, part, rail) => svg('svg', { class: `track ${colour(member)}`, 'aria-hidden': 'true' },
  rail !== undefined && svg('rect', { class: 'rail', width: percent(rail), height: '100%', rx: 3 }),
  svg('rect', { class: 'fill', width: percent(part), height: '100%', rx: 3 }));

// A division as one picture, to send to others: drawn as SVG and saved as PNG. It needs the certificate's numbers and
// the names, and nothing else.
import { names, t, text } from './language.js';
import { money } from './money.js';
import { fareShares, goodsShares, rentShares } from './shares.js';
import { peopleOf } from './compare.js';
import { action } from './dom.js';
import { icon } from './draw.js';
import { downloadBlob } from './parts.js';

const [WIDTH, SIDE, HEAD, LINE, BAR] = [1000, 40, 110, 104, 26];
const COLOURS = ['#2252af', '#a93900', '#681944', '#009b8c', '#918d16', '#390185']; // those of the style, in the light
const SVG = 'http://www.w3.org/2000/svg';
const LONGEST = 76; // signs in a line
const short = (words) => (words.length > LONGEST ? `${words.slice(0, LONGEST - 1)}…` : words);
const plain = (parts) => [parts].flat(Infinity).map((part) => part?.textContent ?? String(part)).join('');

/** Each one's line: { member, says, beside, part }, where `part` is how long the bar is, between 0 and 1. */
const LINES = {
  rent(said, { members, things }) {
    const { room, pays } = rentShares(said);
    const most = Math.max(...pays.map(Number), 1);
    return members.map((member, m) => ({ member: m, says: `${member} → ${things[room[m]]}`,
      beside: money(pays[m]), part: Math.max(0, Number(pays[m])) / most }));
  },
  goods(said, { members, things }) {
    const { points, owned } = goodsShares(said);
    const share = (player) => (
      owned[player].length ? plain(names(owned[player].map((good) => things[good]))) : text('goods.nothing'));
    return peopleOf(said).map((m, player) => ({ member: m - 1, says: `${members[m - 1]}: ${share(player)}`,
      beside: text('points', { n: points[player] }), part: Number(points[player]) / 1000 }));
  },
  fares(said, { members, things }) {
    const { place, pays } = fareShares(said);
    const most = Math.max(...pays.map(Number), 1);
    return peopleOf(said).map((m, rider) => ({ member: m - 1, says: `${members[m - 1]} → ${things[place[rider]]}`,
      beside: money(pays[rider]), part: Math.max(0, Number(pays[rider])) / most }));
  },
};

/** The lines of a division's picture. */
export const linesOf = ({ said, names: known }) => LINES[said.kind](said, known);

function shape(tag, attributes, words) {
  const node = document.createElementNS(SVG, tag);
  for (const [key, value] of Object.entries(attributes)) node.setAttribute(key, value);
  if (words !== undefined) node.textContent = words;
  return node;
}

const written = (x, y, size, words, more = {}) => shape('text',
  { x, y, 'font-size': size, 'font-family': 'system-ui, sans-serif', fill: '#18211f', ...more }, words);

/** A line: what somebody gets, and a bar. */
function drawn({ member, says, beside, part }, i) {
  const top = HEAD + i * LINE;
  const whole = WIDTH - 2 * SIDE;
  const bar = (width, fill) => shape('rect', { x: SIDE, y: top + 44, width, height: BAR, rx: 6, fill });
  return [written(SIDE, top + 30, 24, short(says), { 'font-weight': 600 }),
    bar(whole, '#f1ece3'), bar(Math.max(1, part * whole), COLOURS[member % COLOURS.length]),
    written(WIDTH - SIDE, top + 30, 24, beside, { 'text-anchor': 'end', 'font-weight': 600 })];
}

/** The picture as SVG. */
export function posterOf(scene) {
  const lines = linesOf(scene);
  const height = HEAD + lines.length * LINE + 50;
  const svg = shape('svg', { xmlns: SVG, width: WIDTH, height, viewBox: `0 0 ${WIDTH} ${height}` });
  const title = short(scene.names.title || text(`kinds.${scene.said.kind}.title`));
  svg.append(shape('rect', { width: WIDTH, height, fill: '#fff' }),
    written(SIDE, 70, 38, title, { 'font-weight': 700 }),
    ...lines.flatMap(drawn), written(SIDE, height - 24, 18, text('site'), { fill: '#55605d' }));
  return svg;
}

/** The SVG as the bytes of a PNG. */
async function pngOf(svg) {
  const url = URL.createObjectURL(new Blob([new XMLSerializer().serializeToString(svg)], { type: 'image/svg+xml' }));
  const image = new Image();
  try {
    image.src = url;
    await image.decode();
  } finally { URL.revokeObjectURL(url); }
  const height = Number(svg.getAttribute('height'));
  const canvas = Object.assign(document.createElement('canvas'), { width: WIDTH, height });
  canvas.getContext('2d').drawImage(image, 0, 0);
  return new Promise((done) => { canvas.toBlob(done, 'image/png'); });
}

/** The button that saves a division as a picture. */
export const pictureButton = (scene, file) => action({
  click: async () => downloadBlob(`${file}.png`, await pngOf(posterOf(scene))),
}, icon('picture'), t('own.picture'));

// Certificates as divisions: judged by the proved judge first, and read then. The reading itself is a script, which nobody proved.
//
//     const { status, line, division } = await read(judge, text, { members: ['Ann', 'Ben'], rooms: ['Attic', 'Back'] });
//     division.shares   // [{ member: 'Ann', room: 'Attic', price: { numerator: 550, denominator: 1 }, utility: ... }, ...]
//
// The text is a certificate, that of an estate, or the text of adjusted winner: its first line says which judge to ask. A worker of in_worker.js judges too.
// Without names, members, rooms, goods and places are their numbers, from 1. Amounts are in cents; exact ones are fractions in lowest terms.

/**
 * An exact amount, in lowest terms.
 * @typedef {{ numerator: number, denominator: number }} Fraction
 */

/**
 * Names of yours, by position.
 * @typedef {{ members?: Iterable<any>, rooms?: Iterable<any>, goods?: Iterable<any>, places?: Iterable<any> }} Names
 */

/**
 * @typedef {object} RentDivision
 * @property {'rent'} kind
 * @property {number} total the rent in cents
 * @property {any[]} rooms
 * @property {number[][]} values what each member would pay for each room
 * @property {{ member: any, room: any, price: Fraction, utility: Fraction }[]} shares
 */

/**
 * @typedef {object} GoodsDivision
 * @property {'goods'} kind
 * @property {number} limit
 * @property {number} steps
 * @property {number[]} who the members who have bid, by number
 * @property {any[]} goods
 * @property {number[][]} values their points
 * @property {any[]} owners for each good the member who gets it
 * @property {{ member: any, goods: any[], points: number }[]} shares
 */

/**
 * @typedef {object} FareDivision
 * @property {'fares'} kind
 * @property {number} flag
 * @property {number} total what the ride costs
 * @property {number[]} who the members who ride, by number
 * @property {number[]} at where they get off, by number
 * @property {number[][]} legs
 * @property {any[]} places
 * @property {any[]} route the riders in the order in which they get off
 * @property {{ member: any, place: any, fare: Fraction, alone: number }[]} shares
 */

/**
 * @typedef {object} PairDivision
 * @property {'pair'} kind
 * @property {any[]} goods
 * @property {number[][]} values
 * @property {Fraction} total the points that both have
 * @property {{ member: any, parts: Fraction[], points: Fraction }[]} shares
 */

/** @typedef {RentDivision | GoodsDivision | FareDivision | PairDivision} Division */
/** @typedef {Record<string, string[][]>} Lines */

/** @typedef {(text: import('./judge.js').Text) => Promise<import('./judge.js').Verdict>} Judging */

/**
 * What judges texts: that of `loadJudge`, a worker, or for estates only that of `loadEstates`.
 * @typedef {{ check: Judging, checkWinner?: Judging, checkEstate?: Judging }} Judges
 */

/**
 * A whole number of a text, which no double changes.
 * @param {string | number} digits
 */
function whole(digits) {
  const found = Number(digits);
  if (!Number.isSafeInteger(found)) throw new RangeError(`${digits} is too large for a number of JavaScript`);
  return found;
}

/**
 * A fraction in lowest terms.
 * @param {number} numerator
 * @param {number} denominator
 * @returns {Fraction}
 */
function fraction(numerator, denominator) {
  let [one, other] = [Math.abs(numerator), denominator];
  while (other) [one, other] = [other, one % other];
  return { numerator: numerator / one, denominator: denominator / one };
}

/**
 * The fraction that a word of a text says, such as 1101/2.
 * @param {string} said
 */
function fractionIn(said) {
  const [numerator, denominator = '1'] = said.split('/');
  return fraction(whole(numerator), whole(denominator));
}

/**
 * A whole number less a fraction.
 * @param {number} number
 * @param {Fraction} fraction
 */
function less(number, { numerator, denominator }) {
  return fraction(whole(number * denominator) - numerator, denominator);
}

/**
 * The words behind each word with which lines begin.
 * @param {string} text
 */
function linesOf(text) {
  /** @type {Lines} */
  const found = {};
  for (const line of text.split('\n')) {
    const [word, ...rest] = line.startsWith('tree ') ? ['tree'] : line.split(' ');
    (found[word] ??= []).push(rest);
  }
  return found;
}

/**
 * So many names: those that are given, or the numbers from 1.
 * @param {Iterable<any> | undefined} names
 * @param {number} count
 * @param {string} word
 * @returns {any[]}
 */
function named(names, count, word) {
  const found = names === undefined ? Array.from({ length: count }, (_, place) => place + 1) : Array.from(names);
  if (found.length !== count) throw new RangeError(`${found.length} names for ${count} ${word}`);
  return found;
}

/**
 * The names of the members with these numbers. There may be more members, who have not bid.
 * @param {Iterable<any> | undefined} names
 * @param {number[]} who
 */
function bidders(names, who) {
  const found = names === undefined ? null : Array.from(names);
  const missing = found && who.find((number) => number > found.length);
  if (found && missing) throw new RangeError(`${found.length} names, and the text has a member ${missing}`);
  return who.map((number) => (found ? found[number - 1] : number));
}

/**
 * @param {Lines} lines
 * @param {Names} names
 * @returns {RentDivision}
 */
function rentIn(lines, names) {
  const values = lines.values.map((row) => row.map(whole));
  const members = named(names.members, values.length, 'members');
  const rooms = named(names.rooms, values.length, 'rooms');
  const own = lines.rooms[0].map((number) => whole(number) - 1);
  const prices = lines.prices[0].map(fractionIn);
  const shares = members.map((member, place) => ({
    member, room: rooms[own[place]], price: prices[own[place]], utility: less(values[place][own[place]], prices[own[place]]) }));
  return { kind: 'rent', total: whole(lines.rent[0][0]), rooms, values, shares };
}

/**
 * @param {Lines} lines
 * @param {Names} names
 * @returns {GoodsDivision}
 */
function goodsIn(lines, names) {
  const who = lines.who[0].map(whole);
  const values = lines.values.map((row) => row.map(whole));
  const members = bidders(names.members, who);
  const goods = named(names.goods, whole(lines.goods[0][0]), 'goods');
  const owners = lines.owners[0].map((number) => whole(number) - 1);
  const shares = members.map((member, player) => ({
    member,
    goods: goods.filter((_, good) => owners[good] === player),
    points: values[player].reduce((sum, points, good) => sum + (owners[good] === player ? points : 0), 0) }));
  return { kind: 'goods', limit: whole(lines.limit[0][0]), steps: whole(lines.steps[0][0]), who, goods, values, owners: owners.map((owner) => members[owner]), shares };
}

/**
 * @param {Lines} lines
 * @param {Names} names
 * @returns {FareDivision}
 */
function faresIn(lines, names) {
  const [who, at] = [lines.who[0].map(whole), lines.at[0].map(whole)];
  const legs = lines.legs.map((row) => row.map(whole));
  const flag = whole(lines.flag[0][0]);
  const members = bidders(names.members, who);
  const places = named(names.places, whole(lines.places[0][0]), 'places');
  const fares = lines.fares[0].map(fractionIn);
  const shares = members.map((member, rider) => ({ member, place: places[at[rider] - 1], fare: fares[rider], alone: flag + legs[0][at[rider] - 1] }));
  const route = lines.route[0].map((number) => members[whole(number) - 1]);
  return { kind: 'fares', flag, total: flag + whole(lines.set[lines.set.length - 1][1]), who, at, legs, places, route, shares };
}

/**
 * @param {Lines} lines
 * @param {Names} names
 * @returns {PairDivision}
 */
function pairIn(lines, names) {
  const members = bidders(names.members, lines.who[0].map(whole));
  const goods = named(names.goods, whole(lines.goods[0][0]), 'goods');
  const total = fractionIn(lines.total[0][0]);
  const parts = lines.shares[0].map(fractionIn);
  const shares = members.map((member, place) => ({ member, parts: place ? parts.map((part) => less(1, part)) : parts, points: total }));
  return { kind: 'pair', goods, values: lines.values.map((row) => row.map(whole)), total, shares };
}

/** @type {Record<string, [string, (lines: Lines, names: Names) => Division]>} */
const READERS = { rent: ['rooms', rentIn], goods: ['goods', goodsIn], fares: ['places', faresIn], pair: ['goods', pairIn] };

/**
 * The division that a text prints, whether or not it is the best one: of a certificate that a solver has written, or that a judge said yes to.
 * @param {string} text
 * @param {Names} [names]
 * @returns {Division}
 */
export function divisionIn(text, names = {}) {
  const lines = linesOf(text);
  const kind = lines.kind ? lines.kind[0][0] : 'pair';
  const [word, reader] = READERS[kind];
  const strange = Object.keys(names).find((name) => name !== 'members' && name !== word);
  if (strange) throw new RangeError(`${strange} names nothing in a text of ${kind}`);
  return reader(lines, names);
}

/**
 * The function that judges a text which begins so. Without the one for its kind, `check` refuses it by its first line.
 * @param {Judges} judges
 * @param {string} said
 */
function judgeOf(judges, said) {
  if (said.startsWith('fairsplit pair ')) return judges.checkWinner ?? judges.check;
  if (said.startsWith('fairsplit 2\n')) return judges.checkEstate ?? judges.check;
  return judges.check;
}

/**
 * What the proved judge says of a text, and the division if it says yes.
 * @param {Judges} judges
 * @param {import('./judge.js').Text} text
 * @param {Names} [names]
 * @returns {Promise<{ status: number, line: string, division?: Division }>}
 */
export async function read(judges, text, names = {}) {
  const said = typeof text === 'string' ? text : new TextDecoder().decode(text);
  const { status, line } = await judgeOf(judges, said)(text);
  return status === 0 ? { status, line, division: divisionIn(said, names) } : { status, line };
}

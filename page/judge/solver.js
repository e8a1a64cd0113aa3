// The proved solvers, as a WebAssembly module: numbers in, certificate out.
//
//     const solver = await loadSolver((name) => bytes of the file of that name);
//     await solver.rent(900, [[800, 100, 0], [700, 200, 0], [300, 300, 300]])   // { status: 0, text: 'fairsplit 1\nkind rent\n...' }
//     await solver.goods(100000, [1, 2], [[600, 400], [500, 500]])              // limit, the members who have bid, and their points
//     await solver.fares(300, [[1000, 1500], [0, 700], [900, 0]], [1, 2], [1, 2])   // flag, legs, the members who ride, and their places
//     await solver.rentCents(900, values)   // { status: 0, pays: [700, 100, 100] }, the whole cents of each member, which sum to the rent
//     await solver.faresCents(300, legs, who, at)   // the same by rider
//     await solver.rentRooms(900, values)   // the whole division in numbers: { status: 0, rooms, prices, pays }; and goodsOwners, faresRoute
//     solver.isLowered   // whether the module for a 32-bit memory answers, which was lowered by a tool that nobody proved
//
// With status 0 the text is the canonical certificate. Otherwise it is one line, with the status of the command line: 3 and the field that is
// refused, or 1 and the step limit. Amounts are whole cents. Rows are arrays or typed arrays. A number that 32 bits can't hold is a RangeError, and so is a
// row that is shorter or longer than the first. A search of many steps takes half a second, so a page calls this in a worker.
import { called, compiled, has64Bits } from './modules.js';
import { bytes, fitting, table } from './numbers.js';

// No certificate has more bytes, and no refusal.
const CERTIFICATE_ROOM = 4_000_000;
const LINE_ROOM = 1024;

/** @typedef {import('./numbers.js').Row} Row */

/**
 * A certificate with status 0, and otherwise a line: 3 and the field that is refused, or 1 and the step limit.
 * @typedef {{ status: number, text: string }} Solved
 */

/**
 * With status 0 what each pays in whole cents, and otherwise a line.
 * @typedef {{ status: number, pays?: number[], text?: string }} Paid
 */

/**
 * An exact amount of cents, in lowest terms.
 * @typedef {{ numerator: number, denominator: number }} Fraction
 */

/**
 * With status 0 the rooms by member, from 1, the prices by room, and what each member pays; otherwise a line.
 * @typedef {{ status: number, rooms?: number[], prices?: Fraction[], pays?: number[], text?: string }} RentInNumbers
 */

/**
 * With status 0 for each good the player who gets it, from 1, in the order of `who`; otherwise a line.
 * @typedef {{ status: number, owners?: number[], text?: string }} GoodsInNumbers
 */

/**
 * With status 0 the riders, from 1, in the order in which they get off, and by rider the fare and what they pay; otherwise a line.
 * @typedef {{ status: number, route?: number[], fares?: Fraction[], pays?: number[], text?: string }} FareInNumbers
 */

/**
 * @typedef {object} Solver
 * @property {boolean} isLowered whether the module for a 32-bit memory answers, which was lowered by a tool that nobody proved
 * @property {(rent: number, values: ArrayLike<Row>) => Promise<Solved>} rent what the members would pay for the rooms, member by member
 * @property {(rent: number, values: ArrayLike<Row>) => Promise<Paid>} rentCents what each member pays
 * @property {(limit: number, who: Row, values: ArrayLike<Row>) => Promise<Solved>} goods the step limit, the members who have bid, and their points
 * @property {(flag: number, legs: ArrayLike<Row>, who: Row, at: Row) => Promise<Solved>} fares the members who ride, and where they get off
 * @property {(flag: number, legs: ArrayLike<Row>, who: Row, at: Row) => Promise<Paid>} faresCents what each rider pays
 * @property {(rent: number, values: ArrayLike<Row>) => Promise<RentInNumbers>} rentRooms the whole division
 * @property {(limit: number, who: Row, values: ArrayLike<Row>) => Promise<GoodsInNumbers>} goodsOwners for each good its player
 * @property {(flag: number, legs: ArrayLike<Row>, who: Row, at: Row) => Promise<FareInNumbers>} faresRoute the whole division
 */

/**
 * The numbers and lists of a rent, as the module takes them.
 * @param {number} rent
 * @param {ArrayLike<Row>} values
 */
function rentCase(rent, values) {
  const { count, numbers } = table(values);
  return { numbers: [count, fitting(32, rent, 'the rent')], lists: [numbers], count };
}

/**
 * The same of goods.
 * @param {number} limit
 * @param {Row} who
 * @param {ArrayLike<Row>} values
 */
function goodsCase(limit, who, values) {
  const { width, numbers } = table(values);
  return { numbers: [width, fitting(32, limit, 'the limit')], lists: [bytes(who, 'the members'), numbers] };
}

/**
 * The same of a fare.
 * @param {number} flag
 * @param {ArrayLike<Row>} legs
 * @param {Row} who
 * @param {Row} at
 */
function fareCase(flag, legs, who, at) {
  const { width, numbers } = table(legs);
  return { numbers: [width, fitting(32, flag, 'the flag fall')], lists: [numbers, bytes(who, 'the members'), bytes(at, 'the places')], count: who.length };
}

/**
 * The solvers. `fileOf` gives the bytes of `solver64.wasm` or of `solver32.wasm`, whichever runs here.
 * @param {import('./modules.js').FileOf} fileOf
 * @returns {Promise<Solver>}
 */
export async function loadSolver(fileOf) {
  const module = await compiled('solver', fileOf);
  const solved = async (/** @type {string} */ name, /** @type {ReturnType<typeof goodsCase>} */ { numbers, lists }) => {
    const { status, text } = await called(module, name, numbers, lists, CERTIFICATE_ROOM);
    return { status, text };
  };
  const paid = async (/** @type {string} */ name, /** @type {ReturnType<typeof fareCase>} */ { numbers, lists, count }) => {
    const cents = new BigInt64Array(count);
    const { status, text, size } = await called(module, name, numbers, lists, LINE_ROOM, [cents]);
    return status === 0 ? { status, pays: Array.from(cents.subarray(0, size), Number) } : { status, text };
  };
  const shared = async (/** @type {string} */ name, /** @type {ReturnType<typeof fareCase>} */ { numbers, lists, count }) => {
    const [own, numerators, denominators, cents] = [new Uint8Array(count), new BigInt64Array(count), new BigUint64Array(count), new BigInt64Array(count)];
    const { status, text } = await called(module, name, numbers, lists, LINE_ROOM, [own, numerators, denominators, cents]);
    if (status !== 0) return { status, text };
    const exact = Array.from(numerators, (numerator, place) => ({ numerator: Number(numerator), denominator: Number(denominators[place]) }));
    return { status, own: Array.from(own), exact, pays: Array.from(cents, Number) };
  };
  return {
    isLowered: !has64Bits(),
    rent: async (rent, values) => solved('fair_rent', rentCase(rent, values)),
    rentCents: async (rent, values) => paid('fair_rent_cents', rentCase(rent, values)),
    goods: async (limit, who, values) => solved('fair_goods', goodsCase(limit, who, values)),
    fares: async (flag, legs, who, at) => solved('fair_fares', fareCase(flag, legs, who, at)),
    faresCents: async (flag, legs, who, at) => paid('fair_fares_cents', fareCase(flag, legs, who, at)),
    rentRooms: async (rent, values) => {
      const { own: rooms, exact: prices, ...others } = await shared('fair_rent_rooms', rentCase(rent, values));
      return others.status === 0 ? { rooms, prices, ...others } : others;
    },
    goodsOwners: async (limit, who, values) => {
      const { numbers, lists } = goodsCase(limit, who, values);
      const owners = new Uint8Array(numbers[0]);
      const { status, text } = await called(module, 'fair_goods_owners', numbers, lists, LINE_ROOM, [owners]);
      return status === 0 ? { status, owners: Array.from(owners) } : { status, text };
    },
    faresRoute: async (flag, legs, who, at) => {
      const { own: route, exact: fares, ...others } = await shared('fair_fares_route', fareCase(flag, legs, who, at));
      return others.status === 0 ? { route, fares, ...others } : others;
    },
  };
}

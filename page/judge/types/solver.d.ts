/**
 * The solvers. `fileOf` gives the bytes of `solver64.wasm` or of `solver32.wasm`, whichever runs here.
 * @param {import('./modules.js').FileOf} fileOf
 * @returns {Promise<Solver>}
 */
export function loadSolver(fileOf: import('./modules.js').FileOf): Promise<Solver>;
export type Row = import('./numbers.js').Row;
/**
 * A certificate with status 0, and otherwise a line: 3 and the field that is refused, or 1 and the step limit.
 */
export type Solved = {
    status: number;
    text: string;
};
/**
 * With status 0 what each pays in whole cents, and otherwise a line.
 */
export type Paid = {
    status: number;
    pays?: number[];
    text?: string;
};
/**
 * An exact amount of cents, in lowest terms.
 */
export type Fraction = {
    numerator: number;
    denominator: number;
};
/**
 * With status 0 the rooms by member, from 1, the prices by room, and what each member pays; otherwise a line.
 */
export type RentInNumbers = {
    status: number;
    rooms?: number[];
    prices?: Fraction[];
    pays?: number[];
    text?: string;
};
/**
 * With status 0 for each good the player who gets it, from 1, in the order of `who`; otherwise a line.
 */
export type GoodsInNumbers = {
    status: number;
    owners?: number[];
    text?: string;
};
/**
 * With status 0 the riders, from 1, in the order in which they get off, and by rider the fare and what they pay; otherwise a line.
 */
export type FareInNumbers = {
    status: number;
    route?: number[];
    fares?: Fraction[];
    pays?: number[];
    text?: string;
};
export type Solver = {
    /**
     * whether the module for a 32-bit memory answers, which was lowered by a tool that nobody proved
     */
    isLowered: boolean;
    /**
     * what the members would pay for the rooms, member by member
     */
    rent: (rent: number, values: ArrayLike<import("./numbers.js").Row>) => Promise<Solved>;
    /**
     * what each member pays
     */
    rentCents: (rent: number, values: ArrayLike<import("./numbers.js").Row>) => Promise<Paid>;
    /**
     * the step limit, the members who have bid, and their points
     */
    goods: (limit: number, who: import("./numbers.js").Row, values: ArrayLike<import("./numbers.js").Row>) => Promise<Solved>;
    /**
     * the members who ride, and where they get off
     */
    fares: (flag: number, legs: ArrayLike<import("./numbers.js").Row>, who: import("./numbers.js").Row, at: import("./numbers.js").Row) => Promise<Solved>;
    /**
     * what each rider pays
     */
    faresCents: (flag: number, legs: ArrayLike<import("./numbers.js").Row>, who: import("./numbers.js").Row, at: import("./numbers.js").Row) => Promise<Paid>;
    /**
     * the whole division
     */
    rentRooms: (rent: number, values: ArrayLike<import("./numbers.js").Row>) => Promise<RentInNumbers>;
    /**
     * for each good its player
     */
    goodsOwners: (limit: number, who: import("./numbers.js").Row, values: ArrayLike<import("./numbers.js").Row>) => Promise<GoodsInNumbers>;
    /**
     * the whole division
     */
    faresRoute: (flag: number, legs: ArrayLike<import("./numbers.js").Row>, who: import("./numbers.js").Row, at: import("./numbers.js").Row) => Promise<FareInNumbers>;
};

/**
 * The division that a text prints, whether or not it is the best one: of a certificate that a solver has written, or that a judge said yes to.
 * @param {string} text
 * @param {Names} [names]
 * @returns {Division}
 */
export function divisionIn(text: string, names?: Names | undefined): Division;
/**
 * What the proved judge says of a text, and the division if it says yes.
 * @param {Judges} judges
 * @param {import('./judge.js').Text} text
 * @param {Names} [names]
 * @returns {Promise<{ status: number, line: string, division?: Division }>}
 */
export function read(judges: Judges, text: import('./judge.js').Text, names?: Names | undefined): Promise<{
    status: number;
    line: string;
    division?: Division | undefined;
}>;
/**
 * An exact amount, in lowest terms.
 */
export type Fraction = {
    numerator: number;
    denominator: number;
};
/**
 * Names of yours, by position.
 */
export type Names = {
    members?: Iterable<any>;
    rooms?: Iterable<any>;
    goods?: Iterable<any>;
    places?: Iterable<any>;
};
export type RentDivision = {
    kind: 'rent';
    /**
     * the rent in cents
     */
    total: number;
    rooms: any[];
    /**
     * what each member would pay for each room
     */
    values: number[][];
    shares: {
        member: any;
        room: any;
        price: Fraction;
        utility: Fraction;
    }[];
};
export type GoodsDivision = {
    kind: 'goods';
    limit: number;
    steps: number;
    /**
     * the members who have bid, by number
     */
    who: number[];
    goods: any[];
    /**
     * their points
     */
    values: number[][];
    /**
     * for each good the member who gets it
     */
    owners: any[];
    shares: {
        member: any;
        goods: any[];
        points: number;
    }[];
};
export type FareDivision = {
    kind: 'fares';
    flag: number;
    /**
     * what the ride costs
     */
    total: number;
    /**
     * the members who ride, by number
     */
    who: number[];
    /**
     * where they get off, by number
     */
    at: number[];
    legs: number[][];
    places: any[];
    /**
     * the riders in the order in which they get off
     */
    route: any[];
    shares: {
        member: any;
        place: any;
        fare: Fraction;
        alone: number;
    }[];
};
export type PairDivision = {
    kind: 'pair';
    goods: any[];
    values: number[][];
    /**
     * the points that both have
     */
    total: Fraction;
    shares: {
        member: any;
        parts: Fraction[];
        points: Fraction;
    }[];
};
export type Division = RentDivision | GoodsDivision | FareDivision | PairDivision;
export type Lines = Record<string, string[][]>;
export type Judging = (text: import('./judge.js').Text) => Promise<import('./judge.js').Verdict>;
/**
 * What judges texts: that of `loadJudge`, a worker, or for estates only that of `loadEstates`.
 */
export type Judges = {
    check: Judging;
    checkWinner?: Judging;
    checkEstate?: Judging;
};

/**
 * The solver of estates and its judge. `fileOf` gives the bytes of `estate64.wasm` or of `estate32.wasm`, whichever runs here.
 * @param {import('./modules.js').FileOf} fileOf
 * @returns {Promise<Estates>}
 */
export function loadEstates(fileOf: import('./modules.js').FileOf): Promise<Estates>;
export type Row = import('./numbers.js').Row;
/**
 * Certificate and owners with status 0; a line with status 1, and the owners of the best division found; a line with status 3. `steps` is how many the search made.
 */
export type Divided = {
    status: number;
    text: string;
    owners?: number[];
    steps?: number;
};
/**
 * How far a search has come: how many steps it has made, and the owners of the best division found so far.
 */
export type Progress = {
    steps: number;
    owners: number[];
};
export type Estates = {
    /**
     * whether the module for a 32-bit memory answers, which was lowered by a tool that nobody proved
     */
    isLowered: boolean;
    /**
     *   the step limit, the members who have bid, and their points
     */
    divide: (limit: number, who: import("./numbers.js").Row, values: ArrayLike<import("./numbers.js").Row>, options?: {
        signal?: AbortSignal | undefined;
        progress?: ((progress: Progress) => void) | undefined;
    } | undefined) => Promise<Divided>;
    /**
     * judges a certificate of an estate
     */
    check: (text: import('./verdicts.js').Text) => Promise<import('./verdicts.js').Verdict>;
};

/** @typedef {import('./verdicts.js').Text} Text */
/** @typedef {import('./verdicts.js').Verdict} Verdict */
/**
 * @typedef {object} Judge
 * @property {boolean} isLowered whether the module for a 32-bit memory answers, which was lowered by a tool that nobody proved
 * @property {(text: Text) => Promise<Verdict>} check judges a certificate
 * @property {(text: Text) => Promise<Verdict>} checkWinner judges the text of adjusted winner
 * @property {(text: Text) => Promise<Verdict>} checkEstate judges the certificate of an estate
 */
/**
 * The judges. `fileOf` gives the bytes of `judge64.wasm` or of `judge32.wasm`, whichever runs here, and of `estate64.wasm` or `estate32.wasm` once an estate is judged.
 * @param {import('./modules.js').FileOf} fileOf
 * @returns {Promise<Judge>}
 */
export function loadJudge(fileOf: import('./modules.js').FileOf): Promise<Judge>;
export type Text = import('./verdicts.js').Text;
export type Verdict = import('./verdicts.js').Verdict;
export type Judge = {
    /**
     * whether the module for a 32-bit memory answers, which was lowered by a tool that nobody proved
     */
    isLowered: boolean;
    /**
     * judges a certificate
     */
    check: (text: Text) => Promise<Verdict>;
    /**
     * judges the text of adjusted winner
     */
    checkWinner: (text: Text) => Promise<Verdict>;
    /**
     * judges the certificate of an estate
     */
    checkEstate: (text: Text) => Promise<Verdict>;
};

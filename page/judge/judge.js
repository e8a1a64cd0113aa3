// The proved judges of certificates, as a WebAssembly module.
//
//     const judge = await loadJudge((name) => bytes of the file of that name);
//     await judge.check(text)         // { status: 0, line: 'yes' }
//     await judge.checkWinner(text)   // the same for the text of adjusted winner
//     await judge.checkEstate(text)   // the same for the certificate of an estate, by a module that the first such call loads
//     judge.isLowered                 // whether the module for a 32-bit memory answers, which was lowered by a tool that nobody proved
//
// Status and line are those of the commands `check` and `checkwinner`, and no command judges estates. A text is a string, or bytes in a Uint8Array or an ArrayBuffer. A long tree
// takes a tenth of a second, so a page calls this in a worker.
import { compiled, has64Bits } from './modules.js';
import { judged } from './verdicts.js';

/** @typedef {import('./verdicts.js').Text} Text */
/** @typedef {import('./verdicts.js').Verdict} Verdict */

/**
 * @typedef {object} Judge
 * @property {boolean} isLowered whether the module for a 32-bit memory answers, which was lowered by a tool that nobody proved
 * @property {(text: Text) => Promise<Verdict>} check judges a certificate
 * @property {(text: Text) => Promise<Verdict>} checkWinner judges the text of adjusted winner
 * @property {(text: Text) => Promise<Verdict>} checkEstate judges the certificate of an estate
 */

/**
 * The judges. `fileOf` gives the bytes of `judge64.wasm` or of `judge32.wasm`, whichever runs here, and of `estate64.wasm` or `estate32.wasm` once an estate is judged.
 * @param {import('./modules.js').FileOf} fileOf
 * @returns {Promise<Judge>}
 */
export async function loadJudge(fileOf) {
  const module = await compiled('judge', fileOf);
  /** @type {Promise<WebAssembly.Module> | undefined} */
  let estates;
  return {
    isLowered: !has64Bits(),
    check: (text) => judged(module, 'fair_check', text),
    checkWinner: (text) => judged(module, 'fair_checkwinner', text),
    checkEstate: async (text) => judged(await (estates ??= compiled('estate', fileOf)), 'fair_estate_check', text),
  };
}

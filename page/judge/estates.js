// The proved solver of estates and the judge of its certificates, as a WebAssembly module of their own: for more goods, or more members, than the solver of goods
// answers.
//
//     const estates = await loadEstates((name) => bytes of the file of that name);
//     await estates.divide(20000, [1, 2], [[600, 400], [500, 500]])   // { status: 0, text: 'fairsplit 2\nkind goods\n...', owners: [1, 2], steps: 2 }
//     await estates.divide(1000000, who, values, { signal, progress: ({ steps, owners }) => ... })
//     await estates.check(text)   // { status: 0, line: 'yes' }
//     await read(estates, text, { members: ['Ann', 'Ben'] })   // the same, and with a yes the division: read.js
//     estates.isLowered           // whether the module for a 32-bit memory answers, which was lowered by a tool that nobody proved
//
// The first argument is the most steps that the search may make each time it walks, which is once or twice, 1 to 1,000,000. With status 0 the owners are those of the best division, and the judge has said yes
// to the text, which shows it. With status 1 they are those of the best division found, and the text is a line that says why there is no certificate. With status 3
// it is a line with the field that is refused. `owners` has for each good the player who gets it, from 1, in the order of `who`.
//
// The search goes in slices of about 50 ms. Between them whatever else waits has its turn, `progress` is called, and a signal that was aborted ends the search.
import { compiled, has64Bits, laidOut } from './modules.js';
import { bytes, fitting, table } from './numbers.js';
import { judged } from './verdicts.js';

// What a search keeps: the tree of its certificate, and the prefixes that it remembers.
const SPACE = 16_000_000;
// No certificate has more bytes.
const CERTIFICATE_ROOM = 4_000_000;
// The status of a slice after which the search isn't over.
const GOES_ON = 10;
const FIRST_STEPS = 16;
const SLICE_MILLISECONDS = 50;

/** @typedef {import('./numbers.js').Row} Row */

/**
 * Certificate and owners with status 0; a line with status 1, and the owners of the best division found; a line with status 3. `steps` is how many the search made.
 * @typedef {{ status: number, text: string, owners?: number[], steps?: number }} Divided
 */

/**
 * How far a search has come: how many steps it has made, and the owners of the best division found so far.
 * @typedef {{ steps: number, owners: number[] }} Progress
 */

/**
 * @typedef {object} Estates
 * @property {boolean} isLowered whether the module for a 32-bit memory answers, which was lowered by a tool that nobody proved
 * @property {(limit: number, who: Row, values: ArrayLike<Row>, options?: { signal?: AbortSignal, progress?: (progress: Progress) => void }) => Promise<Divided>} divide
 *   the step limit, the members who have bid, and their points
 * @property {(text: import('./verdicts.js').Text) => Promise<import('./verdicts.js').Verdict>} check judges a certificate of an estate
 */

/** Lets whatever else waits have its turn. */
function turn() {
  return new Promise((done) => setTimeout(done));
}

/**
 * How many steps take about as long as a slice may, after one of so many steps that took this long.
 * @param {number} steps
 * @param {number} milliseconds
 */
function nextSteps(steps, milliseconds) {
  const fitting = Math.floor((steps * SLICE_MILLISECONDS) / Math.max(milliseconds, 1));
  return Math.max(1, Math.min(fitting, 4 * steps));
}

/**
 * Divides an estate.
 * @param {WebAssembly.Module} module
 * @param {number} limit
 * @param {Row} who
 * @param {ArrayLike<Row>} values
 * @param {{ signal?: AbortSignal, progress?: (progress: Progress) => void }} options
 * @returns {Promise<Divided>}
 */
async function divided(module, limit, who, values, { signal, progress }) {
  const { width, numbers } = table(values);
  const owners = new Uint8Array(width);
  const most = fitting(32, limit, 'the limit');
  const call = await laidOut(module, { lists: [bytes(who, 'the members'), numbers], lent: SPACE, filled: [owners], counts: true, room: CERTIFICATE_ROOM });
  for (let steps = FIRST_STEPS; ;) {
    signal?.throwIfAborted();
    const began = performance.now();
    const { status, text, count } = call('fair_estate', [width, most, steps]);
    if (status === 3) return { status, text };
    const found = { steps: count, owners: Array.from(owners) };
    if (status !== GOES_ON) return { status, text, ...found };
    progress?.(found);
    steps = nextSteps(steps, performance.now() - began);
    await turn();
  }
}

/**
 * The solver of estates and its judge. `fileOf` gives the bytes of `estate64.wasm` or of `estate32.wasm`, whichever runs here.
 * @param {import('./modules.js').FileOf} fileOf
 * @returns {Promise<Estates>}
 */
export async function loadEstates(fileOf) {
  const module = await compiled('estate', fileOf);
  return {
    isLowered: !has64Bits(),
    divide: (limit, who, values, options = {}) => divided(module, limit, who, values, options),
    check: (text) => judged(module, 'fair_estate_check', text),
  };
}

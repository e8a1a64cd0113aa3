// How a judge of a module is asked about a text.
import { called } from './modules.js';

const LINE_ROOM = 1024;
// One byte more than a certificate may have: what comes after it never changes the verdict.
const MOST_BYTES = 4_000_001;

/**
 * A text to judge.
 * @typedef {string | Uint8Array | ArrayBuffer} Text
 */

/**
 * Status and line of the command: 0 and `yes`, 1 and `no RULE`, or 3 and `refused: ...`.
 * @typedef {{ status: number, line: string }} Verdict
 */

/**
 * The bytes of a text, no more of them than change the verdict.
 * @param {Text} text
 */
function bytesOf(text) {
  // By name, since bytes may come from another frame.
  const kind = Object.prototype.toString.call(text).slice(8, -1);
  if (typeof text === 'string') return new TextEncoder().encode(text).subarray(0, MOST_BYTES);
  if (kind !== 'Uint8Array' && kind !== 'ArrayBuffer') throw new TypeError('a text is a string, a Uint8Array or an ArrayBuffer');
  return (kind === 'Uint8Array' ? /** @type {Uint8Array} */ (text) : new Uint8Array(/** @type {ArrayBuffer} */ (text))).subarray(0, MOST_BYTES);
}

/**
 * The verdict of a judge on a text.
 * @param {WebAssembly.Module} module
 * @param {string} name the function of the module
 * @param {Text} text
 * @returns {Promise<Verdict>}
 */
export async function judged(module, name, text) {
  const { status, text: line } = await called(module, name, [], [bytesOf(text)], LINE_ROOM);
  return { status, line: line.trimEnd() };
}

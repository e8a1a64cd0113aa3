// What the loaders of the proved modules share: which module runs in this browser, and how a function of it is called.

const PAGE_BYTES = 65_536;
const APART = 16; // lists begin at multiples of this, as the types of their numbers want
// A module with a 64-bit memory of one page, and nothing else.
const WITH_64_BITS = new Uint8Array([0, 97, 115, 109, 1, 0, 0, 0, 5, 3, 1, 4, 1]);

/** Whether modules with a 64-bit memory run here. */
export function has64Bits() {
  return WebAssembly.validate(WITH_64_BITS);
}

/**
 * Gives the bytes of the file of this name.
 * @typedef {(name: string) => Promise<BufferSource> | BufferSource} FileOf
 */

/**
 * The module of this name for the memory that this browser has.
 * @param {string} name
 * @param {FileOf} fileOf
 */
export async function compiled(name, fileOf) {
  return WebAssembly.compile(await fileOf(`${name}${has64Bits() ? '64' : '32'}.wasm`));
}

/**
 * Lets the memory have all bytes below this address.
 * @param {WebAssembly.Memory} memory
 * @param {number} end
 */
function reserve(memory, end) {
  const missing = end - memory.buffer.byteLength;
  if (missing <= 0) return;
  const pages = Math.ceil(missing / PAGE_BYTES);
  try {
    memory.grow(/** @type {any} */ (BigInt(pages)));
  } catch (error) {
    if (!(error instanceof TypeError)) throw error;
    memory.grow(pages); // a 32-bit memory, and the 64-bit one of older engines, take a number
  }
}

/**
 * The next address at which a list may begin.
 * @param {number} address
 */
function aligned(address) {
  return Math.ceil(address / APART) * APART;
}

/**
 * An instance of a module with lists laid out in its memory, so that its functions can be called on them: lists that are read, lists that are filled, so many bytes of
 * memory that is lent, whether a number is counted up, and a buffer with this room for a text. Memory from the heap's base on is the caller's, because no module
 * has an allocator.
 * @param {WebAssembly.Module} module
 * @param {{ lists: (Uint8Array | Uint32Array)[], lent?: number, filled?: (Uint8Array | BigInt64Array | BigUint64Array)[], counts?: boolean, room: number }} layout
 */
export async function laidOut(module, { lists, lent = 0, filled = [], counts = false, room }) {
  const exports = /** @type {any} */ ((await WebAssembly.instantiate(module, {})).exports);
  const sizeAt = aligned(Number(exports.__heap_base.value));
  const countAt = sizeAt + APART;
  const textAt = countAt + APART;
  /** @type {bigint[]} */
  const words = [];
  let end = aligned(textAt + room);
  const put = (/** @type {number} */ length, /** @type {number} */ bytes) => {
    const at = end;
    words.push(BigInt(at), BigInt(length));
    end = aligned(at + bytes);
    reserve(exports.memory, end);
    return at;
  };
  const bytesAt = (/** @type {number} */ at, /** @type {number} */ length) => new Uint8Array(exports.memory.buffer, at, length);
  for (const list of lists) {
    const at = put(list.length, list.byteLength);
    bytesAt(at, list.byteLength).set(new Uint8Array(list.buffer, list.byteOffset, list.byteLength));
  }
  if (lent > 0) put(lent, lent);
  const places = filled.map((list) => put(list.length, list.byteLength));
  if (counts) words.push(BigInt(countAt));
  return (/** @type {string} */ name, /** @type {number[]} */ numbers) => {
    const status = exports[name](...numbers, ...words, BigInt(textAt), BigInt(room), BigInt(sizeAt));
    filled.forEach((list, place) => new Uint8Array(list.buffer).set(bytesAt(places[place], list.byteLength)));
    const cells = new DataView(exports.memory.buffer);
    const size = Number(cells.getBigUint64(sizeAt, true));
    const text = new TextDecoder().decode(bytesAt(textAt, Math.min(size, room)));
    return { status, text, size, count: cells.getUint32(countAt, true) };
  };
}

/**
 * Calls a function of a module in an instance of its own, so that nothing of one call can reach another: with these numbers, these lists, lists
 * that it fills, and a buffer with this room. The answer has the status, the text, and how many amounts or bytes the function says that there are.
 * @param {WebAssembly.Module} module
 * @param {string} name
 * @param {number[]} numbers
 * @param {(Uint8Array | Uint32Array)[]} lists
 * @param {number} room
 * @param {(Uint8Array | BigInt64Array | BigUint64Array)[]} [filled]
 */
export async function called(module, name, numbers, lists, room, filled = []) {
  const call = await laidOut(module, { lists, filled, room });
  const { status, text, size } = call(name, numbers);
  return { status, text, size };
}

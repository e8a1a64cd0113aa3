// Numbers as the modules take them: rows of arrays or typed arrays, each number tested, because a module would change one that doesn't fit.

/**
 * A row of whole numbers.
 * @typedef {ArrayLike<number>} Row
 */

/**
 * The entries of an array or a typed array, holes among them.
 * @template Entry
 * @param {ArrayLike<Entry>} list
 * @param {string} what
 * @returns {Entry[]}
 */
function entries(list, what) {
  if (!Array.isArray(list) && !(ArrayBuffer.isView(list) && 'length' in list)) throw new TypeError(`${what}: this is no array`);
  return Array.from(list);
}

/**
 * A number that this many bits can hold. Another one would be changed silently, so it is refused, by its place.
 * @param {number} bits
 * @param {number} number
 * @param {string} what
 */
export function fitting(bits, number, what) {
  const most = 2 ** bits - 1;
  if (Number.isInteger(number) && number >= 0 && number <= most) return number;
  throw new RangeError(`${what}: ${String(number)} is no whole number from 0 to ${most}`);
}

/**
 * The numbers, each of which this many bits can hold.
 * @param {number} bits
 * @param {Row} numbers
 * @param {string} what
 */
function held(bits, numbers, what) {
  return entries(numbers, what).map((number, place) => fitting(bits, number, `${what}, number ${place + 1}`));
}

/**
 * Numbers of members or of places.
 * @param {Row} numbers
 * @param {string} what
 */
export function bytes(numbers, what) {
  return Uint8Array.from(held(8, numbers, what));
}

/**
 * How many rows there are, how long each is, and the numbers of all of them. If a row is shorter, numbers would slide into it from the next one, so
 * that is refused.
 * @param {ArrayLike<Row>} rows
 */
export function table(rows) {
  const lists = entries(rows, 'the rows').map((row, place) => held(32, row, `row ${place + 1}`));
  const width = lists[0]?.length ?? 0;
  const other = lists.findIndex((list) => list.length !== width);
  if (other > 0) throw new RangeError(`row ${other + 1} has ${lists[other].length} numbers, and row 1 has ${width}`);
  return { count: lists.length, width, numbers: Uint32Array.from(lists.flat()) };
}

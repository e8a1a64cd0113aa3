/**
 * A number that this many bits can hold. Another one would be changed silently, so it is refused, by its place.
 * @param {number} bits
 * @param {number} number
 * @param {string} what
 */
export function fitting(bits: number, number: number, what: string): number;
/**
 * Numbers of members or of places.
 * @param {Row} numbers
 * @param {string} what
 */
export function bytes(numbers: Row, what: string): Uint8Array;
/**
 * How many rows there are, how long each is, and the numbers of all of them. If a row is shorter, numbers would slide into it from the next one, so
 * that is refused.
 * @param {ArrayLike<Row>} rows
 */
export function table(rows: ArrayLike<Row>): {
    count: number;
    width: number;
    numbers: Uint32Array;
};
/**
 * A row of whole numbers.
 */
export type Row = ArrayLike<number>;

/** Whether modules with a 64-bit memory run here. */
export function has64Bits(): boolean;
/**
 * Gives the bytes of the file of this name.
 * @typedef {(name: string) => Promise<BufferSource> | BufferSource} FileOf
 */
/**
 * The module of this name for the memory that this browser has.
 * @param {string} name
 * @param {FileOf} fileOf
 */
export function compiled(name: string, fileOf: FileOf): Promise<WebAssembly.Module>;
/**
 * An instance of a module with lists laid out in its memory, so that its functions can be called on them: lists that are read, lists that are filled, so many bytes of
 * memory that is lent, whether a number is counted up, and a buffer with this room for a text. Memory from the heap's base on is the caller's, because no module
 * has an allocator.
 * @param {WebAssembly.Module} module
 * @param {{ lists: (Uint8Array | Uint32Array)[], lent?: number, filled?: (Uint8Array | BigInt64Array | BigUint64Array)[], counts?: boolean, room: number }} layout
 */
export function laidOut(module: WebAssembly.Module, { lists, lent, filled, counts, room }: {
    lists: (Uint8Array | Uint32Array)[];
    lent?: number;
    filled?: (Uint8Array | BigInt64Array | BigUint64Array)[];
    counts?: boolean;
    room: number;
}): Promise<(name: string, numbers: number[]) => {
    status: any;
    text: string;
    size: number;
    count: number;
}>;
/**
 * Calls a function of a module in an instance of its own, so that nothing of one call can reach another: with these numbers, these lists, lists
 * that it fills, and a buffer with this room. The answer has the status, the text, and how many amounts or bytes the function says that there are.
 * @param {WebAssembly.Module} module
 * @param {string} name
 * @param {number[]} numbers
 * @param {(Uint8Array | Uint32Array)[]} lists
 * @param {number} room
 * @param {(Uint8Array | BigInt64Array | BigUint64Array)[]} [filled]
 */
export function called(module: WebAssembly.Module, name: string, numbers: number[], lists: (Uint8Array | Uint32Array)[], room: number, filled?: (Uint8Array | BigInt64Array | BigUint64Array)[] | undefined): Promise<{
    status: any;
    text: string;
    size: number;
}>;
/**
 * Gives the bytes of the file of this name.
 */
export type FileOf = (name: string) => Promise<BufferSource> | BufferSource;

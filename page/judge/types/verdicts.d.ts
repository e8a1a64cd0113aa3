/**
 * The verdict of a judge on a text.
 * @param {WebAssembly.Module} module
 * @param {string} name the function of the module
 * @param {Text} text
 * @returns {Promise<Verdict>}
 */
export function judged(module: WebAssembly.Module, name: string, text: Text): Promise<Verdict>;
/**
 * A text to judge.
 */
export type Text = string | Uint8Array | ArrayBuffer;
/**
 * Status and line of the command: 0 and `yes`, 1 and `no RULE`, or 3 and `refused: ...`.
 */
export type Verdict = {
    status: number;
    line: string;
};

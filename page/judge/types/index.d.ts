/**
 * What gives the files of a folder.
 * @param {string | URL} folder
 * @returns {import('./modules.js').FileOf}
 */
export function filesAt(folder: string | URL): import('./modules.js').FileOf;
/**
 * The judges, from the folder at a URL, which ends with a slash. Without one they are those of this package.
 * @param {string | URL} [folder]
 */
export function loadJudge(folder?: string | URL | undefined): Promise<import("./judge.js").Judge>;
/**
 * The solvers, from such a folder.
 * @param {string | URL} [folder]
 */
export function loadSolver(folder?: string | URL | undefined): Promise<import("./solver.js").Solver>;
/**
 * The solver of estates and its judge, from such a folder.
 * @param {string | URL} [folder]
 */
export function loadEstates(folder?: string | URL | undefined): Promise<import("./estates.js").Estates>;
export { startWorker } from "./in_worker.js";
export { divisionIn, read } from "./read.js";

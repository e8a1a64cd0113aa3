// The package `fairsplit`: the proved judges and solvers for Node, browsers and bundlers, with the files of the modules beside this one.
//
//     import { loadSolver, loadJudge, read } from 'fairsplit';
//     const solver = await loadSolver();
//     const { text } = await solver.rent(900, [[600, 300], [500, 400]]);
//     const { division } = await read(await loadJudge(), text, { members: ['Ann', 'Ben'] });
import { loadEstates as estatesFrom } from './estates.js';
import { loadJudge as judgeFrom } from './judge.js';
import { loadSolver as solverFrom } from './solver.js';

export { divisionIn, read } from './read.js';
export { startWorker } from './in_worker.js';

const HERE = new URL('./', import.meta.url);

/**
 * The bytes of a file: from the disk in Node, and otherwise by fetch.
 * @param {URL} url
 * @returns {Promise<BufferSource>}
 */
async function bytesAt(url) {
  if (url.protocol === 'file:') {
    // @ts-ignore: the types of Node may be missing
    const { readFile } = await import('node:fs/promises');
    return readFile(url);
  }
  const reply = await fetch(url);
  if (!reply.ok) throw new Error(`${url} answers ${reply.status}`);
  return reply.arrayBuffer();
}

/**
 * What gives the files of a folder.
 * @param {string | URL} folder
 * @returns {import('./modules.js').FileOf}
 */
export function filesAt(folder) {
  return (name) => bytesAt(new URL(name, folder));
}

/**
 * The judges, from the folder at a URL, which ends with a slash. Without one they are those of this package.
 * @param {string | URL} [folder]
 */
export function loadJudge(folder = HERE) {
  return judgeFrom(filesAt(folder));
}

/**
 * The solvers, from such a folder.
 * @param {string | URL} [folder]
 */
export function loadSolver(folder = HERE) {
  return solverFrom(filesAt(folder));
}

/**
 * The solver of estates and its judge, from such a folder.
 * @param {string | URL} [folder]
 */
export function loadEstates(folder = HERE) {
  return estatesFrom(filesAt(folder));
}

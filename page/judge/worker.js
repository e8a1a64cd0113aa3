// What runs in the worker of in_worker.js: it calls a function of the judges or the solvers for each message, and answers with what that gives.
import { loadEstates, loadJudge, loadSolver } from './index.js';

/** @type {Promise<any[]> | undefined} */
let loaded;
/** @type {Promise<any> | undefined} */
let estates;

/**
 * The judges and solvers by the names of their functions. Those of estates are loaded when one of them is called first.
 * @param {string} name
 * @param {string} [folder]
 */
async function functionOf(name, folder) {
  if (name === 'estate' || name === 'checkEstate') {
    estates ??= loadEstates(folder);
    const { check, divide } = await estates;
    return name === 'estate' ? divide : check;
  }
  loaded ??= Promise.all([loadJudge(folder), loadSolver(folder)]);
  const [judge, solver] = await loaded;
  return judge[name] ?? solver[name];
}

/**
 * The answer to a message: what a function gives, or the error that it ends with.
 * @param {{ name: string, words: any[], folder?: string }} asked
 */
async function answered({ name, words, folder }) {
  try {
    const progress = (/** @type {object} */ reached) => port.postMessage({ progress: reached });
    const given = name === 'estate' ? [...words.slice(0, 3), { progress }] : words;
    return { value: await (await functionOf(name, folder))(...given) };
  } catch (error) {
    return { error };
  }
}

const inNode = typeof self === 'undefined';
// @ts-ignore: the types of Node may be missing
const port = inNode ? (await import('node:worker_threads')).parentPort : self;
const listen = (/** @type {(asked: any) => void} */ call) => (inNode ? port.on('message', call) : port.addEventListener('message', (/** @type {MessageEvent} */ { data }) => call(data)));
listen(async (asked) => port.postMessage(await answered(asked)));

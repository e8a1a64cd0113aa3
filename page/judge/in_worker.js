// The judges and solvers in a worker, so that a long search doesn't stop the page or the server, and can be stopped itself.
//
//     const worker = startWorker();
//     await worker.goods(100000, [1, 2], [[600, 400], [500, 500]], { signal: AbortSignal.timeout(1000) });
//     const { text } = await worker.estate(20000, who, values, { signal, progress: ({ steps, owners }) => ... });
//     const { line, division } = await read(worker, text);   // judged in the worker, and read here
//     worker.end();
//
// One call runs at a time, and the others wait. If a signal aborts the call that runs, its worker is ended, and the next call gets a new one.

const NAMES = /** @type {const} */ (['check', 'checkWinner', 'rent', 'rentCents', 'goods', 'fares', 'faresCents', 'rentRooms', 'goodsOwners', 'faresRoute', 'estate', 'checkEstate']);

/**
 * A call takes what the function of that name takes, and then perhaps a signal and, of `estate`, what is called with its progress.
 * @typedef {(...words: any[]) => Promise<any>} Call
 */

/** @returns {Promise<any>} a worker of this platform, with the events of browsers */
async function newWorker() {
  const url = new URL('./worker.js', import.meta.url);
  if (typeof Worker !== 'undefined') return new Worker(url, { type: 'module' });
  // @ts-ignore: the types of Node may be missing
  const { Worker: NodeWorker } = await import('node:worker_threads');
  const worker = new NodeWorker(url);
  worker.on('message', (/** @type {any} */ data) => worker.onmessage?.({ data }));
  worker.on('error', (/** @type {any} */ error) => worker.onerror?.(error));
  return worker;
}

/**
 * Asks a worker once.
 * @param {any} worker
 * @param {object} asked
 * @param {{ signal?: AbortSignal, progress?: (progress: any) => void }} options
 */
function answerOf(worker, asked, { signal, progress }) {
  return new Promise((done, fail) => {
    signal?.addEventListener('abort', () => fail(signal.reason), { once: true });
    worker.onmessage = (/** @type {MessageEvent} */ { data }) => {
      if ('progress' in data) progress?.(data.progress);
      else if ('error' in data) fail(data.error);
      else done(data.value);
    };
    worker.onerror = (/** @type {any} */ event) => fail(event.error ?? event);
    worker.postMessage(asked);
  });
}

/**
 * The judges and solvers in a worker. `folder` is the URL of the folder with the modules, if they are not beside this file.
 * @param {string | URL} [folder]
 * @returns {Record<typeof NAMES[number], Call> & { end: () => void }}
 */
export function startWorker(folder) {
  /** @type {any} */
  let worker;
  let before = Promise.resolve();
  const end = () => {
    worker?.terminate();
    worker = undefined;
  };
  const call = async (/** @type {string} */ name, /** @type {any[]} */ words, /** @type {{ signal?: AbortSignal, progress?: (progress: any) => void }} */ options) => {
    const { signal } = options;
    signal?.throwIfAborted();
    worker ??= await newWorker();
    try {
      return await answerOf(worker, { name, words, folder: folder && String(folder) }, options);
    } catch (error) {
      if (signal?.aborted) end();
      throw error;
    }
  };
  const calls = NAMES.map((name) => [name, (/** @type {any[]} */ ...words) => {
    const last = words[words.length - 1];
    const options = last && typeof last === 'object' && ('signal' in last || 'progress' in last) ? words.pop() : {};
    const answer = before.then(() => call(name, words, options));
    before = answer.then(() => {}, () => {});
    return answer;
  }]);
  return { ...Object.fromEntries(calls), end };
}

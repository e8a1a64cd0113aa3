// Checks a certificate twice beside the page: by the proved judge, whose verdict comes at once, and by the page's own
// script.
import { startWorker } from './carried.js';
import { moduleOf } from './module_of.js';
import { isEstate } from './check.js';
import { linesOf, together } from './verdict.js';

/** The module of the proved judge of a certificate; null where none runs, or it doesn't come. */
const judgeModule = (certificate) => moduleOf(isEstate(certificate) ? 'estate' : 'judge').catch(() => null);

/** The task in a worker. */
function inWorker(task, heard) {
  const worker = startWorker('judge');
  return new Promise((done, fail) => {
    worker.onmessage = ({ data }) => { if (data) heard(data); else done(); };
    worker.onerror = () => fail(new Error('the worker failed'));
    worker.postMessage(task);
  }).finally(() => worker.terminate());
}

/** The task in small pieces, so that the page goes on meanwhile. */
async function onPage(task, heard) {
  const { judgeTask } = await import('./judge_task.js');
  const pause = () => new Promise((go) => { setTimeout(go); });
  for await (const step of judgeTask(task, pause)) heard(step);
}

/** The task in a worker; on the page, where no worker starts. What is heard twice says the same. */
async function work(task, heard) {
  try { await inWorker(task, heard); } catch { await onPage(task, heard); }
}

/** Starts both checks. `first` is the verdict as soon as there is one, and `last` that of both. `progress` hears how
    much of a long tree the second check has read. */
export function judge(certificate, progress = () => {}) {
  const known = {};
  const lines = linesOf(certificate);
  let tell;
  const first = new Promise((done) => { tell = done; });
  const heard = ({ branches, ...step }) => {
    Object.assign(known, step);
    if (step.proved) tell(together(lines, known));
    if (branches) progress(branches);
  };
  const module = judgeModule(certificate);
  const last = module.then((found) => work({ certificate, module: found }, heard)).catch(() => {}).then(() => {
    const all = together(lines, { ...known, isOver: true });
    tell(all);
    return all;
  });
  return { first, last };
}

// The worker that divides cases, one after the other.
import { solveTask } from './solve_task.js';

globalThis.onmessage = async ({ data }) => {
  const tell = (progress) => postMessage({ progress });
  try { postMessage(await solveTask(data, tell)); } catch { postMessage({ status: null }); }
};

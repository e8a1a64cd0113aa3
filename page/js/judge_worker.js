// The worker that checks one certificate. Its last message is null.
import { judgeTask } from './judge_task.js';

globalThis.onmessage = async ({ data }) => {
  for await (const step of judgeTask(data)) postMessage(step);
  postMessage(null);
};

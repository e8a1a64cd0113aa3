// What the page loads beside its scripts: workers, and the files of the proved modules. A single file carries them
// along, and has carried_alone.js in the place of this.
const WORKERS = { judge: 'js/judge_worker.js', solve: 'js/solve_worker.js' };

/** The only addresses that a worker can have. */
const policy = globalThis.trustedTypes?.createPolicy('fairsplit-workers', { createScriptURL: (name) => WORKERS[name] });

/** Starts the worker of this name. */
export const startWorker = (name) => (
  new Worker(policy ? policy.createScriptURL(name) : WORKERS[name], { type: 'module' }));

/** The bytes of a file in judge/. */
export async function fileOf(name) {
  const reply = await fetch(`judge/${name}`);
  if (!reply.ok) throw new Error(`${name} did not come`);
  return new Uint8Array(await reply.arrayBuffer());
}

// Divides a case of numbers by a proved solver, and lets the proved judge read the certificate: only one to which it
// says yes is to be shown.
import { loadEstates } from '../judge/estates.js';
import { loadJudge } from '../judge/judge.js';
import { loadSolver } from '../judge/solver.js';

let loaded = null; // one worker divides many cases

const load = (modules) => (loaded ??= Promise.all([
  loadSolver(async () => modules.solver), loadJudge(async () => modules.judge)]));

/** The search for items that goes on where the specified one stops: the same as below, with the `owners` of the best
    division found, by item, as they stand in the order of the people. */
async function searched(module, numbers, progress) {
  const estates = await loadEstates(async () => module);
  const { status, text, owners } = await estates.divide(...numbers, { progress });
  const { line } = status === 0 ? await estates.check(text) : {};
  return { status, text, owners, says: line, isLowered: estates.isLowered };
}

/** { status, text, says }: the status and the text of `fairsplit solve`, and the line of `fairsplit check` on that
    text. `progress` hears how far a long search is. */
export async function solveTask({ estate, modules, kind, numbers }, progress) {
  if (estate) return searched(estate, numbers, progress);
  const [solver, judge] = await load(modules);
  const { status, text } = await solver[kind](...numbers);
  if (status !== 0) return { status, text: text.trimEnd() };
  const { line } = await judge.check(text);
  return { status, text, says: line, isLowered: judge.isLowered };
}

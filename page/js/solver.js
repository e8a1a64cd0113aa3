// Divides by the proved modules, in a worker that can be stopped. `numbersOf` says of a case what the solver wants to
// know.
import { startWorker } from './carried.js';
import { moduleOf } from './module_of.js';

/** What the solver of a kind is called with. `bids` has null for a member who takes no part. */
const NUMBERS = {
  rent: ({ rent, bids }) => [rent, bids],
  goods: ({ limit, bids, who }) => [limit, who, who.map((member) => bids[member - 1])],
  fares: ({ flag, legs, bids, who }) => [flag, legs, who, who.map((member) => bids[member - 1])],
};

/** The numbers of a case, for the solver of its kind. */
export function numbersOf(made) {
  const who = made.bids.flatMap((bid, i) => (bid === null ? [] : [i + 1]));
  return NUMBERS[made.kind]({ ...made, who });
}

let modules = null;

/** The bytes of both modules. They are asked for once. */
function moduleBytes() {
  modules ??= Promise.all([moduleOf('solver'), moduleOf('judge')])
    .then(([solver, judge]) => ({ solver, judge })).catch((fault) => { modules = null; throw fault; });
  return modules;
}

let estate = null;

/** The bytes of the module that searches on for items. They are asked for once. */
function estateBytes() {
  estate ??= moduleOf('estate').catch((fault) => { estate = null; throw fault; });
  return estate;
}

/** A worker that divides one case after the other. */
export class Solver {
  /** What comes of a case: { status, text, says }; with the status null where the modules don't run here. */
  async solve(made) {
    try {
      return await this.ask({ modules: await moduleBytes(), kind: made.kind, numbers: numbersOf(made) });
    } catch {
      this.stop();
      return { status: null };
    }
  }

  /** The same of items by the search that goes on where the specified one stops, with the `owners` of the best division
      that it found. `progress` hears { steps, owners } now and then. */
  async search(made, progress) {
    try {
      return await this.ask({ estate: await estateBytes(), numbers: numbersOf(made) }, progress);
    } catch {
      this.stop();
      return { status: null };
    }
  }

  ask(task, progress) {
    this.worker ??= startWorker('solve');
    return new Promise((done, fail) => {
      this.fail = fail;
      this.worker.onmessage = ({ data }) => { if (data.progress) progress(data.progress); else done(data); };
      this.worker.onerror = fail;
      this.worker.postMessage(task);
    });
  }

  /** Ends the work; what is asked afterwards starts anew. */
  stop() {
    this.worker?.terminate();
    this.worker = null;
    this.fail?.(new Error('stopped'));
  }
}

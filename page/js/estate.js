// The search for the best division of items that goes on where the specified one stops: how far it is, a button that
// stops it, and the best division that it found until then.
import { action, h, p } from './dom.js';
import { number, t, text } from './language.js';
import { LIMITS } from './rules.js';
import { Solver } from './solver.js';

const FIRST = 20_000; // steps, within which nearly all lists of items have an answer
const MORE = 10; // times as many, where somebody searches on

export class Estate {
  /** `made` is a case of items. */
  constructor(made) {
    Object.assign(this, { made, limit: FIRST, owners: null, isStopped: false, solver: new Solver() });
    this.bar = h('progress', { 'aria-label': text('divide.working') });
    this.says = h('p', { class: 'hint' });
  }

  /** What stands there while it searches. */
  get parts() {
    return [this.bar, this.says, h('p', { class: 'row' }, action({ click: () => this.stop() }, t('divide.stop')))];
  }

  stop() {
    this.isStopped = true;
    this.solver.stop();
  }

  /** The answer: { status, text, says }, as the solver gives it; the best division found stands in `owners`. */
  async search() {
    const { made, limit, bar } = this;
    this.isStopped = false;
    Object.assign(bar, { max: limit, value: 0 });
    const answer = await this.solver.search({ ...made, limit }, ({ steps, owners }) => {
      bar.value = steps;
      this.says.textContent = text('estate.steps', { n: number(steps) });
      this.owners = owners ?? this.owners;
    });
    this.owners = answer.owners ?? this.owners;
    this.hasRoom = answer.status === null || /^step/.test(answer.text);
    return answer;
  }

  /** Whether a longer search can find more. */
  get canGoOn() { return this.hasRoom && (this.isStopped || this.limit < LIMITS.estateSteps); }

  /** The same search, with more steps where it ended by itself. */
  more() {
    if (!this.isStopped) this.limit = Math.min(LIMITS.estateSteps, this.limit * MORE);
    return this.search();
  }
}

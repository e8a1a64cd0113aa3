// "Try it", on the start page: three invented people divide something. One moves what it is worth to one of them, and
// sees the division change. The proved solver divides, and only what the proved judge says yes to is shown.
import { action, fill, h, name, p } from './dom.js';
import { bar, colour, who } from './draw.js';
import { learnMore, locale, t, text } from './language.js';
import { money, setCurrency } from './money.js';
import { currencyOf } from './currencies.js';
import { LIMITS, scale } from './rules.js';
import { read } from './check.js';
import { linesOf } from './poster.js';
import { Solver } from './solver.js';

const STEP = 50; // points by which a slider moves

/** The invented cases. Names need no translation, but those of things are in the words. */
const CASES = {
  rent: { members: ['Ada', 'Ben', 'Cleo'], rent: 150_000, step: 2500,
    bids: [[80_000, 45_000, 25_000], [65_000, 50_000, 35_000], [50_000, 50_000, 50_000]] },
  goods: { members: ['Ada', 'Ben', 'Cleo'], limit: LIMITS.steps, step: STEP,
    bids: [[500, 250, 150, 100], [400, 300, 200, 100], [300, 150, 350, 200]] },
  fares: { members: ['Ada', 'Ben', 'Cleo'], flag: 400, step: 0,
    legs: [[900, 1400, 2300], [0, 700, 1600], [700, 0, 1100], [1600, 1100, 0]], bids: [1, 2, 3] },
};

class Demo {
  constructor(root) {
    Object.assign(this, { root, solver: new Solver(), isBusy: false, isStale: false });
    this.out = h('div', { id: 'demo-result', 'aria-live': 'polite' });
    this.fields = h('div', {});
    this.pick('rent', 0);
  }

  get things() { return text(`demo.${this.kind}Things`).split(', '); }
  get whole() { return this.kind === 'rent' ? this.made.rent : LIMITS.points; }
  shown(value) { return this.kind === 'rent' ? money(value) : text('points', { n: value }); }

  /** Another kind begins anew. */
  pick(kind, member) {
    if (kind !== this.kind) this.made = { kind, ...structuredClone(CASES[kind]) };
    Object.assign(this, { kind, member });
    this.draw();
    this.solve();
  }

  draw() {
    const { kind, member, made } = this;
    const choice = (isPicked, click, ...words) => action({ 'aria-pressed': String(isPicked), click }, words);
    const kindOf = (each) => choice(each === kind, () => this.pick(each, 0), t(`demo.${each}`));
    const memberOf = (who, i) => choice(i === member, () => this.pick(kind, i), name(who));
    fill(this.fields);
    fill(this.root, h('h2', {}, t('demo.title')), h('p', { class: 'row' }, Object.keys(CASES).map(kindOf)), this.out,
      h('p', { class: 'row' }, made.members.map(memberOf)),
      h('h3', {}, t('demo.of', { name: name(made.members[member]) })), this.fields,
      h('p', { class: 'hint' }, t('demo.lead')));
    fill(this.fields, kind === 'fares' ? this.places() : this.sliders());
  }

  /** Of a taxi: where somebody gets off. */
  places() {
    const place = (words, i) => h('label', { class: 'place' }, h('input', { type: 'radio', name: 'demo-place',
      checked: this.made.bids[this.member] === i + 1,
      change: () => { this.made.bids[this.member] = i + 1; this.solve(); } }),
    h('span', {}, words));
    return h('div', { class: 'places' }, this.things.map(place));
  }

  /** What each thing is worth to somebody: one slider moves the others, so that the sum stays. */
  sliders() {
    const lines = this.things.map((thing, i) => {
      const slider = h('input', { type: 'range', min: 0, max: this.whole, step: this.made.step, 'aria-label': thing,
        id: `demo-${i}`, input: () => { this.move(i, Number(slider.value)); tell(); this.solve(); } });
      return { thing, slider, says: h('output', { for: `demo-${i}` }) };
    });
    const tell = () => lines.forEach(({ slider, says }, i) => {
      const value = this.made.bids[this.member][i];
      slider.value = value;
      slider.setAttribute('aria-valuetext', this.shown(value));
      fill(says, this.shown(value));
    });
    tell();
    return h('ul', { class: 'values' }, lines.map(({ thing, slider, says }, i) => (
      h('li', {}, h('label', { for: `demo-${i}` }, thing), slider, says))));
  }

  move(moved, value) {
    const bid = this.made.bids[this.member];
    const others = bid.filter((_, i) => i !== moved);
    const unit = this.made.step;
    const rest = scale(others, (this.whole - value) / unit).map((share) => share * unit);
    bid.splice(0, bid.length, ...rest.slice(0, moved), value, ...rest.slice(moved));
  }

  /** Divides what is there now; while that goes on, what comes meanwhile waits, and only the last of it counts. */
  async solve() {
    if (this.isBusy) { this.isStale = true; return; }
    this.isBusy = true;
    this.out.setAttribute('aria-busy', 'true');
    const made = structuredClone(this.made);
    const answer = await this.solver.solve(made);
    this.isBusy = false;
    if (!this.root.isConnected) this.solver.stop();
    else if (this.isStale) { this.isStale = false; this.solve(); } else this.show(answer);
  }

  show({ status, text: written, says }) {
    this.out.removeAttribute('aria-busy');
    if (status !== 0 || says !== 'yes') {
      fill(this.out, p(t(status === null ? 'divide.noModule' : 'demo.none')));
      return;
    }
    const { made } = this;
    const scene = { said: read(written), names: { members: made.members, things: this.things } };
    const line = ({ member, says: gets, beside, part }) => h('li', { class: `pay ${colour(member)}` },
      who(made.members, member), h('span', { class: 'name' }, gets), h('b', {}, beside), bar(member, part));
    fill(this.out, h('ul', { class: 'pays' }, linesOf(scene).map(line)));
  }
}

/** The demo, begun once somebody opens it. */
export async function demo(root) {
  await learnMore();
  setCurrency(currencyOf(locale()), locale());
  return new Demo(root);
}

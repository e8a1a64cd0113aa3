// A field for an amount. Beside it stands how it is read, where that goes by habit, or two buttons where there is
// none.
import { action, fill, h } from './dom.js';
import { t, text } from './language.js';
import { money, plain, reading } from './money.js';

/** Shows in `beside` how the amount in a field is read; `put` takes the one that is picked. */
export function showReading(beside, { isGuess, either, cents }, put, before = '') {
  const pick = (amount) => action({ click: () => put(amount) }, money(amount));
  fill(beside, isGuess && [before, t('money.reads', { amount: money(cents) })],
    either && [before, t('money.which'), ' ', either.map(pick)]);
}

export class MoneyField {
  constructor(attributes, changed) {
    this.changed = changed;
    const input = () => { this.look(); this.changed(); };
    this.input = h('input', { inputmode: 'decimal', autocomplete: 'off', ...attributes, input });
    this.beside = h('span', { class: 'reads', 'aria-live': 'polite' });
    this.look();
  }

  get reading() { return reading(this.input.value); }
  get cents() { return this.reading.cents; }

  look() { showReading(this.beside, this.reading, (amount) => this.pick(amount)); }

  pick(amount) {
    this.put(amount);
    this.input.focus();
    this.input.dispatchEvent(new Event('input', { bubbles: true }));
  }

  put(amount) {
    this.input.value = plain(amount);
    this.look();
  }

  /** What keeps the field from being an amount, `otherwise` where it doesn't look like one. */
  fault(otherwise) { return this.reading.either ? text('faults.which') : otherwise; }
}

// Fields and sliders whose numbers must add up: what each room is worth, or points for each thing. One line an item.
import { action, announce, box, faultLine, fill, h, name, showFault } from './dom.js';
import { t, text } from './language.js';
import { CHIP, LIMITS, THINGS, scale } from './rules.js';
import { money, plain, whole } from './money.js';
import { MoneyField } from './money_field.js';

// A slider of money has at most 200 stops; one of points goes in tens, as far as five average shares.
const STOPS = [1, 5, 10, 50, 100, 500, 1000, 2500, 5000, 10_000, 50_000, 100_000];
const [TENS, SHARES] = [10, 5];
const sum = (all) => all.reduce((a, b) => a + (b || 0), 0);
const upTo = (value, step) => Math.ceil(value / step) * step;

/** How far a slider goes: { step, most }, of a whole over so many things. Pure. */
export function sliderOf(isRent, total, things) {
  if (!isRent && total < LIMITS.points) return { step: 1, most: total };
  const most = Math.min(total, (total * SHARES) / things);
  const step = isRent ? STOPS.find((stop) => most / stop <= 200) : TENS;
  return { step, most: Math.min(upTo(most, step), upTo(total, step)) };
}

/** What is left goes to the lines that are still empty, of money; or all numbers are scaled, in whole units. Pure. */
export function sharedOut(numbers, total, isRent) {
  const left = total - sum(numbers);
  const empty = numbers.filter((value) => !value).length;
  if (isRent && left > 0 && empty > 0) {
    const parts = scale(Array(empty).fill(1), left);
    return numbers.map((value) => value || parts.shift());
  }
  const unit = !isRent && total % TENS === 0 && total > TENS && numbers.every((value) => value % TENS === 0) ? TENS : 1;
  return scale(numbers.map((value) => value || 0), total / unit).map((value) => value * unit);
}

/** Whether a bid can be told in chips: there is none, or all its points are whole chips. */
const inChips = ({ values }) => (values ?? []).every((value) => value % CHIP === 0);

export class ValueFields {
  /** With `hasChips`, everyone has ten chips of a hundred points. */
  constructor(round, bid, { alive, calm, message, hasChips = false }) {
    const isRent = round.kind === 'rent';
    const unit = hasChips && !isRent && inChips(bid) ? CHIP : 1;
    const total = isRent ? round.rent : LIMITS.points / unit;
    const things = round[THINGS[round.kind]];
    Object.assign(this, { round, bid, alive, calm, message, isRent, unit, total, things, lines: [], speaking: 0 });
    this.slider = sliderOf(isRent, total, things.length);
    this.rest = h('p', { class: 'rest', id: 'values' });
    this.meter = h('div', { class: 'meter', 'aria-hidden': 'true' }, h('span', {}));
    this.share = action({ class: 'link', click: () => this.shareOut() }, t('bid.shareOut'));
    this.sum = [this.meter, h('div', { class: 'left' }, this.rest, this.share)]; // stays in sight with the button
    this.set = this.fieldset();
    queueMicrotask(() => this.count());
  }

  fieldset() {
    const how = t(this.isRent ? 'bid.rentHow' : 'bid.goodsHow', { all: this.shown(this.total) });
    return h('fieldset', { class: 'plain' }, h('legend', { class: 'hint' }, how),
      h('ul', { class: `values ${this.isRent ? 'money' : ''}` }, this.things.map((thing, i) => this.line(thing, i))));
  }

  /** A number as its field holds it, as it was typed, and for people. */
  written(value) { return this.isRent ? plain(value) : String(value); }
  typed({ input, field }) { return input.value.trim() === '' ? 0 : field ? field.cents : whole(input.value); }
  shown(value) {
    return this.isRent ? money(value) : text(this.unit === CHIP ? 'chips' : 'points', { n: value });
  }

  now() { return this.lines.map((line) => this.typed(line)); }
  put(numbers) {
    numbers.forEach((value, i) => this.write(i, this.written(value)));
    this.count();
    this.set.dispatchEvent(new Event('input', { bubbles: true }));
  }

  /** The same, with points. */
  putPoints(points) { this.put(points.map((value) => Math.round(value / this.unit))); }

  write(i, words) {
    const { input, field } = this.lines[i];
    input.value = words;
    field?.look();
  }

  line(thing, i) {
    const value = this.written((this.bid.values?.[i] ?? 0) / this.unit);
    const attributes = { id: `value-${i}`, class: 'number', value,
      'aria-describedby': `value-${i}-fault values`, focus: () => input.select() };
    const field = this.isRent ? new MoneyField(attributes, () => this.count()) : null;
    const input = field?.input
      ?? h('input', { ...attributes, inputmode: 'numeric', autocomplete: 'off', input: () => this.count() });
    const slide = () => { this.write(i, this.written(Math.min(Number(slider.value), this.total))); this.count(); };
    const slider = h('input', { type: 'range', min: 0, max: this.slider.most, step: this.slider.step, value: 0,
      input: slide, 'aria-label': thing });
    this.lines.push({ input, field, slider });
    return h('li', {}, h('label', { for: `value-${i}` }, name(thing)), slider, input, field?.beside,
      faultLine(`value-${i}`));
  }

  /** What is left is shared out, or all numbers are scaled, so that they add up. */
  shareOut() { this.put(sharedOut(this.now().map((value) => value || 0), this.total, this.isRent)); }

  restText(all, over) {
    if (all.some(Number.isNaN)) return text('bid.noNumber');
    if (over === 0) return text('bid.spread', { all: this.shown(this.total) });
    if (over < 0) return text('bid.left', { left: this.isRent ? money(-over) : -over, all: this.shown(this.total) });
    return text('bid.over', { over: this.shown(over), all: this.shown(this.total) });
  }

  /** Draws anew what follows from the numbers. */
  count() {
    const all = this.now();
    const over = sum(all) - this.total;
    all.forEach((value, i) => this.mark(i, value));
    const mood = over === 0 ? 'good' : over > 0 ? 'bad' : '';
    this.rest.textContent = this.restText(all, over);
    this.rest.className = `rest ${mood}`;
    this.share.hidden = over === 0 || all.some(Number.isNaN);
    this.meter.className = `meter ${mood}`;
    this.meter.firstChild.style.setProperty('--part', Math.min(1, sum(all) / this.total));
    this.calm();
    clearTimeout(this.speaking);
    this.speaking = setTimeout(() => {
      if (this.alive() && this.set.contains(document.activeElement)) announce(this.rest.textContent);
    }, 900);
  }

  /** One line, with what is wrong with it. */
  mark(i, value) {
    const { slider, field } = this.lines[i];
    const isBad = Number.isNaN(value);
    if (!isBad) slider.value = value;
    slider.setAttribute('aria-valuetext', isBad ? text('bid.noNumber') : this.shown(value));
    const says = field ? field.fault(text('bid.writeAmount', { example: plain(35_050) })) : text('bid.writePoints');
    showFault(`value-${i}`, isBad ? says : '');
  }

  said() { return { values: this.now().map((value) => value * this.unit) }; }
  get raw() { return this.lines.map(({ input }) => input.value); }
  set raw(words) {
    words.forEach((one, i) => { if (this.lines[i]) this.write(i, one); });
    queueMicrotask(() => this.count());
  }
  wrong() { return this.now().some(Number.isNaN) || sum(this.now()) !== this.total ? this.rest.textContent : ''; }
  complain(says) {
    announce(says);
    fill(this.message, box('bad', says));
    (this.lines.find((line) => Number.isNaN(this.typed(line))) ?? this.lines[0]).input.focus();
  }
}

// What each trip of a shared ride costs: a table with a row from the start and one from each place, or, along one
// road, only what a trip from the start costs.
import { faultLine, fill, h, name, showFault } from './dom.js';
import { table } from './parts.js';
import { t, text } from './language.js';
import { plain, reading } from './money.js';
import { showReading } from './money_field.js';

const amount = (value) => (value === undefined ? '' : typeof value === 'number' ? plain(value) : value);

/** Costs between places from what a trip from the start to each costs, where all lie on one road: '' where one of the
    two is not known. Pure. */
export const alongRoad = (costs) => costs.map((from) => costs.map((to) => (
  Number.isNaN(from) || Number.isNaN(to) ? '' : Math.abs(to - from))));

export class Ways {
  /** `given` are the costs at the beginning, `places` the list of names of the places, `changed` is called after each
      change. */
  constructor({ legs = [], isBoth, isAlong = false }, places, changed) {
    Object.assign(this, { places, changed, isAlong, legs: legs.map((row) => row.map(amount)) });
    this.isBoth = isBoth ?? this.legs.slice(1).every((row, i) => row.every((leg, j) => leg === this.legs[j + 1]?.[i]));
    this.grid = h('div', {});
    this.reads = h('p', { class: 'reads', 'aria-live': 'polite' });
    this.along = this.tick('form.along', this.isAlong, (on) => { this.isAlong = on; });
    this.both = this.tick('form.both', this.isBoth, (on) => { this.isBoth = on; });
    this.set = h('fieldset', {}, h('legend', {}, t('form.ways')), h('p', { class: 'hint' }, t('form.whence')),
      this.along, this.both, this.grid, this.reads, faultLine('legs'));
  }

  tick(words, checked, set) {
    const change = ({ target }) => { set(target.checked); this.draw(); this.changed(); };
    return h('label', { class: 'tick' }, h('input', { type: 'checkbox', checked, change }), h('span', {}, t(words)));
  }

  way(row, to) {
    const place = { to: this.places.called(to) };
    return row ? text('form.way', { ...place, from: this.places.called(row - 1) }) : text('form.wayFirst', place);
  }

  cellAt(row, to) { return this.grid.querySelector(`#legs-${row}-${to}`); }

  cell(row, to) {
    const input = ({ target: { value } }) => { this.put(row, to, value); this.look(row, to); this.changed(); };
    return h('input', { id: `legs-${row}-${to}`, class: 'cost', value: this.legs[row][to], inputmode: 'decimal',
      autocomplete: 'off', 'aria-describedby': 'legs-fault', input });
  }

  /** A cost, and those that follow from it. */
  put(row, to, value) {
    this.legs[row][to] = value;
    if (this.isAlong) this.follow();
    else if (this.isBoth && row > 0) {
      this.legs[to + 1][row - 1] = value;
      this.cellAt(to + 1, row - 1).value = value;
    }
  }

  follow() {
    alongRoad(this.legs[0].map((leg) => reading(leg).cents)).forEach((row, from) => row.forEach((leg, to) => {
      this.legs[from + 1][to] = amount(leg);
    }));
  }

  look(row, to) {
    const cell = this.cellAt(row, to);
    const pick = (cents) => {
      cell.value = plain(cents);
      cell.focus();
      cell.dispatchEvent(new Event('input', { bubbles: true }));
    };
    showReading(this.reads, reading(cell.value), pick, `${this.way(row, to)} `);
  }

  draw() {
    const n = this.places.names.length;
    this.legs = Array.from({ length: n + 1 }, (_, row) => (
      Array.from({ length: n }, (__, to) => (row === to + 1 ? '0' : this.legs[row]?.[to] ?? ''))));
    if (this.isAlong) this.follow();
    this.both.hidden = this.isAlong;
    fill(this.grid, this.isAlong ? this.road() : this.table());
    fill(this.reads);
    this.label();
  }

  /** Along one road: a field for each place. */
  road() {
    const line = (to) => h('li', {}, h('label', { for: `legs-0-${to}`, class: `place-${to}` }), this.cell(0, to));
    return [h('p', { class: 'hint' }, t('form.alongHint')),
      h('ul', { class: 'road' }, this.legs[0].map((_, to) => line(to)))];
  }

  table() {
    const head = [t('form.fromTo'), this.legs[0].map((_, to) => h('th', { scope: 'col', class: `place-${to}` }))];
    const cells = (legs, row) => legs.map((_, to) => h('td', {},
      row === to + 1 ? h('span', { 'aria-hidden': 'true' }, '–') : this.cell(row, to)));
    const first = (row) => (row ? h('th', { scope: 'row', class: `place-${row - 1}` })
      : h('th', { scope: 'row' }, t('form.origin')));
    const rows = this.legs.map((legs, row) => h('tr', {}, first(row), cells(legs, row)));
    return table(text('form.waysTable'), head, rows, { class: 'grid' });
  }

  /** The names of the places, wherever they stand. */
  label() {
    this.places.names.forEach((_, i) => this.grid.querySelectorAll(`.place-${i}`).forEach((place) => {
      fill(place, name(this.places.called(i)));
    }));
    this.eachCell((row, to) => this.cellAt(row, to).setAttribute('aria-label', this.way(row, to)));
  }

  eachCell(what) {
    this.legs.forEach((legs, row) => legs.forEach((_, to) => { if (this.cellAt(row, to)) what(row, to); }));
  }

  /** Shows what is wrong, by the ids of the cells: the first of it below the table. */
  mark(shown) {
    let first = '';
    this.eachCell((row, to) => {
      const says = shown(`legs-${row}-${to}`);
      if (says) first ||= text('titles.member', { title: this.way(row, to), name: says });
      if (says) this.cellAt(row, to).setAttribute('aria-invalid', 'true');
      else this.cellAt(row, to).removeAttribute('aria-invalid');
    });
    showFault('legs', first);
  }

  /** What keeps a cost from being an amount, `otherwise` where it doesn't look like one. */
  fault(otherwise, row, to) { return reading(this.legs[row][to]).either ? text('faults.which') : otherwise; }

  without(place) {
    this.legs = this.legs.filter((_, row) => row !== place + 1).map((legs) => legs.filter((_, to) => to !== place));
  }

  /** The costs between these places, by their rows in the form, in cents. */
  between(rows) {
    return [0, ...rows.map((row) => row + 1)].map((from) => rows.map((to) => reading(this.legs[from][to]).cents));
  }

  get draft() { return { legs: this.legs, isBoth: this.isBoth, isAlong: this.isAlong }; }
}

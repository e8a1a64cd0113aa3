// A list of names in a form: a row each, to which rows can be added.
import { action, byId, faultLine, fill, h } from './dom.js';
import { colour } from './draw.js';
import { text } from './language.js';

export class NameList {
  /** `names` are what stands in the rows; `least` and `most` bound how many there are; `isFixed` where another list
      says how many; `drawn` is called after rows came or went, `renamed` after a letter. */
  constructor({ id, label, names, least, most, isFixed = false, isPeople = false, drawn, renamed, removed }) {
    Object.assign(this, { id, label, names, least, most, isFixed, isPeople, drawn, renamed, removed });
    this.rows = h('div', { class: 'list' });
  }

  called(i) { return this.names[i].trim() || `${this.label} ${i + 1}`; }

  draw(focus) {
    const { names, isFixed, most, label } = this;
    const adds = { class: 'add', disabled: names.length >= most, click: () => this.add() };
    fill(this.rows, names.map((_, i) => this.row(i)), !isFixed && action(adds, '+ ', label));
    byId(`${this.id}-${focus}`)?.focus();
    this.drawn();
  }

  row(i) {
    const [id, label] = [`${this.id}-${i}`, `${this.label} ${i + 1}`];
    const input = h('input', {
      id, value: this.names[i], autocomplete: 'off', placeholder: label,
      'aria-label': label, 'aria-describedby': `${id}-fault`,
      input: () => { this.names[i] = input.value; this.renamed(); },
    });
    const remove = {
      class: 'icon-only', 'aria-label': text('form.remove', { what: label }), disabled: this.names.length <= this.least,
      click: () => this.remove(i),
    };
    const sign = this.isPeople ? h('span', { class: `who ${colour(i)}`, 'aria-hidden': 'true' }, i + 1)
      : h('span', { class: 'no', 'aria-hidden': 'true' }, i + 1);
    return h('div', { class: 'item' }, sign, input,
      !this.isFixed && action(remove, '×'), faultLine(id));
  }

  add() {
    if (this.names.length >= this.most) return;
    this.names.push('');
    this.draw(this.names.length - 1);
  }

  remove(i) {
    this.names.splice(i, 1);
    this.removed(i);
    this.draw(Math.max(0, i - 1));
  }
}

// The form that says who divides what: that of a round (create.js) and that of a division on this device
// (divide_form.js) are both this one, with a part of their own.
import { announce, box, byId, faultLine, field, fill, h } from './dom.js';
import { entitle, locale, names, t, text } from './language.js';
import { CHIPS, LIMITS, THINGS } from './rules.js';
import { doubles, rowsThatCount } from './faults.js';
import { showFaults, wrongFields } from './form_faults.js';
import { plain, setCurrency } from './money.js';
import { SUGGESTED, codeOf, currencyOf } from './currencies.js';
import { MoneyField } from './money_field.js';
import { NameList } from './name_list.js';
import { Ways } from './ways.js';

const SAMPLE = 145_050;
const shown = (value) => (value === undefined ? '' : typeof value === 'number' ? plain(value) : value);

export class SplitForm {
  /** `start` is what the form held before; `words` are those on the button. */
  constructor(kind, start, words) {
    Object.assign(this, { kind, touched: new Set(), isSent: false });
    this.currency = h('input', { value: start.currency ?? currencyOf(locale()), list: 'currencies', maxlength: 3,
      autocomplete: 'off', autocapitalize: 'characters', spellcheck: 'false', input: () => this.recur() });
    setCurrency(codeOf(this.currency.value) ?? '', locale());
    const check = () => this.check();
    this.title = h('input', { value: start.title ?? '', autocomplete: 'off', required: true });
    this.amount = new MoneyField({ value: shown(start.amount), required: true }, check);
    this.hasChips = start.hasChips ?? false;
    this.lists(start);
    this.ways = kind === 'fares' ? new Ways({ isBoth: true, ...start.ways }, this.things, check) : null;
    this.summary = h('div', { id: 'summary' });
    this.notes = h('div', { 'aria-live': 'polite' });
    this.button = h('button', { class: 'main' }, t(words));
  }

  /** Once all of it is there: draws the form. */
  begin(more) {
    this.form = this.drawn(more);
    this.people.draw();
    this.things.draw();
  }

  lists({ people = ['', ''], things }) {
    const { kind } = this;
    const label = (which) => text(`kinds.${kind}.${which}`);
    const renamed = () => { this.ways?.label(); this.changed(); };
    const few = kind === 'goods' ? ['', '', ''] : ['', ''];
    this.people = new NameList({
      id: 'members', label: label('person'), names: [...people], least: 2, renamed, isPeople: true,
      most: LIMITS[kind === 'fares' ? 'riders' : 'members'][1], drawn: () => this.follow(),
      removed: (i) => { this.forget('members'); if (kind === 'rent') this.things.names.splice(i, 1); },
    });
    this.things = new NameList({
      id: 'things', label: label('thing'), names: [...(things ?? few)], least: 1, renamed,
      most: LIMITS[kind === 'goods' ? 'goods' : 'places'][1], isFixed: kind === 'rent', // as many rooms as people
      drawn: () => { this.ways?.draw(); this.check(); },
      removed: (i) => { this.forget('things'); this.ways?.without(i); },
    });
  }

  /** What has to follow a change beside the faults. */
  changed() {}

  /** Rows moved, so what was left or not is not known any more. */
  forget(which) { for (const id of [...this.touched]) if (id.startsWith(which)) this.touched.delete(id); }

  /** Of a rent, as many rooms as people. */
  follow() {
    if (!this.things.rows.firstChild) return; // not drawn yet
    if (this.kind === 'rent') {
      while (this.things.names.length < this.people.names.length) this.things.names.push('');
      this.things.draw();
    } else this.check();
  }

  drawn(more) {
    const { kind } = this;
    const after = () => { this.changed(); this.check(); };
    return h('form', { novalidate: true, submit: (event) => this.send(event), keydown: (event) => this.next(event),
      focusout: ({ target }) => this.leave(target), input: after,
      click: ({ target }) => { if (target.closest('.item, .add')) this.changed(); } }, // a row came or went
    this.summary, field('title', t('form.title'), this.title, t(`kinds.${kind}.example`)),
    this.group(this.people), this.group(this.things, t(`kinds.${kind}.thingsHint`)),
    kind === 'rent' && this.amounts('rent', t('form.rentHint', { example: plain(SAMPLE) })),
    kind === 'fares' && [this.amounts('flag', t('form.flagHint')), this.ways.set],
    kind === 'goods' && this.points(),
    more, this.notes, h('p', { class: 'row' }, this.button));
  }

  group({ id, rows }, hint) {
    return h('fieldset', { id }, h('legend', {}, t(`kinds.${this.kind}.${id}`)),
      hint && h('p', { class: 'hint' }, hint), rows, faultLine(id));
  }

  /** The amount of a kind, and its currency. */
  amounts(id, hint) {
    const sum = field(id, t(`form.${id}`), this.amount.input, hint);
    this.amount.input.after(this.amount.beside);
    const codes = h('datalist', { id: 'currencies' }, SUGGESTED.map((code) => h('option', { value: code })));
    const currency = field('currency', t('form.currency'), this.currency, t('form.currencyHint'));
    return h('div', { class: 'two' }, sum, currency, codes);
  }

  /** Of items: what each person spreads. */
  points() {
    const way = (hasChips, words) => h('label', { class: 'place' }, h('input', { type: 'radio', name: 'points',
      checked: this.hasChips === hasChips, change: () => { this.hasChips = hasChips; } }), h('span', {}, t(words)));
    return h('fieldset', {}, h('legend', {}, t('form.points')),
      h('div', { class: 'places' }, way(false, 'form.thousand'), way(true, 'form.chips')));
  }

  recur() {
    setCurrency(codeOf(this.currency.value) ?? '', locale());
    this.amount.look();
  }

  /** The mark in a link: the currency of amounts, or that items get chips. */
  get mark() { return this.kind === 'goods' ? (this.hasChips ? CHIPS : '') : codeOf(this.currency.value); }

  /** What the form holds, so that one can come back to it. */
  get draft() {
    const { title, amount, people, things, ways, currency, hasChips } = this;
    return { title: title.value, amount: amount.input.value, people: people.names, things: things.names,
      ways: ways?.draft, currency: currency.value, hasChips };
  }

  leave({ id, value }) {
    if (id && value) { this.touched.add(id); this.check(); }
  }

  /** Enter goes to the next field; only on a button it presses it. */
  next(event) {
    if (event.key !== 'Enter' || event.target.tagName !== 'INPUT' || event.isComposing) return;
    const isNext = ({ type, disabled }) => type !== 'checkbox' && type !== 'radio' && !disabled;
    const inputs = [...this.form.querySelectorAll('input')].filter(isNext);
    event.preventDefault();
    (inputs[inputs.indexOf(event.target) + 1] ?? this.button).focus();
  }

  /** What was typed, as a creation that ends at a time; empty rows are left out. `rows` has the places of the others in
      the form. */
  readUntil(deadline) {
    const { kind, people, things } = this;
    const rows = { members: rowsThatCount(people.names, 2) };
    rows.things = rowsThatCount(things.names, kind === 'rent' ? rows.members.length : 1);
    const named = ({ names: list }, which) => rows[which].map((row) => list[row].trim());
    const own = {
      rent: () => ({ rent: this.amount.cents }), goods: () => ({ limit: LIMITS.steps }),
      fares: () => ({ flag: this.amount.cents, legs: this.ways.between(rows.things) }),
    }[kind]();
    return { rows, creation: { kind, title: this.title.value.trim(), members: named(people, 'members'),
      [THINGS[kind]]: named(things, 'things'), ...own, deadline } };
  }

  /** Shows what is wrong at the fields that were left, or at all once the form was sent; answers it. */
  check() {
    if (!this.form) return new Map();
    const read = this.read();
    const wrong = wrongFields(this, read, this.now());
    showFaults(this, (id) => (this.isSent || this.touched.has(id) ? wrong.get(id) ?? '' : ''));
    const twice = [...doubles(this.people.names), ...doubles(this.things.names)];
    fill(this.notes, twice.length > 0 && box('note', t('form.twice', { names: names(twice) })));
    this.summarise(this.isSent ? wrong : new Map());
    return wrong;
  }

  /** All that is wrong, on top, with the way to each; and the word for it in the title. */
  summarise(wrong) {
    entitle([wrong.size > 0 && text('form.error'), text(`kinds.${this.kind}.title`)].filter(Boolean).join(' '));
    const to = (id) => (event) => { event.preventDefault(); byId(id)?.focus(); };
    const line = ([id, says]) => h('li', {}, h('a', { href: location.hash, click: to(id) }, this.about(id, says)));
    fill(this.summary, wrong.size > 0 && h('div', { class: 'box bad', tabindex: -1 },
      h('h2', {}, t('form.mend', { n: wrong.size })), h('ul', {}, [...wrong].map(line))));
  }

  labelOf(id) {
    const [which, ...at] = id.split('-');
    if (which === 'legs') return this.ways.way(...at.map(Number));
    if (which === 'members') return `${this.people.label} ${Number(at[0]) + 1}`;
    return which === 'things' ? `${this.things.label} ${Number(at[0]) + 1}` : text(`form.${which}`);
  }

  /** A sentence about a field, behind its label; there is no colon behind a question. */
  about(id, says) {
    const label = this.labelOf(id);
    return label.endsWith('?') ? `${label} ${says}` : text('titles.member', { title: label, name: says });
  }

  send(event) {
    event.preventDefault();
    this.isSent = true;
    const wrong = this.check();
    if (wrong.size > 0) {
      this.summary.firstChild.focus();
      announce(text('form.mend', { n: wrong.size }));
    } else this.done(this.read().creation);
  }
}

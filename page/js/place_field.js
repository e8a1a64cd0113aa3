// Where somebody gets off: the places, to pick one.
import { faultLine, h, name, showFault } from './dom.js';
import { t, text } from './language.js';
import { money } from './money.js';

export class PlaceField {
  constructor(round, bid) {
    const place = (words, i) => h('label', { class: 'place' },
      h('input', { type: 'radio', name: 'place', value: i + 1, checked: bid.place === i + 1 }),
      h('span', {}, h('strong', {}, name(words)),
        h('small', {}, t('bid.alone', { amount: money(round.flag + round.legs[0][i]) }))));
    this.set = h('fieldset', { class: 'plain' }, h('legend', { class: 'hint' }, t('bid.noPlace')), faultLine('place'),
      h('div', { class: 'places', id: 'place', input: () => showFault('place', '') }, round.places.map(place)));
    this.sum = null;
  }

  get place() { return Number(this.set.querySelector('input:checked')?.value ?? 0); }
  said() { return { place: this.place }; }
  get raw() { return this.place; }
  set raw(place) {
    for (const input of this.set.querySelectorAll('input')) input.checked = Number(input.value) === place;
  }
  wrong() { return this.place ? '' : text('bid.noPlace'); }
  complain(says) { showFault('place', says); this.set.querySelector('input').focus(); }
}

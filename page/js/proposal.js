// The best division that a search found, where it isn't shown to be the best: whom it leaves how, and changes by hand,
// which are kept as a draft.
import { action, fill, h, name, p } from './dom.js';
import { card, table } from './parts.js';
import { t, text } from './language.js';
import { proposalDraft } from './store.js';
import { icon } from './draw.js';

const sum = (all) => all.reduce((a, b) => a + b, 0);

/** What follows from points, a row for each person, and owners, by person's place: everyone's own points, and each
    envy, with whether there is none without the item that is worth most to the envious. Pure. */
export function weighed(points, owners) {
  const share = (row, owner) => row.filter((_, good) => owners[good] === owner);
  const own = points.map((row, person) => sum(share(row, person)));
  const envies = points.flatMap((row, person) => points.flatMap((_, other) => {
    const theirs = share(row, other);
    const by = sum(theirs) - own[person];
    return person !== other && by > 0 ? [{ person, other, by, isOne: by <= Math.max(...theirs) }] : [];
  }));
  return { own, envies };
}

export class Proposal {
  /** `people` and `goods` are names, `points` has a row for each of these people, and `owners` are those of the best
      division found, by their places from 0. `link` is that of the round, if there is one. */
  constructor({ people, goods, points, owners, link = { id: 'here', key: '' } }) {
    Object.assign(this, { people, goods, points, saved: proposalDraft(link) });
    this.of = [people, goods, points, owners];
    const had = this.saved.get();
    const first = JSON.stringify(had?.of) === JSON.stringify(this.of) ? had.owners : owners;
    this.picks = goods.map((good, g) => h('select', { id: `owner-${g}`,
      'aria-label': text('none.ownerOf', { thing: good }) },
    people.map((person, at) => h('option', { value: at, selected: first[g] === at }, person))));
    this.found = h('div', { 'aria-live': 'polite', id: 'found' });
  }

  get owners() { return this.picks.map((select) => Number(select.value)); }

  look() {
    const { own, envies } = weighed(this.points, this.owners);
    const who = (at) => name(this.people[at]);
    const envy = ({ person, other, by, isOne }) => h('li', {},
      t(isOne ? 'none.envyOne' : 'none.envyMore', { a: who(person), b: who(other), n: by }));
    fill(this.found, h('ul', {}, own.map((n, at) => h('li', {}, t('none.has', { name: who(at), n })))),
      envies.length ? h('ul', {}, envies.map(envy)) : p(t('goods.content')),
      h('p', { class: 'hint' }, t('none.notProved')));
  }

  change() {
    this.saved.put({ of: this.of, owners: this.owners });
    this.look();
  }

  /** The card; `more` are buttons beside *Print*. */
  drawn(...more) {
    const people = this.people.map((person) => h('th', { scope: 'col' }, name(person)));
    const head = [t('goods.thing'), t('none.owner'), people];
    const rows = this.goods.map((good, g) => h('tr', {}, h('th', { scope: 'row' }, name(good)),
      h('td', {}, this.picks[g]), this.points.map((row) => h('td', {}, row[g]))));
    this.look();
    return card(t('none.whoGets'), h('p', { class: 'box note' }, t('none.bestFoundHow')), this.found,
      h('div', { input: () => this.change() }, table(text('none.proposalTable'), head, rows, { class: 'grid' })),
      h('p', { class: 'row' }, more, action({ click: () => print() }, icon('print'), t('files.print'))));
  }
}

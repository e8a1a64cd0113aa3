// What is wrong in a form that says who divides what, shown at its fields: the form of a round and that of a division
// without a server share it.
import { showFault } from './dom.js';
import { text } from './language.js';
import { THINGS } from './rules.js';
import { faults } from './faults.js';
import { money } from './money.js';
import { codeOf } from './currencies.js';

/** The id of a field of the form, by its name in a creation and the place in it. */
export const idOf = (of, at = '') => (
  `${Object.values(THINGS).includes(of) ? 'things' : of}${at === '' ? '' : `-${at}`}`);

/** The id of a field that is wrong, by its place in the creation. */
function fieldOf(rows, of, at) {
  if (of === 'legs') {
    const [from, to] = at.split('-').map(Number);
    return idOf(of, `${from ? rows.things[from - 1] + 1 : 0}-${rows.things[to]}`);
  }
  const row = rows[of === 'members' ? 'members' : 'things'];
  return at === '' ? idOf(of) : idOf(of, row[at]);
}

/** A sentence for the id of each field that is wrong. `rows` says where in the form the names of the creation stand. */
export function wrongFields({ amount, ways, currency }, { rows, creation }, now) {
  const says = ([path, given]) => text(path, given?.least === undefined ? given
    : { least: money(given.least), most: money(given.most) });
  const found = new Map(faults(creation, now).map(({ field: of, at, says: why }) => {
    const id = fieldOf(rows, of, at);
    const field = { rent: amount, flag: amount, legs: ways }[of];
    return [id, field ? field.fault(says(why), ...id.split('-').slice(1)) : says(why)];
  }));
  if (creation.kind === 'rent') {
    const given = { rooms: rows.things.length, people: rows.members.length };
    for (const row of rows.things.slice(given.people)) found.set(`things-${row}`, text('faults.moreRooms', given));
  }
  if (creation.kind !== 'goods' && codeOf(currency.value) === null) found.set('currency', text('faults.currency'));
  return found;
}

/** Shows at each field what is wrong with it, which `says` answers by its id: '' where nothing is. */
export function showFaults({ people, things, ways }, says) {
  const rowsOf = ({ id, names }) => names.map((_, i) => `${id}-${i}`);
  const ids = ['title', 'rent', 'flag', 'deadline', 'currency', ...rowsOf(people), ...rowsOf(things)];
  for (const id of ids) showFault(id, says(id));
  ways?.mark(says);
}

// What breaks the limits of a round. Pure. The host judges again, and its word counts.
import { LIMITS, THINGS } from './rules.js';

const bytes = (text) => new TextEncoder().encode(text).length;

/** How many letters have to go from the end of a name. */
function tooLongBy(text) {
  const letters = [...text];
  let left = letters.length;
  while (bytes(letters.slice(0, left).join('')) > LIMITS.name) left--;
  return letters.length - left;
}

/** What is wrong with a name: a sentence and what stands in it, or null. */
export function nameFault(text) {
  if (text === '') return ['faults.name'];
  if (/[\u0000-\u001f\u007f]/.test(text)) return ['faults.control'];
  return bytes(text) > LIMITS.name ? ['faults.long', { n: tooLongBy(text) }] : null;
}

const DAY = 86_400_000;
const MOST_DAYS = 3660;

function amountFault(amount, least, most) {
  return Number.isInteger(amount) && amount >= least && amount <= most ? null : ['faults.amount', { least, most }];
}

function deadlineFault(deadline, now) {
  const end = Date.parse(deadline);
  if (Number.isNaN(end)) return ['faults.noTime'];
  return end <= now ? ['faults.past'] : end > now + MOST_DAYS * DAY ? ['faults.far'] : null;
}

/** All that is wrong with what was typed, in the order in which the host tests it: [{ field, at, says }], where `at`
    is a place within the field. How many names there can be, the form sees to. */
export function faults(creation, now) {
  const { kind } = creation;
  const found = [];
  const wrong = (field, says, at = '') => { if (says) found.push({ field, at, says }); };
  const list = (field) => creation[field].forEach((text, i) => wrong(field, nameFault(text), i));
  wrong('title', creation.title === '' ? ['faults.title'] : nameFault(creation.title));
  list('members');
  list(THINGS[kind]);
  if (kind === 'rent') wrong('rent', amountFault(creation.rent, 1, LIMITS.rent));
  if (kind === 'fares') {
    wrong('flag', amountFault(creation.flag, 0, LIMITS.cost));
    creation.legs.forEach((row, from) => row.forEach((leg, to) => {
      if (from !== to + 1) wrong('legs', amountFault(leg, 0, LIMITS.cost), `${from}-${to}`);
    }));
  }
  wrong('deadline', deadlineFault(creation.deadline, now));
  return found;
}

/** Names that stand twice: the host allows it, and people mistake one for the other. */
export const doubles = (list) => [...new Set(list.filter((text, i) => text && list.indexOf(text) !== i))];

/** The rows of a list of names that count: those with a name, and as many of the empty ones as the least needs. */
export function rowsThatCount(list, least) {
  const named = list.flatMap((text, row) => (text.trim() ? [row] : []));
  const empty = list.flatMap((text, row) => (text.trim() ? [] : [row]));
  return [...named, ...empty.slice(0, Math.max(0, least - named.length))].sort((a, b) => a - b);
}

// "Check it yourself": the checks in this browser, what they found, and how to check a certificate elsewhere.
import { action, fill, h, name, p } from './dom.js';
import { download, sign } from './parts.js';
import { names, number, t, text } from './language.js';
import { listedBid } from './compare.js';
import { money } from './money.js';
import { savedFile } from './saved.js';
import { icon } from './draw.js';

const ruleLine = ([path, holds]) => h('li', { class: holds ? 'yes' : 'no' }, sign(holds ? '✓ ' : '✗ '),
  h('span', { class: 'sr' }, t(holds ? 'check.holds' : 'check.fails'), ' '), t(path));

/** Why no division is shown, in a sentence. */
function refusal({ verdict, rule, line }) {
  if (verdict === 'no') return t('check.no', { rule });
  if (verdict === 'differ') return t('judge.differ');
  if (verdict === 'none') return t('judge.none');
  return line === 'too long' ? t('check.tooLong') : t('check.badLine', { line });
}

/** Who has judged, and what the second check said. */
function judgedBy({ verdict, by, proved, script, isLowered, isOver }) {
  if (verdict === 'none') return [];
  if (verdict === 'differ') {
    return t('judge.differWhy', { proved: h('code', {}, proved), script: h('code', {}, script) });
  }
  if (by === 'script') return t('judge.script');
  const second = by === 'both' ? 'judge.agrees' : isOver ? 'judge.failed' : 'judge.again';
  return [t(isLowered ? 'judge.lowered' : 'judge.proved'), ' ', t(second)];
}

/** Whether the second check is still to come. */
const isGoingOn = ({ verdict, isOver }) => !isOver && verdict !== 'none' && verdict !== 'differ';

const judges = (found) => h('p', { id: 'judges', 'data-by': found.by, 'aria-busy': isGoingOn(found) && 'true' },
  judgedBy(found));
const told = (found, differ) => (
  { id: 'verdict', 'data-verdict': found.verdict, 'data-rule': found.rule ?? 0, 'data-differ': differ.length });

/** A verdict that is no yes, with whatever it depends on. */
export const noYes = (found) => h('div', { class: 'box bad', role: 'alert', ...told(found, []) },
  p(h('strong', {}, refusal(found))), judges(found));

/** How far a yes goes: { mood, says, asks }. `isDoubtful` where the names are only somebody's word. */
function reach({ by, said }, differ, isDoubtful) {
  if (differ.length) return { mood: 'bad', says: 'check.beside' };
  if (by === 'script') return { mood: 'amber', says: 'check.yesUnproved', asks: 'check.how' };
  if (isDoubtful) return { mood: 'amber', says: 'names.only', asks: 'check.whatNow' };
  return { mood: 'good', says: said.kind === 'fares' ? 'check.yesFares' : 'check.yes', asks: 'check.how' };
}

/** A yes in one line, and behind it how it came about. `differ` are sentences on what this browser saw otherwise. */
export function proofLine(found, differ, isDoubtful, ...behind) {
  const { mood, says, asks } = reach(found, differ, isDoubtful);
  return h('details', { class: `proof ${mood}`, open: mood === 'bad', role: mood === 'bad' ? 'alert' : null,
    ...told(found, differ) },
  h('summary', {}, icon(mood === 'good' ? 'check' : 'careful'),
    h('span', {}, t(says), asks && [' ', h('span', { class: 'more' }, t(asks))])),
  h('div', {}, differ.length > 0 && h('ul', { class: 'differ' }, differ.map((one) => h('li', {}, one))),
    judges(found), behind));
}

/** Where there is no certificate, this stands in the place of the verdict. */
export const nothingChecked = (why) => h('div',
  { class: 'box bad', id: 'verdict', role: 'alert', 'data-verdict': 'none' },
  p(h('strong', {}, t('check.nothing'))), p(why));

/** What the second check looked at: facts in plain words, then the rules one by one. */
export function findings(found) {
  const { verdict, second } = found;
  if (verdict === 'refused' || verdict === 'none') return [];
  if (!second) return isGoingOn(found) ? h('p', { id: 'branches' }, t('judge.again')) : [];
  return [
    second.facts.length > 0 && h('ul', { class: 'rules' }, second.facts.map(ruleLine)),
    h('details', { open: second.verdict === 'no' }, h('summary', {}, t('check.rules', { n: second.rules.length })),
      h('ol', { class: 'rules' }, second.rules.map(ruleLine))),
  ];
}

/** Tells how much of a long tree the second check has read. */
export function tellBranches(root, count) {
  const place = root.querySelector('#branches');
  if (place) fill(place, t('check.branches', { count: number(count) }));
}

/** The second check has ended, and the verdict stands: its words and its findings are added. */
function settle(root, found) {
  const said = fill(root.querySelector('#judges'), judgedBy(found));
  said.setAttribute('data-by', found.by);
  said.removeAttribute('aria-busy');
  const place = root.querySelector('.second');
  if (place) fill(place, findings(found));
}

/** Shows a verdict by `show`, and what the second check adds to it when that has ended. */
export async function showVerdicts(root, { first, last }, show) {
  const found = await first;
  show(found);
  const shown = root.querySelector('#verdict');
  const all = await last;
  if (!shown || root.querySelector('#verdict') !== shown) return; // something else is shown now
  if (all.verdict === found.verdict && all.rule === found.rule) settle(root, all);
  else show(all);
}

/** A bid as numbers, for people. */
export function bidText(kind, things, bid) {
  if (kind === 'fares') return name(things[bid[0] - 1] ?? String(bid[0]));
  return bid.map((v) => (kind === 'rent' ? money(v) : v)).join(' · ');
}

/** What each difference says; `things` are the names of what was divided. */
export function differenceText({ what, then, now, from, to }, { kind, members, things }) {
  const show = {
    title: name, rent: money, flag: money, leg: (cents) => (cents === undefined ? '—' : money(cents)),
    members: names, things: names,
    you: (number) => (members[number - 1] === undefined ? text('links.organiser') : name(members[number - 1])),
    bid: (bid) => (bid ? bidText(kind, things, bid) : t('differ.noBid')),
    held: (bid) => (bid ? bidText(kind, things, bid) : t('differ.noBid')),
  }[what];
  if (!show) return t(`differ.${what}`);
  const given = { then: h('strong', {}, show(then)), now: h('strong', {}, show(now)) };
  if (what !== 'leg') return t(`differ.${what}`, given);
  const trip = { ...given, to: name(things[to]) };
  return from ? t('differ.leg', { ...trip, from: name(things[from - 1]) }) : t('differ.legFirst', trip);
}

/** The bid that the certificate lists for whoever looks. */
function listed(said, { things, you }) {
  const bid = listedBid(said, you);
  if (!bid) return t('proof.printedNone');
  return t('proof.printed', { bid: h('strong', { id: 'printed' }, bidText(said.kind, things, bid)) });
}

/** How to check a certificate elsewhere: the file with the names and the currency, the page that reads it, and the
    program. */
export function elsewhere({ said, names: known }, certificate, { file, currency }) {
  const save = { class: 'button', click: () => download(`${file}.json`, savedFile(known, certificate, currency)) };
  const page = { class: 'button', href: 'check.html', download: 'fairsplit-check.html' };
  return [
    p(listed(said, known)), p(t('proof.file')),
    h('p', { class: 'row' }, action(save, icon('save'), t('proof.downloadButton')), h('a', page, t('check.file'))),
    !said.isEstate && p(t('proof.judge', { program: h('code', {}, 'fairsplit'), yes: h('code', {}, 'yes'),
      command: h('kbd', {}, `fairsplit check < ${file}-certificate.txt`) })), // the program reads no other kind
  ];
}

/** What the second check found. */
export const secondCheck = (found) => [h('h2', {}, t('judge.second')),
  h('div', { id: 'findings', class: 'second' }, findings(found)), h('p', { class: 'hint' }, t('proof.hereHow'))];

// The result of a closed round. What is shown comes from the certificate, once it is judged here.
import { action, announce, box, h, heading, name, p, turn } from './dom.js';
import { download } from './parts.js';
import { learnMore, t, text } from './language.js';
import { get, getText, sentence } from './api.js';
import { held, peopleOf, strange } from './compare.js';
import {
  differenceText, elsewhere, noYes, nothingChecked, proofLine, secondCheck, showVerdicts, tellBranches,
} from './proof.js';
import { icon } from './draw.js';
import { judge } from './judges.js';
import { hero, numbered, picture } from './picture.js';
import { pictureButton } from './poster.js';
import { faceOf, seen } from './seen.js';
import { unchecked } from './unchecked.js';

/** Shows the result, or why there is none. */
export async function result(place, view) {
  const { path, link } = view;
  turn(place, heading(t('wait')), h('p', { role: 'status' }, t('result.wait')));
  await learnMore();
  let certificate;
  try { certificate = await getText(`${path}/certificate`, link.key); } catch (refused) {
    announce(text('none.title'));
    await none(place, refused, view);
    return;
  }
  await judged(place, certificate, view);
}

/** Judges a certificate, and shows what comes of it. Where it isn't the server's, `view.origin` has the `bid` of
    whoever looks as the server has it, `tells` whose certificate it is, and `keeps` one that fits. */
async function judged(place, certificate, view) {
  const checks = judge(certificate, (count) => tellBranches(place, count));
  showVerdicts(place, checks, (found) => {
    turn(place, drawn(found, certificate, view));
    announce(text('result.ready'));
  });
  await checks.first;
}

/** The view of a verdict: the division only where it is yes. */
const drawn = (found, certificate, view) => (found.verdict === 'yes' ? whole(found, certificate, view)
  : [heading(name(String(view.round.title))), noYes(found), isNo(found) && h('section', {}, secondCheck(found)),
    h('div', { id: isNo(found) ? null : 'findings' }, files(certificate, view, view.round))]);

const isNo = ({ verdict }) => verdict === 'no' || verdict === 'differ';

/** The sentence on whose word the names are. */
function whoseNames(saw, differ) {
  if (differ.some(({ what }) => what === 'fit' || what === 'other')) return null; // there are none
  if (!saw) return 'names.unseen';
  return differ.length ? 'names.drawn' : saw.bid ? 'names.seenBid' : 'names.seen';
}

/** A result that holds: what it means for whoever looks, how far it was checked, and the pictures. */
function whole(found, certificate, view) {
  const { link, round, origin } = view;
  const { said } = found;
  const saw = seen(link);
  const { names: known, differ: differs } = held(said, faceOf(round), saw, numbered);
  const differ = origin ? [...differs, ...strange(said, round, saw?.bid ? null : origin.bid)] : differs;
  if (!differ.length) origin?.keeps(certificate);
  const scene = { said, names: known };
  const shown = picture(scene);
  const says = differ.map((one) => differenceText(one, { ...known, kind: said.kind }));
  const whose = whoseNames(saw, differ);
  const file = `round-${link.id}`;
  const isDoubtful = !saw || differ.length > 0;
  return [
    hero(scene, shown, isDoubtful, proofLine(found, says, isDoubtful, whose && p(t(whose)), p(shown.why),
      elsewhere(scene, certificate, { file, currency: link.currency }), secondCheck(found),
      files(certificate, view, { kind: said.kind, bids: peopleOf(said) }))),
    origin?.tells(known, certificate),
    shown.parts,
    h('p', { class: 'row after' }, pictureButton(scene, file),
      action({ click: () => print() }, icon('print'), t('files.print')),
      round.you === 0 && action({ click: view.again }, t('none.again'))),
  ];
}

/** The texts of a closed round, as files: which there are goes by its kind and by who has a bid. */
function files(certificate, view, { kind, bids }) {
  const { path, link, origin } = view;
  const textOf = async (what) => (what === 'certificate' ? certificate : getText(`${path}/${what}`, link.key));
  const fetched = (label, what) => action({ click: async (event) => {
    const button = event.currentTarget;
    button.disabled = true;
    try {
      const written = await textOf(what);
      if (written) download(`round-${link.id}-${what}.txt`, written);
      else button.after(box('bad', t('files.empty')));
    } catch (refused) { button.after(box('bad', sentence(refused))); }
    button.disabled = false;
  } }, t(label));
  const bare = h('p', { class: 'row' }, fetched('files.certificate', 'certificate'));
  if (origin) return [h('h2', {}, t('files.title')), bare]; // the server has no more of it
  return [h('h2', {}, t('files.title')), p(t('files.whose')), h('p', { class: 'row' },
    fetched('files.certificate', 'certificate'), fetched('files.report', 'report'),
    kind !== 'rent' && fetched('files.audit', 'audit'),
    kind === 'goods' && bids.length === 2 && fetched('files.winner', 'winner'))];
}

/** No certificate came: why there is no result, or that nothing was checked. */
async function none(place, refused, view) {
  const { noResult } = await import('./no_result.js');
  const show = (certificate, origin) => {
    place.closest('main').dataset.view = 'result';
    judged(place, certificate, { ...view, origin });
  };
  const told = await noResult(refused, { ...view, show });
  if (!told) { await withoutCertificate(place, refused, view); return; }
  place.closest('main').dataset.view = 'none'; // whose help is another one
  turn(place, told);
}

/** No certificate could be had: that nothing was checked stands there, and what the server says, if it says any. */
async function withoutCertificate(place, refused, view) {
  let division = null;
  try { division = await get(`${view.path}/division`, view.link.key); } catch { /* then nothing is shown */ }
  turn(place, heading(name(String(view.round.title))), nothingChecked(sentence(refused)),
    division && unchecked(division, faceOf(view.round)),
    p(action({ class: 'main', click: () => result(place, view) }, t('again'))));
}

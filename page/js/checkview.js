// The view that checks a certificate which somebody has, with no server: also the whole of check.html.
import { action, announce, box, fill, h, heading, name, p } from './dom.js';
import { locale, t } from './language.js';
import { setCurrency } from './money.js';
import { noYes, proofLine, secondCheck, showVerdicts, tellBranches } from './proof.js';
import { judge } from './judges.js';
import { hero, numbered, picture } from './picture.js';
import { namesFit, opened } from './saved.js';
import { peopleOf } from './compare.js';

/** Fields for the names that a bare certificate has not; what is typed stands in the picture at once. */
function namesForm(said, known, redraw) {
  const fresh = numbered(said);
  const field = (list, instead, i) => {
    const label = instead[i];
    return h('div', { class: 'item' }, h('input', {
      'aria-label': label, placeholder: label, autocomplete: 'off',
      input: (event) => { list[i] = event.target.value.trim() || label; redraw(); },
    }));
  };
  const people = peopleOf(said).map((number) => number - 1);
  return h('details', { class: 'fold', id: 'names' }, h('summary', {}, t('check.names')), p(t('check.namesHow')),
    h('h3', {}, t(`kinds.${said.kind}.members`)), people.map((i) => field(known.members, fresh.members, i)),
    h('h3', {}, t(`kinds.${said.kind}.things`)), known.things.map((_, i) => field(known.things, fresh.things, i)));
}

/** The division that a certificate shows, with the names of its file or with those that are typed. */
function division(found, given) {
  const { said } = found;
  const known = given ?? numbered(said);
  const titled = (words) => h('h2', {}, words);
  const place = h('div', { id: 'pictures' });
  const top = h('div', {});
  const scene = () => ({ said, names: { ...known, you: 0 } });
  const redraw = () => {
    const shown = picture(scene());
    fill(place, shown.parts);
    if (top.firstChild) return;
    const proof = proofLine(found, [], false, p(shown.why), secondCheck(found));
    fill(top, hero(scene(), shown, false, proof, titled));
  };
  redraw();
  return h('div', { id: 'division' }, given && h('p', { class: 'eyebrow' }, name(given.title)), top,
    h('p', { class: 'hint' }, given && [t('check.namesOfFile'), ' '], t('check.compare')),
    !given && namesForm(said, known, redraw), place);
}

/** What a verdict shows: the division only where it is yes. */
const shown = (found, names) => (found.verdict === 'yes' ? division(found, names)
  : [noYes(found), secondCheck(found)]);

/** Puts the verdict on a text below the field, and what the second check adds when it has ended. */
async function answer(out, typed) {
  const { certificate, names, currency, fault } = opened(typed);
  setCurrency(currency ?? '', locale());
  if (fault) { fill(out, box('bad', t(fault))); return; }
  const checks = judge(certificate, (count) => tellBranches(out, count));
  showVerdicts(out, checks, (found) => {
    const isOther = names && found.said && !namesFit(found.said, names);
    fill(out, isOther ? box('bad', t('check.notOurs')) : shown(found, names));
    announce(out.querySelector('#verdict, .box').textContent);
  });
  await checks.first;
}

/** The view. `alone` is the file that is handed out, which has no other one; `words` are checked at once. */
export function checkView(root, alone = false, words = '') {
  const area = h('textarea', {
    id: 'text', rows: 12, spellcheck: 'false', autocomplete: 'off', placeholder: 'fairsplit 1\nkind rent\n…',
    value: words });
  const out = h('div', { id: 'checked' });
  const button = action({ class: 'main', click: run }, t('check.button'));
  async function run() {
    button.disabled = true;
    fill(out, p(t('check.checking')));
    await answer(out, area.value);
    button.disabled = false;
  }
  const open = async (event) => {
    const [file] = event.target.files;
    if (file) { area.value = await file.text(); run(); }
  };
  const pick = h('input', { type: 'file', accept: '.txt,.json,text/plain,application/json', change: open });
  fill(root, !alone && p(h('a', { href: '#' }, '← ', t('toStart'))), heading(t('check.link')),
    h('p', { class: 'lead' }, t('check.lead', { command: h('kbd', {}, 'fairsplit check') })),
    h('div', { class: 'card' }, h('label', { for: 'text' }, t('check.label')), area,
      h('p', { class: 'row' }, button, h('label', { class: 'file' }, t('check.open'), ' ', pick)),
      !alone && p(h('a', { href: 'check.html', download: 'fairsplit-check.html' }, t('check.file')))), out);
  if (words) run();
}

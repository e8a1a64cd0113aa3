// Divides without a server: everyone around one device, or one person who types all of it. The division comes from the
// proved solver, and is shown only when the proved judge says yes to it.
import { action, announce, box, fill, h, heading, name, p } from './dom.js';
import { download } from './parts.js';
import { entitle, t, text } from './language.js';
import { THINGS } from './rules.js';
import { art } from './art.js';
import { icon } from './draw.js';
import { judge } from './judges.js';
import { elsewhere, noYes, proofLine, secondCheck, showVerdicts, tellBranches } from './proof.js';
import { hero, picture } from './picture.js';
import { pictureButton } from './poster.js';
import { Solver } from './solver.js';
import { divideDraft } from './store.js';
import { Estate } from './estate.js';
import { Proposal } from './proposal.js';
import { DivideForm } from './divide_form.js';
import { ValueFields } from './value_fields.js';
import { PlaceField } from './place_field.js';
import { winnerCard } from './picture_goods.js';
import { adjustedWinner } from './shares.js';

const FILE = 'division';

class Division {
  /** `again` draws the view that is shown once more, with what is typed in it: in another language, or after another
      view. */
  constructor() {
    Object.assign(this, { drafts: {}, bids: [], solver: new Solver(), saved: divideDraft() });
    this.again = () => this.choose();
    const had = this.saved.get();
    if (had) this.again = () => this.goOn(had);
  }

  draw(...children) {
    fill(this.root, h('div', { class: 'form' }, this.wayOut(), children));
    this.announced();
  }

  wayOut() { return !this.alone && p(h('a', { href: '#' }, '← ', t('toStart'))); }

  announced() {
    const title = this.root.querySelector('h1');
    title.focus();
    entitle(title.textContent);
  }

  /** Keeps what was typed, for as long as the window is open: after Back or a reload it is offered again. */
  keep(kind) {
    const { drafts, made, bids } = this;
    this.saved.put({ kind, drafts, made, bids });
  }

  /** Something was typed before Back or a reload. */
  goOn(had) {
    this.again = () => this.goOn(had);
    const go = () => {
      Object.assign(this, { drafts: had.drafts, made: had.made, bids: had.bids ?? [] });
      this.setUp(had.kind);
    };
    const anew = () => { this.saved.drop(); this.choose(); };
    this.draw(heading(t('divide.title')), h('p', { class: 'lead' }, t('divide.goOn')), h('p', { class: 'row' },
      action({ class: 'main', click: go }, t('divide.goOnButton')), action({ click: anew }, t('divide.afresh'))));
  }

  /** The first view: which kind? */
  choose() {
    this.again = () => this.choose();
    const kindOf = (kind) => h('li', {}, action({ class: `kind ${kind}`, click: () => this.setUp(kind) }, art(kind),
      h('span', {}, h('strong', {}, t(`kinds.${kind}.title`)), h('span', {}, t(`kinds.${kind}.short`)))));
    fill(this.root, this.wayOut(), heading(t('divide.title')),
      h('p', { class: 'lead' }, t('divide.lead')), h('h2', { class: 'sr' }, t('divide.what')),
      h('ul', { class: 'kinds three' }, Object.keys(THINGS).map(kindOf)),
      !this.alone && h('p', { class: 'row' }, h('a', { href: 'divide.html', download: 'fairsplit-divide.html' },
        t('divide.file'))));
    this.announced();
  }

  /** Who divides what. */
  setUp(kind) {
    const keep = (draft) => { this.drafts[kind] = draft; this.keep(kind); };
    const form = new DivideForm(kind, this.drafts[kind] ?? {}, (made, draft) => this.begin(made, draft), keep);
    this.again = () => { this.drafts[kind] = form.draft; this.setUp(kind); };
    this.draw(heading(t(`kinds.${kind}.title`)), form.form,
      p(action({ class: 'link', click: () => this.choose() }, t('divide.back'))));
    form.check();
  }

  /** The people and things are there. What somebody said before is kept wherever it still fits. */
  begin(made, draft) {
    const before = this.made?.kind === made.kind ? this.made : null;
    const things = made[THINGS[made.kind]];
    const isSame = before && JSON.stringify(before[THINGS[made.kind]]) === JSON.stringify(things)
      && before.rent === made.rent;
    this.bids = made.members.map((member, i) => (isSame && before.members[i] === member ? this.bids[i] : undefined));
    this.drafts[made.kind] = draft;
    Object.assign(this, { made, isPassed: draft.isPassed, hasChips: draft.hasChips });
    this.keep(made.kind);
    if (made.kind === 'fares' && !this.isPassed) this.places();
    else this.ask(0);
  }

  /** The next person: behind a curtain where the device is passed around. */
  ask(i) {
    this.again = () => this.ask(i);
    const { members } = this.made;
    if (i === members.length) { this.ready(); return; }
    if (!this.isPassed) { this.bid(i); return; }
    const says = (words) => t(words, { name: name(members[i]) });
    this.draw(heading(says('divide.handTo')), h('p', { class: 'lead' }, says('divide.hidden')),
      h('p', { class: 'row' }, action({ class: 'main', click: () => this.bid(i) }, says('divide.take'))));
  }

  /** Of a taxi whose riders sit together: where each of them gets off, at once. */
  places() {
    this.again = () => this.places();
    const { made, bids } = this;
    const put = (i) => ({ target }) => { bids[i] = Number(target.value) || null; this.keep('fares'); };
    const row = (member, i) => h('div', { class: 'field' }, h('label', { for: `off-${i}` }, name(member)),
      h('select', { id: `off-${i}`, change: put(i) },
        h('option', { value: 0 }, t('divide.notOn')),
        made.places.map((place, at) => h('option', { value: at + 1, selected: bids[i] === at + 1 }, place))));
    const rows = made.members.map(row);
    made.members.forEach((_, i) => { bids[i] ??= null; });
    this.draw(heading(t('divide.whereOff')), rows, h('p', { class: 'row' },
      action({ class: 'main', click: () => this.ready() }, t('divide.last')),
      action({ click: () => this.setUp('fares') }, t('divide.back'))));
  }

  /** What one person says; `typed` is what stood in the fields before. */
  bid(i, typed) {
    const { made, bids } = this;
    const message = h('div', { 'aria-live': 'polite' });
    const held = bids[i] ?? null;
    const given = made.kind === 'fares' ? { place: held } : { values: held };
    const calm = () => fill(message);
    const fields = made.kind === 'fares' ? new PlaceField(made, given)
      : new ValueFields(made, given, { alive: () => fields.set.isConnected, calm, message, hasChips: this.hasChips });
    if (typed !== undefined) fields.raw = typed;
    this.again = () => this.bid(i, fields.raw);
    const go = (bid) => { bids[i] = bid; this.keep(made.kind); this.ask(i + 1); };
    const send = () => {
      const fault = fields.wrong();
      if (fault) fields.complain(fault);
      else { const { values, place } = fields.said(); go(values ?? place); }
    };
    const words = i === made.members.length - 1 && !this.isPassed ? 'divide.last' : 'divide.next';
    this.draw(h('h1', { class: 'tight', tabindex: -1 }, t(`bid.${made.kind}`, { name: name(made.members[i]) })),
      fields.set, message, h('div', { class: 'bar' }, fields.sum, action({ class: 'main', click: send }, t(words))),
      h('p', { class: 'row' },
        made.kind !== 'rent' && action({ click: () => go(null) }, t('divide.skip', { name: name(made.members[i]) })),
        !this.isPassed && action({ click: () => (i ? this.bid(i - 1) : this.setUp(made.kind)) }, t('divide.back'))));
  }

  /** All have said it. */
  ready() {
    this.again = () => this.ready();
    if (this.bids.filter((bid) => bid !== null).length < 2) { this.fault(t('divide.tooFew')); return; }
    if (!this.isPassed) { this.solve(); return; }
    this.draw(heading(t('allBid')), h('p', { class: 'lead' }, t('divide.allHere')),
      h('p', { class: 'row' }, action({ class: 'main', click: () => this.solve() }, t('divide.show'))));
  }

  anew() { return action({ click: () => this.setUp(this.made.kind) }, t('divide.anew')); }

  fault(says, ...more) {
    this.again = () => this.fault(says, ...more);
    this.draw(heading(t('none.title')), box('bad', p(says)), h('p', { class: 'row' }, more, this.anew()));
    announce(this.root.querySelector('.box').textContent);
  }

  async solve() {
    const title = heading(t('divide.working'));
    const stop = () => { this.isStopped = true; this.solver.stop(); };
    this.isStopped = false;
    this.again = () => this.solve();
    this.draw(title, h('p', { class: 'row' }, action({ click: stop }, t('divide.stop'))));
    const answer = await this.solver.solve({ ...this.made, bids: this.bids });
    if (!title.isConnected) return;
    if (this.isStopped) this.stopped();
    else if (answer.status === 1) this.search(new Estate({ ...this.made, bids: this.bids }), (one) => one.search());
    else this.answered(answer);
  }

  /** The specified search has passed its limit: another one goes on, which is stronger. */
  async search(estate, begin) {
    const title = heading();
    const draw = () => { fill(title, t('divide.working')); this.draw(title, estate.parts); };
    this.again = draw;
    draw();
    const answer = await begin(estate);
    if (!title.isConnected) return;
    if (answer.status === 1 || (estate.isStopped && estate.owners)) this.found(estate);
    else if (estate.isStopped) this.stopped();
    else this.answered(answer);
  }

  /** Somebody stopped it. */
  stopped() {
    this.again = () => this.stopped();
    this.draw(heading(t('divide.stoppedTitle')), h('p', { class: 'lead' }, t('divide.stopped')),
      h('p', { class: 'row' }, action({ class: 'main', click: () => this.solve() }, t('again')), this.anew()));
  }

  answered({ status, text: written, says }) {
    if (status === null) this.fault(t('divide.noModule'));
    else if (status !== 0) this.fault(t('divide.refused', { what: written }));
    else if (says !== 'yes') this.fault(t('divide.unproved', { says }));
    else this.show(written);
  }

  /** Nobody can say yet which division is the best: the best one found, and a longer search. For two there is another
      way. */
  found(estate) {
    this.again = () => this.found(estate);
    const { made, bids } = this;
    const who = made.members.map((_, i) => i + 1).filter((m) => bids[m - 1] !== null);
    const points = who.map((m) => bids[m - 1]);
    const words = h('p', { class: 'hint' }, t('winner.computed'));
    const both = who.length === 2 && winnerCard({ members: made.members, things: made.goods, who,
      ...adjustedWinner(points.map((row) => row.map(BigInt))) }, [words], true);
    const on = estate.canGoOn && action({ class: 'main', click: () => this.search(estate, (one) => one.more()) },
      t('none.searchOn'));
    this.draw(heading(t('none.bestFound')), both, new Proposal({ people: who.map((m) => made.members[m - 1]),
      goods: made.goods, points, owners: estate.owners.map((owner) => owner - 1) }).drawn(on, this.anew()));
  }

  /** The division, as in a round. */
  show(certificate) {
    const { made } = this;
    this.again = () => this.show(certificate);
    const names = { title: made.title, members: made.members, things: made[THINGS[made.kind]], you: 0 };
    const checks = judge(certificate, (count) => tellBranches(this.root, count));
    showVerdicts(this.root, checks, (found) => {
      fill(this.root, h('p', { class: 'eyebrow' }, name(made.title)),
        this.drawn(found, { said: found.said, names }, certificate));
      this.announced();
      announce(text('result.ready'));
    });
  }

  drawn(found, scene, certificate) {
    if (found.verdict !== 'yes') return [heading(t('none.title')), noYes(found), h('p', { class: 'row' }, this.anew())];
    const shown = picture(scene);
    const { currency } = this.drafts[this.made.kind];
    const bare = { click: () => download(`${FILE}-certificate.txt`, certificate) };
    const proof = proofLine(found, [], false, p(shown.why), elsewhere(scene, certificate, { file: FILE, currency }),
      h('p', { class: 'row' }, action(bare, t('files.certificate'))), secondCheck(found));
    return [hero(scene, shown, false, proof), shown.parts, h('p', { class: 'row after' }, pictureButton(scene, FILE),
      action({ click: () => print() }, icon('print'), t('files.print')), this.anew())];
  }
}

let division = null;

/** The view. `alone` is the file that is handed out, which has no other one. */
export function divideView(root, alone = false) {
  division ??= new Division();
  Object.assign(division, { root, alone });
  division.again();
}

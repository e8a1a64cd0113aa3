// The form that makes a round.
import { action, box, byId, field, fill, h, heading, p, showFault } from './dom.js';
import { moment, t } from './language.js';
import { CHIPS, THINGS } from './rules.js';
import { idOf } from './form_faults.js';
import { hostNow, isOpen, sentence } from './api.js';
import { make, newTag, pending } from './creation.js';
import { formDraft } from './store.js';
import { SplitForm } from './form.js';
import { rememberTick } from './remember.js';
import { usualEnd, usualEnds } from './usual_end.js';

/** A moment as a field for a local date and time has it. */
const local = (ms) => new Date(ms - new Date(ms).getTimezoneOffset() * 60_000).toISOString().slice(0, 16);

/** Begins a new round with the people and things of an old one. */
export function again({ kind, title, members, rent, flag, legs, currency, ...more }) {
  formDraft(kind).put({ title, people: members, things: more[THINGS[kind]], amount: rent ?? flag, ways: { legs },
    ...(kind === 'goods' ? { hasChips: currency === CHIPS } : { currency }) });
  location.hash = `new-${kind}`;
}

class CreationForm extends SplitForm {
  constructor(kind) {
    const saved = formDraft(kind);
    const start = saved.get() ?? {};
    super(kind, start, 'form.make');
    this.saved = saved;
    const until = start.until ?? local(usualEnd(kind, hostNow()));
    this.deadline = h('input', { type: 'datetime-local', value: until, min: local(hostNow()), required: true });
    this.picks = h('div', { class: 'choices' });
    this.reads = h('p', { class: 'reads' });
    this.remember = rememberTick(start.remembers);
    this.begin([this.when(), this.remember.tick]);
    if (saved.get()) this.button.after(action({ click: () => { saved.drop(); this.redraw(); } }, t('form.afresh')));
  }

  now() { return hostNow(); }

  /** Until when: a few times to pick from, or any other. */
  when() {
    const { kind } = this;
    const zone = Intl.DateTimeFormat().resolvedOptions().timeZone;
    const node = field('deadline', t('form.deadline'), this.deadline,
      [t(kind === 'rent' ? 'endsRent' : 'ends'), ' ', t('form.deadlineHint', { zone })]);
    this.deadline.before(this.picks);
    this.deadline.after(this.reads);
    return node;
  }

  /** Which of the usual times is picked, and the day of what is there in words. */
  drawTimes() {
    const pick = (value) => () => { this.deadline.value = value; this.changed(); this.check(); };
    const one = ([words, ms]) => action({ 'aria-pressed': String(local(ms) === this.deadline.value),
      click: pick(local(ms)) }, t(`form.${words}`));
    fill(this.picks, usualEnds(this.kind, hostNow()).map(one));
    const end = new Date(this.deadline.value).getTime();
    fill(this.reads, !Number.isNaN(end) && `= ${moment(end)}`);
  }

  changed() { this.saved?.put({ ...this.draft, until: this.deadline.value, remembers: this.remember.isTicked() }); }

  read() {
    const end = new Date(this.deadline.value);
    return this.readUntil(Number.isNaN(end.getTime()) ? '' : end.toISOString().replace(/\.\d+/, ''));
  }

  check() {
    const wrong = super.check();
    if (!this.form) return wrong;
    this.drawTimes();
    return wrong;
  }

  async done(creation) {
    this.button.disabled = true;
    fill(this.button, t('form.making'));
    const refused = await make(JSON.stringify({ ...creation, tag: newTag() }),
      { currency: this.mark, remembers: this.remember.isTicked() });
    this.button.disabled = false;
    fill(this.button, t('form.make'));
    if (refused) this.tell(refused);
  }

  /** A refusal stands beside its field, where it has one. */
  tell(refused) {
    const id = idOf(refused.code === 'bad_field' ? refused.body.field : '');
    if (showFault(id, sentence(refused))) byId(id)?.focus();
    else fill(this.notes, box('bad', sentence(refused)), isOpen(refused) && pending());
  }
}

/** The form of a kind. */
export function create(root, kind) {
  const view = new CreationForm(kind);
  view.redraw = () => create(root, kind);
  fill(root, h('div', { class: 'form' }, p(h('a', { href: '#' }, '← ', t('toStart'))),
    heading(t(`kinds.${kind}.title`)), h('p', { class: 'lead' }, t(`kinds.${kind}.about`)), view.form));
  view.check();
}

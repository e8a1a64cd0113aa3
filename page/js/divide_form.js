// The form of a division on this device: who divides what, and who types the numbers.
import { h } from './dom.js';
import { t } from './language.js';
import { SplitForm } from './form.js';

const MINUTE = 60_000; // a division on this device has no deadline; the rules want one

export class DivideForm extends SplitForm {
  /** `start` is what the form held before; `done` gets the case, and what the form holds. */
  constructor(kind, start, done, changed = () => {}) {
    super(kind, start, 'divide.begin');
    Object.assign(this, { isPassed: start.isPassed ?? kind !== 'fares', finish: done, noteChange: changed });
    this.begin(this.how());
  }

  now() { return Date.now(); }

  /** Whether each answers alone, or one person types all. */
  how() {
    const way = (isPassed, words) => h('label', { class: 'place' }, h('input', { type: 'radio', name: 'how',
      checked: this.isPassed === isPassed, change: () => { this.isPassed = isPassed; } }), h('span', {}, t(words)));
    return h('fieldset', {}, h('legend', {}, t('divide.who')),
      h('div', { class: 'places' }, way(true, 'divide.pass'), way(false, 'divide.type')));
  }

  get draft() { return { ...super.draft, isPassed: this.isPassed }; }

  changed() { if (this.form) this.noteChange(this.draft); }

  read() { return this.readUntil(new Date(this.now() + MINUTE).toISOString()); }

  done({ deadline, ...made }) { this.finish(made, this.draft); }
}

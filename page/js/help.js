// The help of the view that is shown: one screen, in a dialog above it, and the way to the guide.
import { action, byId, h, p } from './dom.js';
import { tableStyle } from './more_style.js';
import { knows, learnMore, t } from './language.js';

/** The paragraphs of a topic, which are numbered from 1. */
function paragraphs(topic, n = 1) {
  return knows(`helps.${topic}.${n}`) ? [p(t(`helps.${topic}.${n}`)), ...paragraphs(topic, n + 1)] : [];
}

const GUIDE = { bid: 'members', result: 'members', check: 'certificates' }; // the page that goes on where a topic ends
const TRANSLATED = { de: ['members', 'organisers'] }; // what of the guide is there in another language than English

/** A link to the guide, which the server has beside the page. It opens beside what is typed here. */
function guide(topic) {
  const page = GUIDE[topic] ?? 'organisers';
  const spoken = document.documentElement.lang;
  const language = TRANSLATED[spoken]?.includes(page) ? spoken : 'en';
  const href = `help/${page}${language === 'en' ? '' : `.${language}`}.html`;
  return p(h('a', { href, target: '_blank', hreflang: language }, t('helps.guide')));
}

/** Opens the help of the view in `main`, whose data-view names it; without a name that of the start. A page that is a
    file of its own is `alone`: it has no guide beside it. */
export async function help(alone = false) {
  await Promise.all([learnMore(), tableStyle()]);
  const topic = byId('main').dataset.view ?? 'start';
  const dialog = h('dialog', { class: 'help', 'aria-labelledby': 'help-title', close: () => dialog.remove() },
    h('h2', { id: 'help-title' }, t(`helps.${topic}.title`)), paragraphs(topic), !alone && guide(topic),
    action({ class: 'main', click: () => dialog.close() }, t('helps.close')));
  document.body.append(dialog);
  dialog.showModal();
}

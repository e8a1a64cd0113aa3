// Which language the page speaks, and how a sentence of words.js becomes text and elements. A translation is three more
// files, and two lines here.
import { h, name } from './dom.js';
import { keep, kept } from './store.js';

const LANGUAGES = {
  en: { called: 'English', load: () => import('./words.js'),
    more: () => [import('./words.make.js'), import('./words.more.js')] },
  de: { called: 'Deutsch', load: () => import('./words.de.js'),
    more: () => [import('./words.make.de.js'), import('./words.more.de.js')] },
  es: { called: 'Español', load: () => import('./words.es.js'),
    more: () => [import('./words.make.es.js'), import('./words.more.es.js')] },
  fr: { called: 'Français', load: () => import('./words.fr.js'),
    more: () => [import('./words.make.fr.js'), import('./words.more.fr.js')] },
  it: { called: 'Italiano', load: () => import('./words.it.js'),
    more: () => [import('./words.make.it.js'), import('./words.more.it.js')] },
  pl: { called: 'Polski', load: () => import('./words.pl.js'),
    more: () => [import('./words.make.pl.js'), import('./words.more.pl.js')] },
};

let words = {};
let spoken = 'en';
let plural = new Intl.PluralRules('en');

/** The browser's own form of the language that is spoken, such as en-GB: by it numbers and times are written. */
export const locale = () => navigator.languages.find((tag) => tag.split('-')[0] === spoken) ?? spoken;

/** The first language that the browser wants and the page has. */
const best = () => navigator.languages.map((tag) => tag.split('-')[0]).find((tag) => tag in LANGUAGES);

/** Loads the sentences: of the language that was chosen here before, else of the best one. */
export async function learn(wanted = kept('language') ?? best()) {
  const code = wanted in LANGUAGES ? wanted : 'en';
  ({ words } = await LANGUAGES[code].load());
  spoken = code;
  plural = new Intl.PluralRules(spoken);
  document.documentElement.lang = spoken;
}

/** Loads the sentences that nobody needs to bid: of results, checks, and divisions without a server. */
export async function learnMore() {
  const code = spoken;
  const more = await Promise.all(LANGUAGES[code].more());
  if (code === spoken) words = Object.assign({}, words, ...more.map((one) => one.words));
}

/** The list of languages to choose from. `redraw` shows the view anew; `failed` says that a language did not load. */
export function languageSwitch(redraw, failed = () => {}) {
  const change = async ({ currentTarget: list }) => {
    try { await learn(list.value); } catch { list.value = spoken; failed(); return; }
    keep('language', spoken);
    redraw();
  };
  return h('select', { class: 'language', 'aria-label': text('language'), change }, Object.entries(LANGUAGES)
    .map(([code, { called }]) => h('option', { value: code, lang: code, selected: code === spoken }, called)));
}

const find = (path) => path.split('.').reduce((at, step) => at?.[step], words);

/** Whether there is a sentence under this key. */
export const knows = (path) => find(path) !== undefined;

/** `*text*` is strong, and `{key}` is what was given under that key. */
function parts(template, given) {
  return template.split(/(\{\w+\}|\*[^*]+\*)/).map((part) => {
    if (part[0] === '{') return given[part.slice(1, -1)] ?? '';
    return part[0] === '*' && part.length > 1 ? h('strong', {}, parts(part.slice(1, -1), given)) : part;
  });
}

/** A sentence as texts and elements. Where it has the forms of a language's plural, `n` decides. */
export function t(path, given = {}) {
  const found = find(path) ?? path;
  return parts(typeof found === 'string' ? found : found[plural.select(Number(given.n))] ?? found.other, given);
}

/** A sentence as text alone, for labels and for what is read aloud. */
export const text = (path, given) => (
  t(path, given).flat(Infinity).map((part) => part?.textContent ?? String(part)).join(''));

/** Gives the window a title of its own for each view. */
export function entitle(...words) { document.title = [...words, text('site')].filter(Boolean).join(' – '); }

/** Names in a row, with commas and an "and". */
export const names = (list) => new Intl.ListFormat(locale()).formatToParts(list)
  .map(({ type, value }) => (type === 'element' ? name(value) : value));

/** A whole number as it is written in this language. */
export const number = (n, digits = 0) => n.toLocaleString(locale(), { maximumFractionDigits: digits });

const DAY = 86_400_000;
const LONG = { weekday: 'long', day: 'numeric', month: 'long', year: 'numeric', hour: '2-digit', minute: '2-digit' };

/** A moment with its date. */
export const moment = (ms) => new Date(ms).toLocaleString(locale(), LONG);

/** A moment that is near by its day of the week. */
export const shortMoment = (ms, now) => (ms - now < 6 * DAY
  ? new Date(ms).toLocaleString(locale(), { weekday: 'long', hour: '2-digit', minute: '2-digit' }) : moment(ms));

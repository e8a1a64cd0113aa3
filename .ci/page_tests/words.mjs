// Rung (b) of .ci/page, with node: the sentences of each language as the page chooses them, with the forms that its plural needs.
import { readFileSync } from 'node:fs';
import { dirname, join } from 'node:path';
import { fileURLToPath } from 'node:url';
import { storage } from './fake_dom.mjs';

const JS = join(dirname(fileURLToPath(import.meta.url)), '../../page/js');
globalThis.localStorage = storage(new Map());
globalThis.sessionStorage = storage(new Map());
globalThis.location = { pathname: '/h7/' };
globalThis.document = { documentElement: {} };
const { knows, learn, learnMore, text } = await import(`${JS}/language.js`);
let right = 0, wrong = 0;

function same(what, got, wanted) {
  const [a, b] = [JSON.stringify(got), JSON.stringify(wanted)];
  if (a === b) { right++; return; }
  wrong++;
  console.log(`words: ${what} gives ${a} and not ${b}`);
}

const NUMBERS = Array.from({ length: 1001 }, (_, n) => n);
const CATEGORIES = ['zero', 'one', 'two', 'few', 'many', 'other'];
const isPlural = (of) => 'other' in of && Object.keys(of).every((key) => CATEGORIES.includes(key));

/** The keys of the sentences that have forms of a plural. */
const plurals = (words, above = '') => Object.entries(words).filter(([, of]) => typeof of === 'object').flatMap(([key, of]) => (
  isPlural(of) ? [[`${above}${key}`, of]] : plurals(of, `${above}${key}.`)));

const codes = [...readFileSync(join(JS, 'language.js'), 'utf8').matchAll(/^ {2}(\w+): \{ called/gm)].map(([, code]) => code);
same('the languages', codes, ['en', 'de', 'es', 'fr', 'it', 'pl']);
for (const code of codes) {
  const rules = new Intl.PluralRules(code);
  const needed = [...new Set(NUMBERS.map((n) => rules.select(n)))].sort();
  const end = code === 'en' ? '' : `.${code}`;
  for (const file of [`words${end}`, `words.make${end}`, `words.more${end}`]) {
    const { words } = await import(`${JS}/${file}.js`);
    for (const [key, of] of plurals(words)) same(`${key} of ${file}`, needed.filter((form) => !(form in of)), []);
  }
  await learn(code);
  await learnMore();
  same(`the page speaks ${code}`, [document.documentElement.lang, knows('helps.bid.1'), knows('helps.bid.9')], [code, true, false]);
}
const POINTS = {
  en: ['1 point', '2 points', '0 points'], de: ['1 Punkt', '2 Punkte', '0 Punkte'], es: ['1 punto', '2 puntos', '0 puntos'],
  fr: ['1 point', '2 points', '0 point'], it: ['1 punto', '2 punti', '0 punti'], pl: ['1 punkt', '2 punkty', '0 punktów'],
};
for (const [code, wanted] of Object.entries(POINTS)) {
  await learn(code);
  same(`points in ${code}`, [1, 2, 0].map((n) => text('points', { n })), wanted);
}
same('points in Polish', [5, 12, 22, 25, 101, 104, 1000].map((n) => text('points', { n })),
  ['5 punktów', '12 punktów', '22 punkty', '25 punktów', '101 punktów', '104 punkty', '1000 punktów']);

// A trip from the start, whose word has an article: no preposition stands before it on its own. And what is wrong with a trip stands behind a colon as this language writes it.
const { Ways } = await import(`${JS}/ways.js`);
const FIRST = { en: 'From the start to X', de: 'Strecke Start → X', es: 'Trayecto inicio → X', fr: 'Trajet départ → X', it: 'Tragitto partenza → X', pl: 'Przejazd start → X' };
for (const [code, wanted] of Object.entries(FIRST)) {
  await learn(code);
  await learnMore();
  same(`a trip from the start in ${code}`, Ways.prototype.way.call({ places: { called: () => 'X' } }, 0, 0), wanted);
  same(`that it cost something else, in ${code}`, /\b(?:de|à|a|da) (?:el|le|la)\b/i.exec(text('differ.legFirst', { to: 'X', then: '1', now: '2' })), null);
  same(`the arrows of the table in ${code} stay with their words`, / [↓→]/.test(text('form.fromTo')), false);
}

// A name or a place stands as it was typed: no word is before it that changes before some letters, or that asks for a case of it.
const TYPED = '(?:name|names|whose|from|to|place|room|thing|good|share|a|b)';
const THING = '(?:from|to|place|room|thing|good|share)';
const UNFIT = {
  de: `(?:bekommst|bekommt|für|mit|nach|ohne|von) \\*?\\{${THING}\\}|\\{${THING}\\}\\*? (?:davon|daraus)`, es: `(?:y|o) \\*?\\{${TYPED}\\}`, fr: `(?:de|que|si) \\*?\\{${TYPED}\\}`,
  it: `(?:a|e|o) \\*?\\{${TYPED}\\}`, pl: `(?:bez|brakuje|dla|do|dostajesz|od|o|z|za|zabrać z tego) \\*?\\{${TYPED}\\}`,
};
const sentences = (of) => (typeof of === 'string' ? [of] : Object.values(of).flatMap(sentences));
for (const [code, unfit] of Object.entries(UNFIT)) {
  for (const file of [`words.${code}`, `words.make.${code}`, `words.more.${code}`]) {
    const { words } = await import(`${JS}/${file}.js`);
    same(`names that do not fit their place in ${file}`, sentences(words).filter((sentence) => new RegExp(`(?:^|[^\\p{L}])(?:${unfit})`, 'iu').test(sentence)), []);
  }
}
await learn('xx');
same('a language that is not there', document.documentElement.lang, 'en');

console.log(`words: ${right} right, ${wrong} wrong`);
process.exit(wrong ? 1 : 0);

// Money in whole cents: how an amount that somebody typed is read, and how one is shown, by the habits of a locale.

const SIGN = '(?:[A-Z]{3}|(?:US|A|C|NZ|HK|S|R)?\\p{Sc}|zł|kr\\.?|Kč|Ft|lei|Fr\\.?)';
const AROUND = new RegExp(`^${SIGN}\\s*|\\s*${SIGN}$`, 'gu');
const DASH = /[.,]\s*[-–—]{1,2}$/; // 1450,– is 1450
const PLAIN = /^\d{1,9}$/;
const IN_THREES = /^\d{1,3}(?:([.,'])\d{3})(?:\1\d{3})*$/;
const BY_LAKHS = /^\d{1,2}(?:,\d{2})*,\d{3}$/; // 1,00,000 in India

const none = { cents: NaN };

/** A whole number, plain or with this sign between its groups, or NaN. */
function wholeOf(text, sign) {
  const isGrouped = IN_THREES.test(text) && text.includes(sign) || sign === ',' && BY_LAKHS.test(text);
  const digits = text.split(sign).join('');
  return PLAIN.test(digits) && (PLAIN.test(text) || isGrouped) ? Number(digits) : NaN;
}

const sumOf = (whole, fraction) => whole * 100 + Number(fraction.padEnd(2, '0'));

/** Three digits behind the only sign: thousands where that is the habit; else it could be both,
    as 1.450 in English: whoever typed it is asked. */
function three(whole, sign, fraction, { point, group }) {
  const isWhole = /^[1-9]\d{0,2}$/.test(whole);
  const [asGroup, asPoint] = [Number(whole + fraction) * 100, Math.round(Number(`${whole}.${fraction}`) * 100)];
  if (sign === group) return isWhole ? { cents: asGroup, isGuess: true } : none;
  if (!isWhole) return fraction.endsWith('0') ? { cents: asPoint, isGuess: true } : none;
  if (sign === point && !fraction.endsWith('0')) return none;
  return { cents: NaN, either: [asGroup, asPoint] };
}

/** An amount with one sign, which stands there once. */
function single(text, sign, habits) {
  const [whole, fraction] = text.split(sign);
  if (fraction.length === 3 && PLAIN.test(whole)) return three(whole, sign, fraction, habits);
  return { cents: /^\d{0,2}$/.test(fraction) ? sumOf(wholeOf(whole, "'"), fraction) : NaN };
}

/** What was typed: { cents }, NaN where it is no amount; with `isGuess` where the habits of a locale, { point, group },
    had to say what a sign means; with `either` of two amounts where they say nothing of it. */
export function readAmount(typed, habits) {
  const text = String(typed).trim().replace(AROUND, '').trim().replace(DASH, '').replace(/[\s'’ʼ]/g, "'");
  if (!/^\d[\d.,']*$/.test(text)) return none;
  const signs = [...text].filter((letter) => letter === '.' || letter === ',');
  if (signs.length === 0) return { cents: wholeOf(text, "'") * 100 };
  if (signs.length === 1) return single(text, signs[0], habits);
  const last = signs[signs.length - 1];
  if (signs.every((sign) => sign === last)) return { cents: wholeOf(text, last) * 100 };
  if (signs.indexOf(last) < signs.length - 1) return none; // the sign before the cents stands there once
  const [whole, fraction] = text.split(last);
  return { cents: /^\d{1,2}$/.test(fraction) ? sumOf(wholeOf(whole, signs[0]), fraction) : NaN };
}

let habits = { point: '.', group: ',' };
let shape = new Intl.NumberFormat('en', { minimumFractionDigits: 2, maximumFractionDigits: 2 });

/** From now on amounts are read and written as people of this locale write them, in this currency, or in none. */
export function setCurrency(code, locale) {
  const sign = /^[A-Z]{3}$/.test(code) && { style: 'currency', currency: code };
  shape = new Intl.NumberFormat(locale, { minimumFractionDigits: 2, maximumFractionDigits: 2, ...sign });
  const parts = shape.formatToParts(1_234_567.5);
  const of = (type) => parts.find((part) => part.type === type)?.value ?? '';
  habits = { point: of('decimal') === ',' ? ',' : '.', group: of('group') };
}

/** What somebody typed, as readAmount tells it. */
export const reading = (typed) => readAmount(typed, habits);

/** Cents of what somebody typed; NaN where it is no amount, or could be two. */
export const cents = (typed) => reading(typed).cents;

/** A whole number as somebody typed it, or NaN. */
export const whole = (typed) => (/^\d{1,9}$/.test(String(typed).trim()) ? Number(typed) : NaN);

/** Cents as a field holds them: 145050 is "1450.50", and "1450,50" where that is how numbers are written. */
export const plain = (amount) => `${Math.floor(amount / 100)}${habits.point}${String(amount % 100).padStart(2, '0')}`;

/** An amount of cents, whole or a fraction { n, d }, for people. What is no whole cent is rounded, and says so. */
export function money(amount) {
  const { n, d } = typeof amount === 'object' ? amount : { n: amount, d: 1n };
  return (d === 1n ? '' : '≈\u202f') + shape.format(Number(n) / Number(d) / 100).replace('-', '−');
}

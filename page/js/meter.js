// "The meter said": the fares of a ride, scaled to what was paid in the end. Outside of what is proved.
import { action, fill, h, name } from './dom.js';
import { t } from './language.js';
import { money, plain } from './money.js';
import { MoneyField } from './money_field.js';
import { centPlan, frac } from './fractions.js';

/** The shares of another whole, in the same proportion and in whole cents, which add up to it. Pure. */
export const scaled = (pays, whole, paid) => centPlan(pays.map((cents) => frac(cents * paid, whole)), paid);

/** The field, and below it who pays what then. */
export function meterBox(pays, whole, members) {
  if (whole <= 0n) return null;
  const out = h('ul', { class: 'metered', 'aria-live': 'polite' });
  const example = plain(Number(whole));
  const line = (cents, rider) => h('li', {}, name(members[rider]), ' ',
    h('b', { 'data-metered': cents }, money(cents)));
  const field = new MoneyField({ id: 'meter', placeholder: example, 'aria-describedby': 'meter-hint', class: 'input' },
    () => {});
  const adjust = () => {
    const { cents } = field;
    const isAmount = Number.isInteger(cents) && cents > 0;
    fill(out, isAmount ? scaled(pays, whole, BigInt(cents)).map(line)
      : h('li', { class: 'fault' }, t('bid.writeAmount', { example })));
  };
  return h('div', { class: 'meterbox' }, h('label', { for: 'meter' }, t('fares.meter')),
    h('div', { class: 'joined' }, field.input, action({ click: adjust }, t('fares.adjust'))), field.beside,
    h('p', { class: 'hint', id: 'meter-hint' }, t('fares.meterHint')), out);
}

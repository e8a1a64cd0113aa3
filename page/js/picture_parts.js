// What the pictures of the three kinds share: amounts with their exact values, and tables.
import { h } from './dom.js';
import { t } from './language.js';
import { exact } from './fractions.js';
import { money } from './money.js';
import { table } from './parts.js';

export const positive = (cents) => (cents < 0n ? -cents : cents);

/** An amount, whose exact value stands beside it for whoever reads the page by a program. */
export const amount = (a) => h('span', { class: 'num', 'data-exact': exact(a) }, money(a));

/** What somebody pays, or is paid: prices and fares may be below 0. */
export const price = (member, cents, is) => h('strong',
  { class: 'price', 'data-member': member, 'data-pays': cents, 'data-exact': exact(is) }, money(cents));

export const hint = (path, given) => h('p', { class: 'hint' }, t(path, given));

/** A part of a result, with its heading. */
export const part = (title, ...children) => h('section', {}, h('h2', {}, t(title)), children);

/** What stands below the pictures, folded up. */
export const folded = (words, ...children) => (
  h('details', { class: 'fold' }, h('summary', {}, t(words)), children));

/** A table of numbers: `cellOf` answers of a row and a column { shown, own, is }, where the own one is framed. */
export function numbers(caption, corner, heads, rows, cellOf) {
  const cell = ({ shown, own, is }) => h('td', { class: own ? 'has' : null, 'data-exact': is },
    shown, own && h('span', { class: 'sr' }, ' ', t('result.has')));
  return table(caption, [corner, heads], rows.map((row, i) => (
    h('tr', {}, h('th', { scope: 'row' }, row), heads.map((_, j) => cell(cellOf(i, j)))))));
}

/** The points that a share has for its owner. */
export const amountOfPoints = (n, member) => t('goods.points', {
  n: Number(n), points: h('b', { 'data-points': n, 'data-member': member }, n) });

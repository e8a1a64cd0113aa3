// Cards, tables and files, for the views that have them.
import { h } from './dom.js';
import { t } from './language.js';

/** A card with a heading. */
export const card = (title, ...children) => h('section', { class: 'card' }, h('h2', {}, title), children);

/** A table in a frame that scrolls sideways where it is too wide, by keys too, and that says so then. */
export function table(caption, head, rows, attributes) {
  const cells = head.flat().map((cell) => (cell.tagName === 'TH' ? cell : h('th', { scope: 'col' }, cell)));
  const frame = h('div', { class: 'scroll', tabindex: 0, role: 'region', 'aria-label': caption },
    h('table', attributes, h('caption', { class: 'sr' }, caption), h('thead', {}, h('tr', {}, cells)),
      h('tbody', {}, rows)));
  const more = h('p', { class: 'hint more', 'aria-hidden': 'true' }, t('scrolls'));
  more.hidden = true;
  if (globalThis.ResizeObserver) {
    new ResizeObserver(() => { more.hidden = frame.scrollWidth <= frame.clientWidth; }).observe(frame);
  }
  return [h('p', { class: 'hint', 'aria-hidden': 'true' }, caption), more, frame];
}

/** A sign that is seen and not read aloud. */
export const sign = (text) => h('span', { 'aria-hidden': 'true' }, text);

/** Offers bytes as a file. */
export function downloadBlob(file, blob) {
  const url = URL.createObjectURL(blob);
  h('a', { href: url, download: file }).click();
  setTimeout(() => URL.revokeObjectURL(url), 10_000);
}

/** Offers a text as a file. */
export const download = (file, text, type = 'text/plain') => (
  downloadBlob(file, new Blob([text], { type: `${type};charset=utf-8` })));

// The file that Download writes: a certificate with the names that go with it. docs/HTTP.md describes it. Pure.
import { fits } from './compare.js';

const MOST_BYTES = 5_000_000;
const isText = (one) => typeof one === 'string';
const isList = (list) => Array.isArray(list) && list.every(isText);

/** The text of the file. */
export const savedFile = ({ title, members, things }, certificate, currency = '') => (
  `${JSON.stringify({ fairsplit: 1, title, members, items: things, ...(currency && { currency }), certificate })}\n`);

/** What a text holds that somebody opened or pasted: { certificate }, with { names }, and perhaps { currency }, where
    it is a saved file; where it
    is neither, { fault }, the key of a sentence. */
export function opened(text) {
  if (!text.trim()) return { fault: 'check.empty' };
  const bare = text.replace(/^\uFEFF/, '').replace(/^(?:[ \t]*\n)+/, '').replace(/\s*$/, '\n');
  if (/^(rent|goods|fares) [^\n]*\n(members|players|riders) /.test(bare)) return { fault: 'check.isReport' };
  if (/^audit (goods|fares) /.test(bare)) return { fault: 'check.isAudit' };
  if (bare.startsWith('fairsplit pair 1\n')) return { fault: 'check.isWinner' };
  let held;
  try { held = JSON.parse(text); } catch {
    return /^[[{]/.test(bare) ? { fault: 'check.notOurs' } : { certificate: bare };
  }
  const { fairsplit, title, members, items, currency, certificate } = held ?? {};
  const whole = fairsplit === 1 && [title, certificate].every(isText) && isList(members) && isList(items);
  if (!whole || new TextEncoder().encode(text).length > MOST_BYTES) return { fault: 'check.notOurs' };
  const hasCurrency = /^[A-Z]{3}$/.test(currency);
  return { certificate, names: { title, members, things: items }, ...(hasCurrency && { currency }) };
}

/** Whether the names of a saved file can be those of its certificate. */
export const namesFit = (said, names) => names.members.length <= 12 && fits(said, names);

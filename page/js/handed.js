// A result that an organiser's browser worked out, on its way to the others: as a link that carries it behind its #, of
// which browsers send nothing to anybody, or as one file.
import { action, fill, h, p } from './dom.js';
import { download } from './parts.js';
import { icon } from './draw.js';
import { t, text } from './language.js';
import { opened, savedFile } from './saved.js';
import { copyButton, sendButton } from './share.js';
import { keep, kept } from './store.js';

const MOST = 4000; // signs in a link: what messengers leave whole
const DEFLATE = 'deflate-raw';
const slotOf = ({ id, key }) => `handed.${id}.${key.slice(0, 12)}`;

const arrived = new Map(); // by links that were just opened, and not yet judged

/** A certificate has come for the round of a link. */
export const arrive = (link, certificate) => arrived.set(slotOf(link), certificate);

/** The certificate that was handed to this browser for the round of a link, or null. */
export const handedTo = (link) => arrived.get(slotOf(link)) ?? kept(slotOf(link));

/** Keeps it, once it was judged; null forgets it. */
export function keepHanded(link, certificate) {
  arrived.delete(slotOf(link));
  keep(slotOf(link), certificate);
}

const bytesThrough = async (bytes, stream) => (
  new Uint8Array(await new Response(new Blob([bytes]).stream().pipeThrough(stream)).arrayBuffer()));

/** A text in letters and digits that can stand in a link: the first says whether it is compressed. */
async function packed(words) {
  const bytes = new TextEncoder().encode(words);
  const isShort = Boolean(globalThis.CompressionStream);
  const all = isShort ? await bytesThrough(bytes, new CompressionStream(DEFLATE)) : bytes;
  const letters = btoa(Array.from(all, (byte) => String.fromCharCode(byte)).join(''));
  return (isShort ? 'z' : 'p') + letters.replace(/\+/g, '-').replace(/\//g, '_').replace(/=+$/, '');
}

/** The text again. Throws where it is none. */
async function unpacked([way, ...letters]) {
  const all = atob(letters.join('').replace(/-/g, '+').replace(/_/g, '/'));
  const bytes = Uint8Array.from(all, (sign) => sign.charCodeAt(0));
  const plain = way === 'z' ? await bytesThrough(bytes, new DecompressionStream(DEFLATE)) : bytes;
  return new TextDecoder().decode(plain);
}

/** What a fragment with a result says: { id, word }; null where it is none. */
export function parseHanded(words) {
  const found = /#result\.(\d{1,10})\.([zp][\w-]+)\s*$/.exec(words);
  return found && { id: found[1], word: found[2] };
}

/** The text of a file that a link carries, an empty one where the link is damaged. */
export const fileOf = ({ word }) => unpacked(word).catch(() => '');

/** What somebody pasted or opened for a round, a link or the text of a file: { certificate }, or { fault }, the key of
    a sentence. */
export async function taken(words, id) {
  const link = parseHanded(words);
  if (link && link.id !== id) return { fault: 'estate.otherRound' };
  return opened(link ? await fileOf(link) : words);
}

/** The buttons that hand a result on: its link, or its file where a link would be too long. */
export function handing(names, certificate, { id, currency }) {
  const place = h('p', { class: 'row' });
  const words = savedFile(names, certificate, currency);
  const whose = text('estate.share');
  const save = () => download(`result-${id}.txt`, words);
  packed(words).catch(() => '').then((word) => {
    const url = `${location.origin}${location.pathname}#result.${id}.${word}`;
    const given = { title: names.title, words: text('estate.message', { title: names.title }), url, whose };
    const isLink = word && url.length < MOST;
    const first = isLink ? sendButton(given, () => {}, 'estate.share') : fileButton(names.title, id, words);
    first?.setAttribute('class', 'button main');
    fill(place, first, isLink && copyButton(url, whose), action({ click: save }, icon('save'), t('estate.save')));
  });
  return place;
}

/** The button that hands the file to the system's share sheet; null where there is none. */
function fileButton(title, id, words) {
  const given = { title, files: [new File([words], `result-${id}.txt`, { type: 'text/plain' })] };
  return navigator.canShare?.(given)
    ? action({ click: () => navigator.share(given).catch(() => {}) }, icon('send'), t('estate.share')) : null;
}

/** The fields that take a result: `show` gets its certificate. */
export function taking({ id }, show) {
  const area = h('textarea', { id: 'handed', rows: 4, spellcheck: 'false', autocomplete: 'off' });
  const wrong = h('p', { class: 'fault', id: 'handed-fault', 'aria-live': 'polite' });
  const take = async (words) => {
    const { certificate, fault } = await taken(words, id);
    fill(wrong, fault && t(fault));
    if (certificate) show(certificate);
  };
  const open = async (file) => { if (file) take(await file.text()); };
  const pick = h('input', { type: 'file', accept: '.txt,.json,text/plain,application/json',
    change: ({ target }) => open(target.files[0]) });
  const drop = (event) => { event.preventDefault(); open(event.dataTransfer.files[0]); };
  return h('section', { class: 'card', dragover: (event) => event.preventDefault(), drop },
    h('label', { for: 'handed' }, t('estate.take')), area, wrong,
    h('p', { class: 'row' }, action({ class: 'main', click: () => take(area.value) }, t('estate.show')),
      h('label', { class: 'file' }, t('check.open'), ' ', pick)), p(t('estate.private')));
}

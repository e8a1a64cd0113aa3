// Ways to hand a link on: the system's share sheet, a message to be pasted, a letter, and a code to be scanned.
import { action, announce, fill, h } from './dom.js';
import { t, text } from './language.js';
import { icon, svg } from './draw.js';
import { qrCode } from './qr.js';

const SHOWN = 3000; // so long a button says that it has done it

/** Says on a button that it has done it, and then what it says otherwise. */
function done(button, sign, says, usual) {
  fill(button, icon(sign), says);
  setTimeout(() => fill(button, icon(sign), usual), SHOWN);
}

/** Puts a text onto the clipboard; where that is forbidden, marks the field that has the link. */
async function copied(words, button, { whose, usual, input }) {
  try {
    await navigator.clipboard.writeText(words);
    done(button, 'copy', t('links.copied'), usual);
    announce(text('links.copiedOf', { whose }));
  } catch {
    if (input) { input.focus(); input.select(); }
    done(button, 'copy', t('links.byKeys'), usual);
  }
}

/** The button that hands `url` on with `words`: by the share sheet of the system, or as a message to be pasted. `sent`
    is called once it was pressed; `says` is what stands on it otherwise. */
export function sendButton({ title, words, url, whose }, sent, says) {
  const given = { title, text: words, url };
  const named = (of) => ({ class: 'button', 'aria-label': says ? `${text(says)}: ${whose}` : text(of, { whose }) });
  if (navigator.share && (navigator.canShare?.(given) ?? true)) {
    const click = () => navigator.share(given).then(sent, () => {});
    return action({ ...named('links.sendOf'), click }, icon('send'), t(says ?? 'links.sendIt'));
  }
  const usual = t(says ?? 'links.copyMessage');
  const click = ({ currentTarget }) => copied(`${words}\n${url}`, currentTarget, { whose, usual }).then(sent);
  return action({ ...named('links.copyMessageOf'), click }, icon('copy'), usual);
}

/** A button that copies the bare link. */
export function copyButton(url, whose, input) {
  return action({ 'aria-label': text('links.copyOf', { whose }), click: ({ currentTarget }) => (
    copied(url, currentTarget, { whose, usual: t('links.copy'), input })) }, icon('copy'), t('links.copy'));
}

/** A link to a letter with it. */
export const letterLink = ({ title, words, url, whose }) => h('a', { class: 'button',
  href: `mailto:?subject=${encodeURIComponent(title)}&body=${encodeURIComponent(`${words}\n\n${url}\n`)}`,
  'aria-label': text('links.letterOf', { whose }) }, icon('send'), t('links.letter'));

const QUIET = 4; // squares of light around a code

/** The code of a link as a drawing. */
function drawn(url, whose) {
  const code = qrCode(url);
  const side = code.length + 2 * QUIET;
  const square = (x, y) => `M${x + QUIET} ${y + QUIET}h1v1h-1z`;
  const squares = code.flatMap((row, y) => row.map((dark, x) => (dark ? square(x, y) : '')));
  const label = text('links.codeOf', { whose });
  return svg('svg', { viewBox: `0 0 ${side} ${side}`, class: 'qr', role: 'img', 'aria-label': label },
    svg('path', { d: squares.join('') }));
}

/** A button that shows the code of a link in `place`, and takes it away again. */
export function codeButton(url, whose, place) {
  const button = action({ 'aria-expanded': 'false', 'aria-label': text('links.codeOf', { whose }), click: () => {
    const isShown = button.getAttribute('aria-expanded') === 'true';
    button.setAttribute('aria-expanded', String(!isShown));
    fill(place, !isShown && [drawn(url, whose), h('p', { class: 'hint' }, t('links.scan'))]);
  } }, icon('code'), t('links.code'));
  return button;
}

// The views that belong to no round.
import { box, fill, h, heading, p } from './dom.js';
import { entitle, learnMore, t, text } from './language.js';
import { tableStyle } from './more_style.js';
import { choose } from './start.js';
import { pending } from './creation.js';

/** Shows the view of a fragment, unless another one is wanted meanwhile. */
export async function showOwn(root, hash) {
  const made = /^#new-(rent|goods|fares)$/.exec(hash);
  const { create } = made ? await import('./create.js') : {};
  const { checkView } = hash === '#check' ? await import('./checkview.js') : {};
  const { showHanded } = hash.startsWith('#result.') ? await import('./handed_view.js') : {};
  const { divideView } = hash === '#divide' ? await import('./divide.js') : {};
  await Promise.all([learnMore(), tableStyle()]);
  if (hash !== location.hash) return;
  if (showHanded) { await showHanded(root, hash); return; }
  root.dataset.view = made ? 'form' : { '#check': 'check', '#divide': 'divide' }[hash] ?? 'start';
  if (made) create(root, made[1]);
  else if (checkView) { entitle(text('check.link')); checkView(root); }
  else if (divideView) divideView(root);
  else if (hash === '' || hash === '#') { entitle(); choose(root); }
  else {
    entitle(text('link.broken'));
    fill(root, heading(t('link.broken')), box('bad', t('link.brokenWhy')), p(t('link.lost')), p(t('link.lostOwn')),
      p(h('a', { href: '#' }, t('toStart'))));
  }
  const open = pending();
  if (open) root.prepend(open);
}

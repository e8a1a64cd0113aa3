// Which view is shown goes by the fragment: nothing, #new-KIND, #check, or the link of a round.
import { action, announce, box, byId, fill, h, heading, p } from './dom.js';
import { entitle, languageSwitch, learn, t, text } from './language.js';
import { parse } from './link.js';
import { askBeforeLeaving } from './store.js';

const root = byId('main');
let moved = false; // whether a view was shown before, so that the focus has to go to the new one
let view = null; // the round that is shown, as its module
let shownHash = null; // the fragment of the view that is shown

/** A part of the page did not load: said above what is there, or in its place. */
function notLoaded(isAll) {
  const again = action({ class: 'main', click: () => location.reload() }, t('again'));
  const says = box('bad', p(t('load.why')), h('p', { class: 'row' }, again));
  if (isAll) {
    entitle(text('load.title'));
    fill(root, heading(t('load.title')), says);
  } else root.prepend(says);
  announce(text('load.why'));
}

/** The help of a view is loaded when somebody opens it. */
const openHelp = () => import('./help.js').then(({ help }) => help()).catch(() => notLoaded(false));

/** The words around the view. */
function frame() {
  byId('skip').textContent = text('skip');
  fill(byId('home'), h('img', { src: 'icon.svg', alt: '', width: 28, height: 28 }), ` ${text('site')}`);
  fill(byId('languages'), action({ click: openHelp }, t('help')),
    languageSwitch(show, () => notLoaded(false)));
  fill(byId('foot'), p(t('foot')), p(h('a', { href: '#check' }, t('toCheck'))), h('div', { id: 'device' }));
}

async function show() {
  const { hash } = location;
  const link = parse(hash);
  view?.stop();
  view = null;
  delete root.dataset.view;
  askBeforeLeaving(false);
  frame();
  try {
    if (link) {
      const round = await import('./round.js');
      if (hash !== location.hash) return;
      view = round;
      round.show(root, link, () => notLoaded(true));
    } else {
      const { showOwn } = await import('./views.js');
      await showOwn(root, hash);
    }
  } catch { notLoaded(true); }
  if (moved) { window.scrollTo(0, 0); root.querySelector('h1')?.focus(); }
  moved = true;
  const leaves = hash !== shownHash;
  shownHash = hash;
  import('./device.js').then(({ leaveDevice, tellDevice }) => { // nobody needs it at once
    if (leaves) leaveDevice();
    tellDevice(root, show);
  }, () => {});
}

byId('skip').addEventListener('click', (event) => { event.preventDefault(); root.querySelector('h1')?.focus(); });
window.addEventListener('hashchange', show);
learn().then(show, () => root.querySelector('.boot')?.classList.remove('boot')); // without words, those of the file

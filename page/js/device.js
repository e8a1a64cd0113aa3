// Whether this is the person's own device: where it isn't, nothing is kept.
import { action, announce, byId, fill, h, p } from './dom.js';
import { t, text } from './language.js';
import { forgetOld } from './all_seen.js';
import { forgetAll, isBorrowed, keep, keysOf, restoreAll } from './store.js';

let gone = null; // what was forgotten in this view, to be put back

/** The ticks that are on the page already follow. */
function untick() {
  for (const input of document.querySelectorAll('.remember input')) {
    if (isBorrowed()) input.checked = false;
    input.disabled = isBorrowed();
  }
}

/** Whether somebody means it: it is said how many rounds go with their keys. */
const isSure = () => confirm(text('device.sure', { n: keysOf('round.').length }));

/** "This isn't my device", or what follows from having said so. `changed` is called after a choice. */
function deviceChoice(changed) {
  const choose = (borrowed, put) => {
    if (borrowed && !isSure()) return;
    const had = borrowed ? forgetAll() : null;
    keep('borrowed', borrowed ? true : null);
    if (put) restoreAll(gone);
    gone = had;
    untick();
    changed(borrowed);
  };
  return isBorrowed()
    ? [p(t('device.borrowed')), h('p', { class: 'row' },
      gone && action({ class: 'link', click: () => choose(false, true) }, t('device.undo')),
      action({ class: 'link', click: () => choose(false) }, t('device.mine')))]
    : action({ class: 'link', click: () => choose(true) }, t('device.notMine'));
}

/** Tells below the view whose device this is, and forgets what is old. A form keeps what stands in it when that
    changes; any other view is shown anew. */
export function tellDevice(root, show) {
  forgetOld(Date.now());
  fill(byId('device'), deviceChoice((isNow) => {
    announce(text(isNow ? 'device.borrowed' : 'device.notBorrowed'));
    if (root.querySelector('form')) tellDevice(root, show);
    else show();
  }));
}

/** What was forgotten cannot be put back once another view is shown. */
export function leaveDevice() { gone = null; }

// The organiser's button that closes a round.
import { action, announce, fill, h, showFault } from './dom.js';
import { t, text } from './language.js';
import { post, sentence } from './api.js';

export class Closing {
  constructor(view) {
    this.view = view;
    this.isAsked = false; // whether the server was asked to close it, and has not answered
    this.button = action({ class: 'main', click: () => this.close() });
    this.place = h('div', { class: 'row' });
  }

  /** The button, which is the same one however often it is drawn: only once nobody is missing. */
  draw(missing) {
    if (missing.length > 0) fill(this.place);
    else if (!this.button.isConnected) {
      fill(this.place, fill(this.button, t('closeAll')), h('p', { class: 'fault', id: 'close-fault' }));
    }
  }

  async close() {
    const { path, link, reload, tick } = this.view;
    if (this.isAsked || !confirm(text('closeSure'))) return;
    this.isAsked = true; // and the button keeps the focus, which then goes to the heading of the result
    try { await post(`${path}/close`, link.key, ''); } catch (refused) {
      if (refused.code !== 'closed') {
        await tick();
        this.isAsked = false;
        showFault('close-fault', sentence(refused));
        return;
      }
    }
    announce(text('closed'));
    reload();
  }
}

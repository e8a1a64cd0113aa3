// The page that divides as a file of its own, divide.html: it works from a disk, with no server and no network.
import { action, byId, fill } from './dom.js';
import { help } from './help.js';
import { languageSwitch, learn, learnMore, t } from './language.js';
import { divideView } from './divide.js';

async function show() {
  await learnMore();
  byId('main').dataset.view = 'divide';
  const opens = { class: 'language', click: () => help(true) };
  fill(byId('languages'), action(opens, t('help')), languageSwitch(show));
  divideView(byId('main'), true);
}

await learn();
show();

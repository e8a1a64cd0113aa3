// The page that checks certificates as a file of its own, check.html: it works from a disk, with no host and no
// network.
import { action, byId, fill } from './dom.js';
import { help } from './help.js';
import { entitle, languageSwitch, learn, learnMore, t, text } from './language.js';
import { checkView } from './checkview.js';

async function show() {
  await learnMore();
  entitle(text('check.link'));
  byId('main').dataset.view = 'check';
  const opens = { class: 'language', click: () => help(true) };
  fill(byId('languages'), action(opens, t('help')), languageSwitch(show));
  checkView(byId('main'), true);
}

await learn();
show();

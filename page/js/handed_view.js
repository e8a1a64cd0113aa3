// The view of a link that carries a result: that of one's own round, if this browser has a link of it, and otherwise a
// check of what the link carries.
import { entitle, text } from './language.js';
import { checkView } from './checkview.js';
import { arrive, fileOf, parseHanded } from './handed.js';
import { fragment, parse } from './link.js';
import { roundsKept } from './rounds_kept.js';
import { opened } from './saved.js';

/** The link of the round of a number that this browser has: a member's, or else the organiser's. */
function ownLink(id) {
  const own = roundsKept().map(({ link }) => parse(link)).filter((link) => link.id === id);
  return own.find(({ tag }) => !tag) ?? own[0];
}

/** Shows what the fragment carries. */
export async function showHanded(root, hash) {
  const handed = parseHanded(hash);
  const words = handed ? await fileOf(handed) : '';
  const link = handed && ownLink(handed.id);
  const { certificate } = opened(words);
  if (link && certificate) {
    arrive(link, certificate);
    location.replace(fragment(link));
    return;
  }
  root.dataset.view = 'check';
  entitle(text('check.link'));
  checkView(root, false, words || hash);
}

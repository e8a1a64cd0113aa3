// Why a closed round has no result, and what is left to do.
import { action, box, h, heading, p } from './dom.js';
import { card, download } from './parts.js';
import { names, t } from './language.js';
import { toFrac } from './fractions.js';
import { getText } from './api.js';
import { winnerCard } from './picture_goods.js';
import { Finish } from './finish.js';

/** Someone had no bid. Only the organiser can do something about it. */
function voided({ round, again }, missing) {
  const absent = names(missing.map((member) => String(round.members[member - 1])));
  const says = t(round.kind === 'rent' ? 'none.voidRent' : 'none.void', { names: absent });
  return [heading(t('none.title')), box('note', says), round.you > 0 ? p(t('none.askAgain'))
    : h('p', { class: 'row' }, action({ class: 'main', click: again }, t('none.again')))];
}

/** The server's search took too long. */
async function endless(view, limit) {
  const both = view.round.bids.length === 2 && await twoWay(view);
  const finish = new Finish(view, limit, both);
  await finish.begin();
  return finish.place;
}

/** What a text of adjusted winner says of two members and these goods: shares, total and who; null where it is no such
    text. */
function readPair(written, { members, goods }) {
  const row = (word) => written.split('\n').find((line) => line.startsWith(`${word} `))?.split(' ').slice(1) ?? [];
  const isPart = ({ n, d }) => d > 0n && n >= 0n && n <= d;
  try {
    const [shares, [total]] = [row('shares').map(toFrac), row('total').map(toFrac)];
    const who = row('who').map(Number);
    const isWhole = shares.length === goods.length && shares.every(isPart) && total.d > 0n
      && who.length === 2 && who.every((member) => members[member - 1] !== undefined);
    return isWhole ? { shares, total, who } : null;
  } catch { return null; }
}

/** For two: adjusted winner as the server tells it; null where it refuses to tell any. */
async function twoWay({ round, path, link }) {
  let written;
  try { written = await getText(`${path}/winner`, link.key); } catch { return null; }
  const told = readPair(written, round);
  if (!told) return card(t('winner.title'), p(t(written.trim() ? 'winner.other' : 'winner.empty')));
  const file = `round-${link.id}-winner.txt`;
  const save = h('p', { class: 'row' }, action({ click: () => download(file, written) }, t('files.winner')),
    t('winner.check', { command: h('kbd', {}, `fairsplit checkwinner < ${file}`) }));
  return winnerCard({ ...told, members: round.members, things: round.goods }, [p(t('winner.word')), save], true);
}

/** What there is to show for a refusal of a certificate; null where it says nothing of the round. */
export async function noResult({ code, body }, view) {
  if (code === 'void') return voided(view, body.missing ?? []);
  return code === 'step_limit' && view.round.kind === 'goods' ? endless(view, body.limit) : null;
}

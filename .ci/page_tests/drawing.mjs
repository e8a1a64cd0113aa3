// Rung (b) of .ci/page, with node: results are drawn from the certificate that was judged and from nothing else, whatever a server
// says beside it. Each field of each reply is another one in turn; what stands under the verdict is read back number by number.
import { readFileSync } from 'node:fs';
import { dirname, join } from 'node:path';
import { fileURLToPath } from 'node:url';
import { install, outsideOfBdi } from './fake_dom.mjs';

const HERE = dirname(fileURLToPath(import.meta.url));
const JS = join(HERE, '../../page/js');
const example = (name) => readFileSync(join(HERE, '../../examples', name), 'utf8');
const EXAMPLES = ['flat-for-three', 'odd-rent', 'three-heirs', 'attic-for-two', 'divorce-for-two', 'taxi-for-two', 'four-in-a-taxi', 'two-to-one-place'];
const THINGS = { rent: 'rooms', goods: 'goods', fares: 'places' };
const KEY = '0123456789abcdef'.repeat(4);
const TITLE = 'Title~';
const UNSEEN = 'has nothing from before the round closed';
let right = 0, wrong = 0;

function check(what, held, more = '') {
  if (held) { right++; return; }
  if (++wrong < 20) console.log(`drawing: ${what} ${more}`);
}
const same = (what, got, wanted) => check(what, JSON.stringify(got) === JSON.stringify(wanted), `gives ${JSON.stringify(got)} and not ${JSON.stringify(wanted)}`);

const { root, store } = install();
const later = globalThis.setTimeout;
globalThis.setTimeout = (go, ms) => (ms > 10_000 ? 0 : later(go, 0));
const { learn } = await import(`${JS}/language.js`);
await learn('en');
const { show } = await import(`${JS}/round.js`);
const { seeBid } = await import(`${JS}/seen.js`);
const { seeCreation } = await import(`${JS}/all_seen.js`);
const { opened, savedFile, namesFit } = await import(`${JS}/saved.js`);
const { judging } = await import(`${JS}/check.js`);
const { adjustedWinner } = await import(`${JS}/shares.js`);
const { checkView } = await import(`${JS}/checkview.js`);
const { money, setCurrency } = await import(`${JS}/money.js`);

/** The numbers of a certificate's lines, by their word: a list of lists. */
function linesOf(text) {
  const lines = {};
  for (const line of text.split('\n')) { const [word, ...more] = line.split(' '); (lines[word] ??= []).push(more); }
  return lines;
}
const fraction = (word) => { const [n, d = '1'] = word.split('/'); return [BigInt(n), BigInt(d)]; };

/** Whole cents of exact amounts, as docs/DEFINITIONS.md has it. */
function planOf(words, whole) {
  const parts = words.map(fraction);
  const down = parts.map(([n, d]) => (n >= 0n ? n / d : -((-n + d - 1n) / d)));
  const rest = parts.map(([n, d], i) => ({ i, left: Number(n - down[i] * d) / Number(d) })).sort((a, b) => b.left - a.left || a.i - b.i);
  let over = BigInt(whole) - down.reduce((a, b) => a + b, 0n);
  for (const { i } of rest) if (over > 0n) { down[i] += 1n; over -= 1n; }
  return down.map(String);
}

/** What has to be read under a verdict, by the attribute that it stands in. */
function wanted(text) {
  const lines = linesOf(text);
  const kind = lines.kind[0][0];
  if (kind === 'rent') {
    const rooms = lines.rooms[0].map(Number);
    const prices = rooms.map((room) => lines.prices[0][room - 1]);
    return { 'data-pays': planOf(prices, lines.rent[0][0]), exact: prices, 'data-all': lines.rent[0] };
  }
  if (kind === 'goods') {
    const points = lines.who[0].map((_, p) => lines.values[p].filter((_, g) => Number(lines.owners[0][g]) === p + 1).reduce((a, v) => a + Number(v), 0));
    return { 'data-points': points.map(String), 'data-product': [String(points.filter(Boolean).reduce((a, b) => a * BigInt(b), 1n))] };
  }
  const [at, flag] = [lines.at[0].map(Number), BigInt(lines.flag[0][0])];
  const all = flag + BigInt(lines.set.at(-1)[1]);
  const alone = at.map((place) => String(flag + BigInt(lines.legs[0][place - 1])));
  const order = lines.route[0].map((rider) => at[rider - 1]).filter((place, i, list) => place !== list[i - 1]);
  return {
    'data-pays': planOf(lines.fares[0], all), exact: lines.fares[0], 'data-total': [String(all)], 'data-all': [String(all)], 'data-alone': alone,
    'data-way': order.map((place, i) => lines.legs[i ? order[i - 1] : 0][place - 1]), 'data-flag': lines.flag[0],
    'data-leg': lines.legs.flatMap((row, from) => row.filter((_, to) => from !== to + 1)),
  };
}

/** What the server says of a closed round with this certificate, to a member or the organiser. */
function statusOf(name, you) {
  const made = JSON.parse(example(`${name}.json`));
  const { kind, members, rent, limit = 100_000, flag, legs, bids } = made;
  const things = made[THINGS[kind]];
  return {
    bids: bids.flatMap((bid, i) => (bid === null ? [] : [i + 1])), closed: true, deadline: 1_700_000_000, id: 7, kind,
    members: members.map((_, i) => `Person~${i + 1}`), [THINGS[kind]]: things.map((_, i) => `Thing~${i + 1}`), title: TITLE, you,
    ...(kind === 'rent' ? { rent } : kind === 'goods' ? { limit } : { flag, legs }),
  };
}
const bidOf = (name, you) => { const bid = JSON.parse(example(`${name}.json`)).bids[you - 1]; return Array.isArray(bid) ? { values: bid } : { place: bid }; };

const asked = [];
let hasModule = true; // whether the module of the proved judge comes
/** The server: a status, replies by the last word of a path, and the files of the proved judge. */
function serve(status, replies) {
  globalThis.fetch = async (path) => {
    if (path.startsWith('judge/')) return hasModule ? new Response(readFileSync(join(JS, '..', path))) : new Response('', { status: 404 });
    asked.push(path);
    const word = path.split('/')[2] ?? 'status';
    const [code, body] = word === 'status' ? [200, JSON.stringify(status)] : replies[word] ?? [404, '{"code":"no_route"}'];
    return new Response(body, { status: code });
  };
}

const PLACES = ['data-pays', 'data-points', 'data-product', 'data-total', 'data-all', 'data-alone', 'data-way', 'data-flag', 'data-leg', 'data-saved'];
/** The view of a round as somebody reads it. */
async function looked(status, replies) {
  serve(status, replies);
  asked.length = 0;
  await show(root, { id: '7', key: KEY, currency: 'EUR', tag: '' });
  const verdict = root.querySelector('#verdict');
  const order = (a, b) => Number(a.getAttribute('data-member') ?? 0) - Number(b.getAttribute('data-member') ?? 0);
  const nodes = PLACES.map((place) => [place, root.querySelectorAll(`[${place}]`).sort(order)]);
  return {
    verdict: verdict?.getAttribute('data-verdict') ?? 'none at all', differ: Number(verdict?.getAttribute('data-differ') ?? -1), says: verdict?.textContent ?? '',
    isGood: (verdict?.getAttribute('class') ?? '').split(' ').includes('good'),
    below: [root.querySelector('h1')?.textContent, ...root.querySelectorAll('section,details').filter((node) => node.id !== 'verdict' && !node.querySelector('#verdict')).map((node) => node.textContent)].join('\n'),
    numbers: Object.fromEntries(nodes.map(([place, list]) => [place, list.map((node) => node.getAttribute(place))])),
    shown: nodes.flatMap(([place, list]) => list.filter(() => !/points|product/.test(place)).map((node) => [node.getAttribute(place), node.textContent])),
    exact: root.querySelectorAll('[data-pays]').sort(order).map((node) => node.getAttribute('data-exact')),
    isCaution: (root.querySelector('.hero')?.getAttribute('class') ?? '').includes('caution'), title: root.querySelector('h1')?.textContent ?? '',
    outside: outsideOfBdi(root, ['Person~', 'Thing~', TITLE]), text: root.textContent, asked: [...asked],
  };
}

/** What this browser knows from before the close: nothing, the creation, or the round at a bid. */
function sees(how, name, you) {
  store.clear();
  const link = { id: '7', key: KEY };
  const open = { ...statusOf(name, you), closed: false };
  if (how === 'creation') seeCreation(link, open);
  if (how === 'bid') seeBid(link, open, { turn: 1, ...bidOf(name, you) });
}
const certified = (text) => ({ certificate: [200, text] });
const sums = (list) => list.reduce((a, b) => a + BigInt(b), 0n);

/** All numbers of a view are those of its certificate, and are written as people read them. */
function agrees(what, view, text, you) {
  const { exact, ...places } = wanted(text);
  for (const [place, list] of Object.entries(places)) same(`${what}: ${place}`, view.numbers[place], place === 'data-pays' && you > 0 ? view.numbers[place] && list : list);
  if (exact) same(`${what}: exact amounts`, view.exact, exact);
  for (const [cents, shown] of view.shown) check(`${what}: ${cents} is written ${shown}`, shown === money(Math.abs(Number(cents))) || shown === money(Number(cents)));
  if (places['data-all']) same(`${what}: the sum of what is paid`, String(sums(view.numbers['data-pays'])), places['data-all'][0]);
  same(`${what}: names outside of bdi`, view.outside, []);
}

/** An honest server: the verdict, the numbers, and which replies were asked for. */
async function honest(name, text) {
  const status = statusOf(name, 0);
  for (let you = 0; you <= status.members.length; you++) for (const how of ['nothing', ...(you === 0 ? ['creation'] : status.bids.includes(you) ? ['bid'] : [])]) {
    sees(how, name, you);
    const view = await looked(statusOf(name, you), certified(text));
    const what = `${name} of ${you} who saw ${how}`;
    same(what, [view.verdict, view.differ, view.isGood], ['yes', 0, how !== 'nothing']); // names that are only somebody's word are amber
    same(`${what}: the answer is amber where somebody took no part, or the names are only a word`, view.isCaution, how === 'nothing' || status.bids.length < status.members.length);
    same(`${what}: it says whose word the names are`, view.says.includes(UNSEEN), how === 'nothing');
    same(`${what}: asked`, view.asked, ['instances/7', 'instances/7/certificate']);
    agrees(what, view, text, you);
    hero(what, view, text, you);
  }
}

/** What stands big at the top is the share of whoever looks, and the saving is what a ride alone costs less their share. */
function hero(what, view, text, you) {
  const lines = linesOf(text);
  const kind = lines.kind[0][0];
  const big = view.title;
  if (!you) { check(`${what}: no share`, !big.includes('You get'), big); return; }
  const place = kind === 'rent' ? you - 1 : lines.who[0].indexOf(String(you));
  if (kind === 'goods') {
    const own = lines.owners[0].flatMap((owner, good) => (Number(owner) === place + 1 ? [`Thing~${good + 1}`] : []));
    const tiles = place < 0 ? [] : root.querySelector('.tiles')?.querySelectorAll('bdi').map((node) => node.textContent) ?? [];
    same(`${what}: the share`, [...tiles].sort(), [...own].sort());
    check(`${what}: the headline`, own.length > 3 ? big.includes(`${own.length - 2} more`) : big.split('Thing~').length === own.length + 1, big);
    return;
  }
  const thing = kind === 'rent' ? lines.rooms[0][place] : lines.at[0][place];
  const cents = Number(wanted(text)['data-pays'][place]);
  check(`${what}: the share`, big.includes(`Thing~${thing}`) && big.includes(money(Math.abs(cents))), big);
  if (kind !== 'fares') return;
  const saved = Number(wanted(text)['data-alone'][place]) - cents;
  same(`${what}: the saving`, view.numbers['data-saved'], saved > 0 ? [String(saved)] : []);
}

const turned = (list) => [...list.slice(1), list[0]];
/** Other values of a field of the status. */
function others(status, field) {
  const value = status[field];
  if (Array.isArray(value)) return [turned(value), value.slice(1), [...value, ...value], [], null, 'x', [7]];
  if (typeof value === 'number') return [value + 1, value - 1, 0, -1, 99, null, 'x'];
  if (typeof value === 'boolean') return [!value, null];
  return field === 'kind' ? ['rent', 'goods', 'fares', 'x', null] : ['Other', '', null, 7];
}

/** A server that says something else of the round. */
async function otherStatus(name, text) {
  for (const [you, how] of [[1, 'nothing'], [1, 'bid'], [0, 'creation']]) {
    sees(how, name, you);
    const before = await looked(statusOf(name, you), certified(text));
    const status = statusOf(name, you);
    for (const field of Object.keys(status)) for (const value of others(status, field)) {
      if (JSON.stringify(value) === JSON.stringify(status[field])) continue;
      sees(how, name, you);
      const replies = { ...certified(text), bid: [200, '{"turn":0}'] };
      const view = await looked({ ...status, [field]: value }, replies);
      const what = `${name} whose ${field} is ${JSON.stringify(value)}, seen: ${how}`;
      if (view.verdict !== 'yes') { check(what, !view.says.includes('Checked'), view.says); continue; }
      for (const place of PLACES.slice(0, 9)) same(`${what}: ${place}`, view.numbers[place], before.numbers[place]);
      if (how === 'nothing') check(what, view.says.includes(UNSEEN) || !view.isGood);
      else check(`${what} is told, or nothing else stands there`, view.below === before.below && (view.isGood ? view.says === before.says : view.differ > 0));
      if (how !== 'nothing' && ['title', 'members', 'you', THINGS[status.kind]].includes(field)) check(`${what} is told`, !view.isGood);
    }
  }
}

/** Both lists stand where names were swapped. */
async function bothLists(name, text) {
  sees('bid', name, 1);
  const status = statusOf(name, 1);
  const field = THINGS[status.kind];
  const now = status[field].map((_, i) => `New~${i}`);
  const view = await looked({ ...status, [field]: now }, certified(text));
  check(`${name}: both lists`, [...status[field], ...now].every((one) => view.says.includes(one)), view.says);
  check(`${name}: the names that were seen are drawn`, !view.below.includes('New~'));
}

/** Other texts in place of a line. */
function othersOf(line) {
  const words = line.split(' ');
  const changed = words.flatMap((word, at) => (/^-?\d+$/.test(word) ? [1, -1].map((by) => words.with(at, String(BigInt(word) + BigInt(by))).join(' ')) : []));
  const swapped = words.length > 2 ? [[words[0], ...turned(words.slice(1))].join(' ')] : [];
  return [...changed.slice(0, 14), ...swapped, words.slice(0, -1).join(' '), `${line} 1`, ''];
}

/** A server that sends another certificate: it is refused, or a true one of the bids that it shows. */
async function otherCertificate(name, text) {
  const lines = text.split('\n');
  const own = bidOf(name, 1);
  sees('bid', name, 1);
  const before = await looked(statusOf(name, 1), certified(text));
  for (const [at, line] of lines.entries()) for (const other of othersOf(line)) {
    const forged = lines.with(at, other).join('\n');
    if (forged === text) continue;
    const view = await looked(statusOf(name, 1), certified(forged));
    const what = `${name}, line ${at + 1} as ${other}`;
    if (view.verdict !== 'yes') {
      check(`${what} is drawn`, !view.says.includes('Checked') && !view.numbers['data-pays'].length && !view.numbers['data-points'].length && !root.querySelector('.hero'));
      continue;
    }
    agrees(what, view, forged, 1);
    if (/^(steps|limit) /.test(line)) same(`${what}: nothing of it is shown`, [view.below, view.says], [before.below, before.says]);
    const read = linesOf(forged);
    const mine = read.values ? read.values[0].map(Number) : Number(read.at[0][0]);
    const isMine = JSON.stringify(mine) === JSON.stringify(own.values ?? own.place);
    check(`${what}: one's own bid is another`, isMine || (!view.isGood && view.differ > 0), view.says);
  }
}

/** Another whole certificate, true of other bids: it holds, and whoever sent a bid is told. */
async function otherBids() {
  const flat = example('flat-for-three.txt').replace('values 800 100 0', 'values 900 0 0');
  const found = judge(flat);
  if (found.verdict === 'yes') {
    sees('bid', 'flat-for-three', 1);
    const view = await looked(statusOf('flat-for-three', 1), certified(flat));
    check('another bid is told', !view.isGood && view.says.includes('€9.00') && view.says.includes('€8.00'), view.says);
  }
  sees('bid', 'odd-rent', 1);
  const view = await looked(statusOf('odd-rent', 1), certified(example('taxi-for-two.txt')));
  check('a certificate of another kind is told', !view.isGood && view.says.includes('another round'), view.says);
}

function judge(text) {
  const steps = judging(text);
  for (;;) { const { done, value } = steps.next(); if (done) return value; }
}

/** No certificate: nothing was checked, and that stands in the place of the verdict. */
async function noCertificate() {
  const division = { 'flat-for-three': { kind: 'rent', pays: [70000, 10000, 10000], prices: ['1', '1', '1'], rooms: [1, 2, 3] },
    'attic-for-two': { kind: 'goods', owners: [1, 2], players: [1, 2], points: [700, 600] }, 'taxi-for-two': { kind: 'fares', pays: [750, 1250], riders: [1, 2], fares: ['750', '1250'] } };
  for (const [name, said] of Object.entries(division)) for (const body of [JSON.stringify(said), '{}', '7', 'null', '{"kind":"rent"}']) {
    sees('bid', name, 1);
    const view = await looked(statusOf(name, 1), { certificate: [403, '{"code":"wrong_key"}'], division: [200, body] });
    same(`${name} without a certificate`, [view.verdict, view.isGood, view.says.includes('Nothing was checked'), root.querySelector('.hero')], ['none', false, true, null]);
    if (body.length > 20) check(`${name}: what the server says`, view.text.includes('What the server says') === body.includes('pays') || body.includes('owners'), view.text);
  }
}

const PAIR = 'fairsplit pair 1\nwho 1 2\nshares 1 1/2\ntotal 700\n';
const NO_PAIRS = ['x', PAIR.replace(' 1/2', ''), PAIR.replace('1/2', '1/0'), PAIR.replace('1/2', '3/2'), PAIR.replace('1/2', 'half'), PAIR.replace('who 1 2', 'who 1 9'), PAIR.replace('who 1 2', 'who 1'),
  PAIR.replace('total 700', 'total'), PAIR.replace('total', 'totals')];

/** No result of two, and an adjusted winner that is one, that is empty, or that is something else: what is left to do is told with each. */
async function withoutWinner() {
  const closed = { ...statusOf('attic-for-two', 1), members: ['Person~1', 'Person~2'], bids: [1, 2] };
  const nothing = { certificate: [409, '{"code":"step_limit","limit":40}'], bid: [200, '{"turn":1,"values":[600,400]}'] };
  const empty = ['', '\n', ' '].map((text) => [text, 'sent an empty text']);
  for (const [text, says] of [[PAIR, '700 points'], ...empty, ...NO_PAIRS.map((other) => [other, 'isn’t a text of adjusted winner'])]) {
    const view = await looked({ ...closed, goods: ['Thing~1', 'Thing~2'] }, { ...nothing, winner: [200, text] });
    const what = `no result, and ${JSON.stringify(text)} as adjusted winner`;
    check(`${what}: it is told`, view.text.includes(says), view.text);
    check(`${what}: what is left`, ['after 40 steps', 'The organiser’s device can finish it', 'The link with the result'].every((words) => view.text.includes(words)), view.text);
    same(`${what}: names outside of bdi`, view.outside, []);
  }
}

/** A server that says what cannot be: the search of a rent has no limit. Nothing was checked, and the page is whole. */
async function limitOfRent() {
  const view = await looked(statusOf('flat-for-three', 1), { certificate: [409, '{"code":"step_limit","limit":40}'] });
  same('a limit of a rent', [view.verdict, view.isGood, view.says.includes('Nothing was checked'), view.text.includes('Part of the page')], ['none', false, true, false]);
  const told = await looked(statusOf('flat-for-three', 0), { certificate: [409, '{"code":"void","missing":[2]}'] });
  check('that somebody was missing is the server’s word', told.text.includes('This server says: Person~2'), told.text);
}

/** A round that was closed before its deadline without somebody's bid: the server's clock was ahead, and the page says so. */
async function clockAhead() {
  const told = { certificate: [409, '{"code":"void","missing":[2]}'] };
  const soon = Math.floor(Date.now() / 1000) + 3600;
  for (const [deadline, bids, isTold] of [[soon, [1, 3], true], [soon, [1, 2, 3], false], [soon - 7200, [1, 3], false]]) {
    const view = await looked({ ...statusOf('flat-for-three', 1), deadline, bids }, told);
    same(`whether the clock is told, of ${bids.length} bids and a deadline ${deadline - soon} seconds on`, view.text.includes('its clock was ahead'), isTold);
  }
}

/** A file that the server sends empty is not saved, and that is told. */
async function emptyFile() {
  await looked(statusOf('attic-for-two', 1), { ...certified(example('attic-for-two.txt')), report: [200, ''] });
  const button = root.querySelectorAll('button').find((one) => one.textContent === 'Report');
  await button.listeners.click({ currentTarget: button });
  check('an empty file is told', root.textContent.includes('sent an empty file'), root.textContent);
}

/** Each Copy gives the link of its own line. */
async function copies() {
  const copied = [];
  Object.defineProperty(globalThis, 'navigator', { value: { languages: ['en-GB'], clipboard: { writeText: async (text) => { copied.push(text); } } }, configurable: true });
  const keys = ['a', 'b', 'c'].map((digit) => digit.repeat(64));
  const { links } = await import(`${JS}/organiser.js`);
  globalThis.fetch = async () => new Response(JSON.stringify({ id: 7, organiser: KEY, keys }), { status: 201 });
  await links(root, { link: { id: '7', key: KEY, currency: 'EUR', tag: 'a'.repeat(16) }, round: { ...statusOf('flat-for-three', 0), closed: false }, alive: () => true });
  const isCopy = (button) => button.textContent === 'Copy the link';
  for (const button of root.querySelectorAll('button').filter(isCopy)) await button.listeners.click({ currentTarget: button, preventDefault() {} });
  same('what was copied', copied, [...keys.map((key) => `https://split.example/#7.${key}.EUR`), `https://split.example/#7.${KEY}.EUR.${'a'.repeat(16)}`]);
  same('names outside of bdi among the links', outsideOfBdi(root, ['Person~', 'Thing~']), []);
}

/** What is saved is opened again, and nothing else is. */
function savedFiles() {
  const text = example('attic-for-two.txt');
  const names = { title: 'Attic "x"\n', members: ['Ann', 'Ben', 'Dan'], things: ['Desk', 'Lamp'] };
  const file = savedFile(names, text);
  same('a saved file', opened(file), { certificate: text, names });
  same('a saved file with its currency', opened(savedFile(names, text, 'EUR')), { certificate: text, names, currency: 'EUR' });
  same('a currency that is none', opened(savedFile(names, text, 'EUR').replace('"EUR"', '"<b>"')), { certificate: text, names });
  same('its text part', JSON.parse(file).certificate, text);
  same('unknown fields', opened(file.replace('{', '{"more":[1],')), { certificate: text, names });
  for (const other of ['{}', '[]', '7', 'null', '"x"', '{"fairsplit":2}', file.replace('"fairsplit":1', '"fairsplit":"1"'), file.replace('["Desk","Lamp"]', '[1,2]'), file.slice(0, -3),
    file.replace('{', `{"more":"${'x'.repeat(5_000_000)}",`)]) same(`${other.slice(0, 40)} is not ours`, opened(other), { fault: 'check.notOurs' });
  const { said } = judge(text);
  for (const [members, things, fit] of [[['A', 'B'], ['x', 'y'], true], [['A'], ['x', 'y'], false], [['A', 'B'], ['x'], false], [['A', 'B'], ['x', 'y', 'z'], false], [Array(13).fill('A'), ['x', 'y'], false]]) same(`names ${members} ${things}`, namesFit(said, { members, things }), fit);
  same('blank lines', opened(`\n \n\n${text}\n\n \n`), { certificate: text });
  same('no line end', opened(text.trimEnd()), { certificate: text });
  same('a blank line within', opened(text.replace('kind', '\nkind')), { certificate: text.replace('kind', '\nkind') });
  for (const name of ['attic-for-two', 'flat-for-three', 'taxi-for-two']) same(`the report of ${name}`, opened(example(`${name}.report.txt`)), { fault: 'check.isReport' });
  same('an audit', opened(example('three-heirs.weigh.txt')), { fault: 'check.isAudit' });
  same('adjusted winner', opened(example('attic-for-two.winner.txt')), { fault: 'check.isWinner' });
}

/** The view that checks shows who gets what, what is paid and every bid; names come from the file, or are typed. */
async function checkPage() {
  for (const name of EXAMPLES) {
    const text = example(`${name}.txt`);
    const status = statusOf(name, 1);
    const face = { title: TITLE, members: status.members, things: status[THINGS[status.kind]] };
    for (const input of [text, savedFile(face, text)]) {
      checkView(root, true);
      root.querySelector('#text').value = input;
      await root.querySelector('button').listeners.click({});
      same(`the verdict on ${name}`, root.querySelector('#verdict')?.getAttribute('data-verdict'), 'yes');
      setCurrency('', 'en-GB');
      const { exact, ...places } = wanted(text);
      for (const [place, list] of Object.entries(places)) same(`${name}: ${place} is shown by the check`, root.querySelectorAll(`[${place}]`).map((node) => node.getAttribute(place)), list);
      if (status.kind !== 'fares') {
        const bids = linesOf(text).values.map((row) => row.map((v) => (status.kind === 'rent' ? money(Number(v)) : v)));
        const cells = root.querySelectorAll('td').map((cell) => cell.textContent.replace(' (has it)', ''));
        check(`${name}: every bid is shown`, bids.flat().every((bid) => cells.includes(bid)));
      }
      same(`${name}: names outside of bdi`, outsideOfBdi(root, ['Person~', 'Thing~', TITLE]), []);
      if (input === text) typedName(name);
      else check(`${name}: the names of the file`, root.textContent.includes('Person~1') && root.textContent.includes(TITLE));
    }
  }
  for (const [input, says] of [['', 'There is no text here'], [' \n', 'There is no text here'], [example('taxi-for-two.report.txt'), 'This is a report'], ['{"a":1}', 'isn’t from fairsplit'], [example('taxi-for-two.txt').replace('fares 750', 'fares 751'), 'No: rule 5']]) {
    checkView(root, true);
    root.querySelector('#text').value = input;
    await root.querySelector('button').listeners.click({});
    check(`${input.slice(0, 20)} is told as ${says}`, root.querySelector('#checked').textContent.includes(says) && !root.querySelector('#division'), root.textContent);
  }
}

function typedName(name) {
  const input = root.querySelector('#names').querySelector('input');
  input.listeners.input({ target: { value: 'Zoë~' } });
  check(`${name}: a name that is typed`, root.querySelector('#division').textContent.includes('Zoë~'));
}

/** Adjusted winner, as the program writes it. */
function winners() {
  for (const name of ['attic-for-two', 'divorce-for-two']) {
    const lines = linesOf(example(`${name}.winner.txt`));
    const { shares, total } = adjustedWinner(lines.values.map((row) => row.map(BigInt)));
    const text = ({ n, d }) => (d === 1n ? `${n}` : `${n}/${d}`);
    same(`adjusted winner of ${name}`, [shares.map(text), text(total)], [lines.shares[0], lines.total[0][0]]);
  }
}

for (const name of EXAMPLES) {
  const text = example(`${name}.txt`);
  await honest(name, text);
  await otherStatus(name, text);
  await bothLists(name, text);
  await otherCertificate(name, text);
}
await otherBids();
await noCertificate();
await withoutWinner();
await limitOfRent();
await clockAhead();
await emptyFile();
winners();
savedFiles();
await checkPage();
await copies();
console.log(`drawing: ${right} right, ${wrong} wrong`);
process.exit(wrong ? 1 : 0);

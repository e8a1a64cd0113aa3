// Rung (b) of .ci/page, with node: each module parses, and those that ask for no page answer as they must.
import { spawnSync } from 'node:child_process';
import { readFileSync, readdirSync } from 'node:fs';
import { dirname, join } from 'node:path';
import { fileURLToPath } from 'node:url';
import { storage } from './fake_dom.mjs';

const JS = join(dirname(fileURLToPath(import.meta.url)), '../../page/js');
let right = 0, wrong = 0;
const store = new Map();
globalThis.localStorage = storage(store);
globalThis.sessionStorage = storage(new Map());
globalThis.location = { origin: 'https://split.example', pathname: '/h7/', replace: (to) => { location.href = to; } };

/** What was got is what is wanted. */
function same(what, got, wanted) {
  const [a, b] = [JSON.stringify(got), JSON.stringify(wanted)];
  if (a === b) { right++; return; }
  wrong++;
  console.log(`modules: ${what} gives ${a} and not ${b}`);
}

for (const name of readdirSync(JS)) {
  same(`${name} parses`, spawnSync('node', ['--check', '--input-type=module'], { input: readFileSync(join(JS, name)) }).status, 0);
}

const money = await import(`${JS}/money.js`);
// What is typed as money, by locale: cents, or { guess } read by habit, or { either } of two, or null.
const guess = (cents) => ({ guess: cents });
const either = (group, point) => ({ either: [group, point] });
const EVERYWHERE = [['1450', 145000], ['1450.5', 145050], ['1450,5', 145050], ['1450.50', 145050], ['1450,50', 145050], ['1.234,56', 123456], ['1,234.56', 123456], ["1'450.50", 145050], ['1’450.50', 145050],
  ["1'450", 145000], ['1’450', 145000], ['1 450,50', 145050], ['1\u00a0450.05', 145005], ['1\u202f450,05', 145005], ['€1450', 145000], ['1450 €', 145000], ['€ 1.450,50', 145050], ['$1,450.50', 145050], ['CHF 1’450.50', 145050],
  ['1450 EUR', 145000], ['1450 zł', 145000], ['1450,-', 145000], ['1450.–', 145000], ['1450.', 145000], ['0', 0], ['0,05', 5], ['1,234,567', 123456700], ['1.234.567,8', 123456780], ['1,00,000.00', 10000000], [' 7 ', 700], ['12345678.90', 1234567890],
  ...['', '-1', '−1', '1e3', '1234567890', '.5', 'abc', '1.2.3', '1,2,3', '1.23,456', '1.234,567', '1,23.4', '12 34', "1'45", '1450,555', '1.4505', 'ten', '1..2', '1,450.5.0', "1'450.500", '0x10', '٣'].map((typed) => [typed, null])];
const BY_HABIT = {
  'en-US': [['1,450', guess(145000)], ['1.450', either(145000, 145)], ['1.455', null], ['€1,450', guess(145000)], ['0.450', guess(45)], ['0,450', null]],
  'en-GB': [['1,450', guess(145000)], ['1.450', either(145000, 145)]],
  'de-DE': [['1.450', guess(145000)], ['1,450', either(145000, 145)], ['1.450 €', guess(145000)], ['1,455', null]],
  'de-CH': [['1,450', either(145000, 145)], ['1.450', either(145000, 145)], ['1,234', either(123400, 123)]],
  'fr-FR': [['1.450', either(145000, 145)], ['1,450', either(145000, 145)]],
  'pl-PL': [['1.450', either(145000, 145)], ['1,450', either(145000, 145)], ['1.234 zł', either(123400, 123)]],
};
for (const [locale, rows] of Object.entries(BY_HABIT)) {
  money.setCurrency('EUR', locale);
  for (const [typed, wanted] of [...EVERYWHERE, ...rows]) {
    const { cents, isGuess, either: two } = money.reading(typed);
    same(`${typed} in ${locale}`, two ? { either: two } : isGuess ? { guess: cents } : Number.isNaN(cents) ? null : cents, wanted);
    same(`${typed} in ${locale} is sent only where it is one amount`, Number.isNaN(money.cents(typed)), wanted === null || Boolean(wanted.either));
  }
  for (const amount of [0, 5, 100, 145050, 145000, 10_000_000]) same(`${amount} written in ${locale} is read again`, money.reading(money.plain(amount)), { cents: amount });
}
money.setCurrency('', 'en');
const { codeOf, currencyOf } = await import(`${JS}/currencies.js`);
for (const [locale, code] of [['en-US', 'USD'], ['de-CH', 'CHF'], ['de-DE', 'EUR'], ['en-GB', 'GBP'], ['pl-PL', 'PLN'], ['fr', 'EUR'], ['en', 'USD'], ['de', 'EUR'], ['ar-EG', '']]) same(`the currency of ${locale}`, currencyOf(locale), code);
for (const [typed, code] of [['eur', 'EUR'], [' XAF ', 'XAF'], ['', ''], ['euro', null], ['€', null], ['E1R', null]]) same(`the code ${typed}`, codeOf(typed), code);
for (const [typed, n] of [['400', 400], [' 7 ', 7], ['4.5', NaN], ['', NaN], ['-3', NaN]]) same(`whole of ${typed}`, money.whole(typed), n);
same('plain', [money.plain(145050), money.plain(5)], ['1450.50', '0.05']);
money.setCurrency('EUR', 'en-GB');
same('money', [money.money(145050), money.money(-5), money.money(12n), money.money({ n: 100n, d: 3n })], ['€1,450.50', '−€0.05', '€0.12', '≈\u202f€0.33']);
money.setCurrency('', 'de');
same('money in German', [money.money(145050), money.plain(145050)], ['1.450,50', '1450,50']);
same('what was written is read again', money.cents(money.plain(145050)), 145050);
money.setCurrency('<b>', 'en');
same('a sign that is none', money.money(100), '1.00');
money.setCurrency('XAF', 'en');
same('any code', money.money(100).replace(/\s/, ' '), 'FCFA 1.00');
money.setCurrency('', 'en');

const { frac, toFrac, total, minus, same: equal, exact, centPlan } = await import(`${JS}/fractions.js`);
same('lowest terms', [exact(frac(6n, -4n)), exact(toFrac('100/3')), exact(toFrac('-7'))], ['-3/2', '100/3', '-7']);
same('sums', [exact(total([toFrac('1/3'), toFrac('1/6')])), exact(minus(toFrac('1/3'), toFrac('1/2'))), equal(toFrac('1/2'), frac(2n, 4n))], ['1/2', '-1/6', true]);
same('the cent plan', centPlan(['1101/2', '901/2'].map(toFrac), 1001n).map(Number), [551, 450]);
same('the cent plan of thirds', centPlan(['100/3', '100/3', '100/3'].map(toFrac), 100n).map(Number), [34, 33, 33]);
same('the cent plan by the greatest remainder', centPlan(['100/3', '200/3'].map(toFrac), 100n).map(Number), [33, 67]);
same('the cent plan of equal remainders', centPlan(['800/3', '-100/3', '200/3'].map(toFrac), 300n).map(Number), [267, -33, 66]);
same('the cent plan below 0', centPlan(['-1/2', '201/2'].map(toFrac), 100n).map(Number), [0, 100]);

const rules = await import(`${JS}/rules.js`);
for (const [shares, whole] of [[[1, 1, 1], 100], [[0, 0], 7], [[800, 450, 300], 145050], [[5], 20], [Array(24).fill(41), 20]]) {
  const out = rules.scale(shares, whole);
  same(`scaled ${shares}`, [out.reduce((a, b) => a + b, 0), out.every((v) => Number.isInteger(v) && v >= 0)], [whole, true]);
}
// Sliders, and what is shared out.
const { sharedOut, sliderOf } = await import(`${JS}/value_fields.js`);
same('a slider goes as far as five average shares', [sliderOf(false, 1000, 18), sliderOf(false, 1000, 3), sliderOf(false, 10, 18), sliderOf(true, 145_050, 3).most], [{ step: 10, most: 280 }, { step: 10, most: 1000 }, { step: 1, most: 10 }, 146_000]);
same('of a rent the rest goes to the empty lines', [sharedOut([700, 0, 0], 1000, true), sharedOut([500, 300, 0], 1001, true)], [[700, 150, 150], [500, 300, 201]]);
same('else all numbers are scaled', [sharedOut([700, 700], 1000, true), sharedOut([200, 300, 0], 1000, false), sharedOut([0, 0], 10, false), sharedOut([333, 333, 333], 1000, false)], [[500, 500], [400, 600, 0], [5, 5], [334, 333, 333]]);

// Letters of people, rooms of a flat in rows, tiles of a share, and what the meter said.
globalThis.document = { documentElement: {} };
Object.defineProperty(globalThis, 'navigator', { value: { languages: ['en-GB'] }, configurable: true });
const { letters } = await import(`${JS}/draw.js`);
same('letters', [letters(['Ann', 'Ben', 'Çağla']), letters(['Ann', 'Anna', 'Ben', 'Bo']), letters(['Room 1', 'Room 2'])], [['A', 'B', 'Ç'], ['A1', 'A2', 'BE', 'BO'], ['1', '2']]);
const { rowsOf } = await import(`${JS}/picture_rent.js`);
same('each room stands in one row', [1, 2, 3, 5, 7, 12].map((n) => rowsOf(Array.from({ length: n }, (_, i) => i + 1)).flat().sort((a, b) => a - b).length), [1, 2, 3, 5, 7, 12]);
same('the dearest first', rowsOf([433, 733, 284]), [[1], [0, 2]]);
const { stripsOf } = await import(`${JS}/picture_goods.js`);
same('tiles in strips', stripsOf([[0, 50], [1, 150], [2, 60], [3, 140]]), [[[1, 150]], [[3, 140]], [[2, 60], [0, 50]]]);
const { scaled } = await import(`${JS}/meter.js`);
same('what the meter said is shared in proportion', [scaled([400n, 500n, 650n, 650n], 2200n, 2310n), scaled([1n, 1n, 1n], 3n, 100n)].map((all) => all.map(Number)), [[420, 525, 683, 682], [34, 33, 33]]);
const { usualEnd, usualEnds } = await import(`${JS}/usual_end.js`);
for (const kind of ['rent', 'goods', 'fares']) same(`the usual end of ${kind} is one that is offered`, usualEnds(kind, 1e12).some(([, ms]) => ms === usualEnd(kind, 1e12)), true);

const { faults, nameFault, doubles } = await import(`${JS}/faults.js`);
const now = Date.parse('2026-01-01T00:00:00Z');
const flat = { kind: 'rent', title: 'Flat', members: ['Ann', 'Ben'], rooms: ['A', 'B'], rent: 900, deadline: '2026-02-01T00:00:00Z' };
const ride = { kind: 'fares', title: 'Ride', members: ['Ann', 'Ben'], places: ['A', 'B'], flag: 0, legs: [[1, 2], [0, 3], [4, 0]], deadline: '2026-02-01T00:00:00Z' };
const wrongOf = (creation) => faults(creation, now).map(({ field, at }) => `${field}${at === '' ? '' : `-${at}`}`);
same('no fault', [wrongOf(flat), wrongOf(ride)], [[], []]);
for (const [change, fields] of [[{ title: '' }, ['title']], [{ members: ['', 'x\n'] }, ['members-0', 'members-1']], [{ rooms: ['A', 'é'.repeat(21)] }, ['rooms-1']], [{ rent: 0 }, ['rent']], [{ rent: 10_000_001 }, ['rent']], [{ rent: NaN }, ['rent']],
  [{ deadline: '' }, ['deadline']], [{ deadline: '2025-12-31T23:59:59Z' }, ['deadline']], [{ deadline: '2099-01-01T00:00:00Z' }, ['deadline']]]) same(`faults of ${JSON.stringify(change)}`, wrongOf({ ...flat, ...change }), fields);
same('faults of a ride', wrongOf({ ...ride, flag: -1, legs: [[1, NaN], [0, 3], [1_000_001, 0]] }), ['flag', 'legs-0-1', 'legs-2-0']);
same('a way to itself is not asked for', wrongOf({ ...ride, legs: [[1, 2], [NaN, 3], [4, NaN]] }), []);
same('names', [nameFault('é'.repeat(20)), nameFault('x'.repeat(41))?.[0], nameFault('a\u007f')?.[0]], [null, 'faults.long', 'faults.control']);
same('doubles', doubles(['Ann', 'Ben', 'Ann', '', '']), ['Ann']);

const link = await import(`${JS}/link.js`);
const key = '0123456789abcdef'.repeat(4);
for (const parts of [{ id: '7', key, currency: '', tag: '' }, { id: '4294967295', key, currency: 'EUR', tag: '' }, { id: '1', key, currency: '', tag: 'a-tag-of-20-letters-' }, { id: '1', key, currency: 'CHF', tag: 'a'.repeat(64) }]) {
  same('a link is read as it was written', link.parse(link.fragment(parts)), parts);
  same('a link has the path of the page', link.address(parts).startsWith('https://split.example/h7/#'), true);
}
for (const hash of ['', '#', '#check', `#1.${key.slice(1)}`, `#1.${key}0`, `#x.${key}`, `#1.${key.toUpperCase()}`, `#1.${key}.eur`, `#1.${key}.EUR.short`]) same(`no link: ${hash}`, link.parse(hash), null);
const round = { ...ride, deadline: 1_769_904_000, id: 1, you: 0, bids: [], closed: false };

// Hosts that share a name: which of them are asked for room, and where the page goes then.
const room = { full: [], broken: [], down: [], fell: [], list: ['/a/', '/b/', '/c/'], asked: [] };
const reply = (status, body) => new Response(JSON.stringify(body), { status });
globalThis.fetch = async (path, { method }) => {
  if (path === '/hosts.json') return room.list ? reply(200, room.list) : new Response('<h1>404</h1>', { status: 404 });
  room.asked.push(`${method} ${path}`);
  const host = path.replace('instances', '');
  if (room.lost > 0) { room.lost--; throw new TypeError('lost'); }
  if (room.fell.includes(host)) return new Response('<h1>502</h1>', { status: 502 });
  if (room.down.includes(host)) return reply(503, { code: 'host_down' });
  return room.full.includes(host) ? reply(409, { code: 'host_full' }) : room.broken.includes(host) ? reply(503, { code: 'store_fault' }) : reply(201, { id: 3, organiser: key, keys: [key, key] });
};
const later = globalThis.setTimeout;
globalThis.setTimeout = (go) => later(go, 0);
const { creationOf, make } = await import(`${JS}/creation.js`);
same('the creation of a round', JSON.parse(creationOf(round, 'a'.repeat(16))), { kind: 'fares', title: 'Ride', members: ['Ann', 'Ben'], places: ['A', 'B'], flag: 0, legs: ride.legs, deadline: '2026-02-01T00:00:00Z', tag: 'a'.repeat(16) });
const keptNow = () => JSON.parse(store.get('fairsplit/h7/creation') ?? 'null');

/** Sends a creation with a tag that begins so; answers who was asked, where the page is then, and the code of a refusal. */
async function sends(begin, changed, at) {
  Object.assign(room, { full: [], broken: [], down: [], fell: [], lost: 0, list: ['/a/', '/b/', '/c/'], ...changed, asked: [] });
  location.href = '';
  const refused = await make(JSON.stringify({ ...flat, tag: begin.padStart(8, '0').padEnd(32, '0') }), { currency: 'EUR', at });
  return [room.asked.map((asked) => asked.replace('POST ', '').replace('instances', '')), location.href.split('#')[0], refused?.code ?? (refused ? 'no reply' : '')];
}
same('there is room', await sends('0', {}), [[''], '', '']);
same('the link of this host', location.href, `#3.${key}.EUR.${'0'.repeat(32)}`);
same('nothing is kept', keptNow(), null);
same('the next has room', await sends('0', { full: [''] }), [['', '/a/'], '/a/', '']);
same('the link of the next', location.href, `/a/#3.${key}.EUR.${'0'.repeat(32)}`);
same('the tag picks the first', await sends('1', { full: ['', '/b/'] }), [['', '/b/', '/c/'], '/c/', '']);
same('behind the last comes the first', await sends('2', { full: ['', '/c/'] }), [['', '/c/', '/a/'], '/a/', '']);
same('all are full', await sends('1', { full: ['', '/a/', '/b/', '/c/'] }), [['', '/b/', '/c/', '/a/'], '', 'host_full']);
same('nothing is kept of what was refused', keptNow(), null);
same('no list', await sends('0', { full: [''], list: null }), [[''], '', 'host_full']);
for (const list of [{}, [], 7, ['//other.example/', 'https://other.example/', '/a/../', 'a', '#', 3]]) same(`no hosts in ${JSON.stringify(list)}`, await sends('0', { full: [''], list }), [[''], '', 'host_full']);
same('names of many hosts', await sends('1', { full: [''], list: ['/a/', '/h27/'] }), [['', '/h27/'], '/h27/', '']);
same('one that does not answer is not passed by', await sends('0', { full: [''], broken: ['/a/'] }), [['', ...Array(3).fill('/a/')], '', 'store_fault']);
same('it is kept for whom it was sent', [keptNow().at, keptNow().currency], ['/a/', 'EUR']);
same('and is sent there again', await sends('0', { full: [''] }, '/a/'), [['/a/'], '/a/', '']);
// One that was never reached is passed by, at once; one that may have got it is not.
same('one that is down is passed by', await sends('0', { down: [''] }), [['', '/a/'], '/a/', '']);
same('also behind a full one', await sends('0', { full: [''], down: ['/a/'] }), [['', '/a/', '/b/'], '/b/', '']);
same('all are down', await sends('0', { down: ['', '/a/', '/b/', '/c/'] }), [['', '/a/', '/b/', '/c/'], '', 'no reply']);
same('nothing of it is kept', keptNow(), null);
same('one that fell while it was asked is not passed by', await sends('0', { fell: [''] }), [Array(3).fill(''), '', 'no reply']);
same('its creation is kept', keptNow().at, '');
same('a reply that was lost, and then it is down', await sends('0', { lost: 1, down: [''] }), [Array(3).fill(''), '', 'no reply']);
same('that creation is kept, too', keptNow().at, '');
Object.assign(room, { lost: 0, down: [''], asked: [] });
await make(keptNow().body, { ...keptNow(), inDoubt: true });
same('and not sent to another when it is sent again', [new Set(room.asked).size, keptNow().at], [1, '']);
const names = Array.from({ length: 100 }, (_, at) => `/h${at + 27}/`);
const most = await sends('0', { list: names, full: names.slice(0, 14), broken: names.slice(14), down: [''] });
same('the tries of a creation, with one for the links, stay below the 20 of the proxies', [most[0].length + 1 < 20, most[2]], [true, 'store_fault']);
same('however many are full', (await sends('0', { list: names, full: ['', ...names] }))[0].length, 16);
globalThis.setTimeout = later;

const { linesOf, together: judgedBy } = await import(`${JS}/verdict.js`);
const together = (text, known) => judgedBy(linesOf(text), known);
const onceRead = linesOf('x');
same('what cannot be read is null, and is read once', [onceRead(), onceRead()], [null, null]);
const flatText = readFileSync(join(JS, '../../examples/flat-for-three.txt'), 'utf8');
const second = (says) => ({ says, verdict: says.split(' ')[0].replace(':', ''), rules: [], facts: [] });
for (const [proved, says, verdict, by] of [
  ['yes', 'yes', 'yes', 'both'], ['yes', undefined, 'yes', 'proved'], [undefined, 'yes', 'yes', 'script'], [undefined, undefined, 'none', 'none'],
  ['yes', 'no 3', 'differ', 'both'], ['no 3', 'yes', 'differ', 'both'], ['no 2', 'no 3', 'differ', 'both'], ['no 3', 'no 3', 'no', 'both'],
  ['refused: line 4', 'refused: line 4', 'refused', 'both'], ['refused: line 4', 'refused: line 5', 'differ', 'both'], ['refused: too long', undefined, 'refused', 'proved'],
]) {
  const found = together(flatText, { proved, second: says && second(says), isOver: true });
  same(`the verdict of ${proved} and ${says}`, [found.verdict, found.by], [verdict, by]);
  same(`a yes of ${proved} and ${says} has what the lines say`, Boolean(found.said), found.verdict === 'yes' || found.verdict === 'no');
}
same('a yes to what the page cannot read', together('fairsplit 1\n', { proved: 'yes' }).verdict, 'differ');
same('the rule and the line', [together(flatText, { proved: 'no 4' }).rule, together(flatText, { proved: 'refused: line 12' }).line], [4, '12']);

const { read } = await import(`${JS}/check.js`);
const { rentShares, goodsShares } = await import(`${JS}/shares.js`);
const certificate = (name) => read(readFileSync(join(JS, `../../examples/${name}.txt`), 'utf8'));
for (const example of ['flat-for-three', 'odd-rent']) {
  const said = certificate(example);
  const { room, gain, rival } = rentShares(said);
  for (let m = 0; m < said.n; m++) {
    const beyond = (other) => minus(gain(m, room[other]), gain(m, room[rival(m)])).n;
    const others = room.map((_, other) => other).filter((other) => other !== m);
    same(`the best room of the others to member ${m + 1} of ${example}`, [rival(m) !== m, others.every((other) => beyond(other) <= 0n)], [true, true]);
  }
}
const worthTo = ({ values, owners }, player, other) => values[player].reduce((all, v, good) => (Number(owners[good]) === other + 1 ? all + Number(v) : all), 0);
for (const example of ['three-heirs', 'attic-for-two', 'divorce-for-two']) {
  const said = certificate(example);
  const { best, worthOf, envies } = goodsShares(said);
  for (let player = 0; player < said.n; player++) {
    const all = Array.from({ length: said.n }, (_, other) => worthTo(said, player, other));
    same(`the best share of the others to player ${player + 1} of ${example}`, [best(player) !== player, Number(worthOf(player, best(player)))], [true, Math.max(...all.filter((_, other) => other !== player))]);
    for (const { other, good, isOne } of envies.filter((envy) => envy.player === player)) {
      same(`what ${other + 1} could give up for ${player + 1}`, [Number(said.owners[good]) === other + 1, all[other] - Number(said.values[player][good]) <= all[player]], [true, isOne]);
    }
  }
}

console.log(`modules: ${right} right, ${wrong} wrong`);
process.exit(wrong ? 1 : 0);

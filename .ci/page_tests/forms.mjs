// Rung (b) of .ci/page, with node: what forms, drafts and links are made of.
import { spawnSync } from 'node:child_process';
import { mkdtempSync, rmSync, writeFileSync } from 'node:fs';
import { tmpdir } from 'node:os';
import { dirname, join } from 'node:path';
import { fileURLToPath } from 'node:url';
import { install, storage } from './fake_dom.mjs';

const JS = join(dirname(fileURLToPath(import.meta.url)), '../../page/js');
let right = 0, wrong = 0;

/** What was got is what is wanted. */
function same(what, got, wanted) {
  const [a, b] = [JSON.stringify(got), JSON.stringify(wanted)];
  if (a === b) { right++; return; }
  wrong++;
  console.log(`forms: ${what} gives ${a} and not ${b}`);
}

const { root, store } = install();
const passing = new Map();
globalThis.sessionStorage = storage(passing);
globalThis.location = { origin: 'https://split.example', pathname: '/h7/', hash: '' };
const kept = await import(`${JS}/store.js`);
const KEY = '0123456789abcdef'.repeat(4);
const link = { id: '7', key: KEY, currency: 'EUR', tag: 't'.repeat(16) };
const round = { kind: 'goods', title: 'Attic', members: ['Ann', 'Ben'], goods: ['Desk', 'Lamp', 'Chair'], you: 1, deadline: 2_000_000_000 };

// Names: how many letters are too many, and which rows count.
const { nameFault, rowsThatCount } = await import(`${JS}/faults.js`);
const letters = (text) => nameFault(text)?.[1]?.n ?? 0;
same('letters too many', ['x'.repeat(40), 'x'.repeat(43), 'Ж'.repeat(20), 'Ж'.repeat(23), '🌻'.repeat(10), '🌻'.repeat(11), `${'x'.repeat(39)}Ж`].map(letters), [0, 3, 0, 3, 0, 1, 1]);
same('rows that count', [rowsThatCount(['', 'Ann', ' ', 'Ben'], 2), rowsThatCount(['', '', 'Ann'], 2), rowsThatCount(['', ''], 2), rowsThatCount(['A', 'B', 'C', ''], 2), rowsThatCount([''], 1)], [[1, 3], [0, 2], [0, 1], [0, 1, 2], [0]]);

// Rounds, drafts and what was seen: kept, forgotten, and never on somebody else's device.
const { isRemembered, forgetRound, rememberRound, roundsKept } = await import(`${JS}/rounds_kept.js`);
const { seeBid, seen } = await import(`${JS}/seen.js`);
const { allSeen, forgetOld, seeClose } = await import(`${JS}/all_seen.js`);
rememberRound(link, round);
rememberRound({ ...link, id: '8' }, { ...round, you: 0, deadline: round.deadline + 1 });
same('rounds that are kept, the last first', roundsKept().map((one) => [one.link, one.who]), [[`#8.${KEY}.EUR.${link.tag}`, ''], [`#7.${KEY}.EUR.${link.tag}`, 'Ann']]);
store.set('fairsplit/h7/round.9.x', '{"kind":"rent","title":"<b>","who":"","until":1,"link":"javascript:alert(1)"}');
store.set('fairsplit/h7/round.9.y', 'no JSON');
store.set('fairsplit/h8/round.7.other', store.get(`fairsplit/h7/round.7.${KEY.slice(0, 12)}`));
same('what is no round is left out, and so is another host’s', roundsKept().length, 2);
forgetRound(link);
same('one is forgotten', [isRemembered(link), isRemembered({ ...link, id: '8' })], [false, true]);
const DAY = 86_400_000;
seeBid(link, round, { turn: 1, values: [500, 300, 200] });
same('a bid is seen', [seen(link).bid.values, allSeen().map(({ id }) => id)], [[500, 300, 200], ['7']]);
forgetOld(round.deadline * 1000 + 89 * DAY);
same('a bid of a round that is closed for 89 days', seen(link) !== null, true);
forgetOld(round.deadline * 1000 + 91 * DAY);
same('and for 91', seen(link), null);
seeBid(link, round, { turn: 1, values: [500, 300, 200] });
seeClose(link, 1_000 * DAY);
seeClose(link, 1_050 * DAY);
forgetOld(1_089 * DAY);
same('a round that was closed early is kept by its close', seen(link) !== null, true);
forgetOld(1_091 * DAY);
same('and forgotten by it', seen(link), null);
kept.formDraft('rent').put({ title: 'Draft' });
kept.bidDraft(link).put(['1', '2']);
same('drafts', [kept.formDraft('rent').get(), kept.bidDraft(link).get(), kept.formDraft('goods').get(), passing.size], [{ title: 'Draft' }, ['1', '2'], null, 2]);
kept.formDraft('rent').drop();
same('a draft that was sent', [kept.formDraft('rent').get(), passing.size], [null, 1]);
kept.keep('language', 'de');
kept.forgetAll();
kept.keep('borrowed', true);
same('all is forgotten but the language', [[...store.keys()].sort(), passing.size], [['fairsplit/borrowed', 'fairsplit/language'], 0]);
rememberRound(link, round);
seeBid(link, round, { turn: 1, values: [500, 300, 200] });
kept.bidDraft(link).put(['1']);
same('on somebody else’s device nothing is kept', [[...store.keys()].sort(), passing.size, kept.bidDraft(link).get()], [['fairsplit/borrowed', 'fairsplit/language'], 0, ['1']]);
kept.keep('borrowed', null);
globalThis.localStorage = { get length() { throw new Error('forbidden'); }, getItem() { throw new Error('forbidden'); }, setItem() { throw new Error('forbidden'); }, removeItem() { throw new Error('forbidden'); } };
kept.keep('creation', { body: 'x' });
same('where a browser keeps nothing, the page does', kept.kept('creation'), { body: 'x' });
globalThis.localStorage = storage(store);

// An old bid, and which one is offered.
const { earlierBid, offerOld } = await import(`${JS}/old_bid.js`);
seeBid(link, round, { turn: 1, values: [500, 300, 200] });
same('the old bid of the same people and items', [earlierBid({ ...round, id: 9 }), earlierBid({ ...round, id: 7 }), earlierBid({ ...round, id: 9, you: 2 }), earlierBid({ ...round, id: 9, goods: ['Desk', 'Lamp'] }), earlierBid({ ...round, id: 9, members: ['Ann', 'Cy'] })], [[500, 300, 200], null, null, null, null]);

const offered = async (values) => {
  seeBid(link, round, { turn: 1, values });
  const place = { earlier: document.createElement('div'), later: document.createElement('div') };
  await (await import(`${JS}/language.js`)).learn('en');
  offerOld(place, { ...round, id: 9 }, () => {});
  return [place.earlier.textContent.includes('Put in my numbers'), place.later.textContent];
};
same('old numbers are offered', await offered([510, 290, 200]), [true, '']);

// A proposal, and places along one road.
const { weighed } = await import(`${JS}/proposal.js`);
same('a proposal with envy', weighed([[700, 200, 100], [800, 150, 50]], [0, 1, 1]), { own: [700, 200], envies: [{ person: 1, other: 0, by: 600, isOne: true }] });
same('more envy than one item', weighed([[400, 400, 200], [300, 300, 400]], [1, 1, 0]), { own: [200, 600], envies: [{ person: 0, other: 1, by: 600, isOne: false }] });
same('no envy', weighed([[500, 500], [500, 500]], [0, 1]).envies, []);
const { alongRoad } = await import(`${JS}/ways.js`);
same('along one road', alongRoad([700, 1200, 950, NaN]), [[0, 500, 250, ''], [500, 0, 250, ''], [250, 250, 0, ''], ['', '', '', '']]);

// What is wrong in the form of a division is told once it is sent, and is judged anew after each change.
const { learn, learnMore } = await import(`${JS}/language.js`);
const { DivideForm } = await import(`${JS}/divide_form.js`);
await learn('en');
await learnMore();
const change = (form, id, value) => {
  const target = document.getElementById(id);
  target.value = value;
  for (const node of [target, form]) node.listeners.input?.({ target }); // it bubbles
};
const told = () => root.querySelectorAll('.fault').filter((node) => node.textContent).map((node) => node.textContent);
const summary = () => root.querySelector('#summary').querySelectorAll('h2,li').map((node) => node.textContent);
/** A form on the page, and the cases that it gave. */
function formOf(kind, start) {
  const cases = [];
  const { form } = new DivideForm(kind, start, (made) => cases.push(made));
  root.replaceChildren();
  root.append(form);
  return { form, cases, send: () => form.listeners.submit({ preventDefault() {} }) };
}
const [NAME, RENT, LEFT] = ['Enter a name.', 'Enter an amount from £0.01 to £100,000.00.', (n) => (n === 1 ? '1 field needs your attention' : `${n} fields need your attention`)];
const rentForm = formOf('rent', {});
change(rentForm.form, 'title', '');
same('nothing is told before a form is sent', [told(), summary()], [[], []]);
rentForm.send();
same('all that is wrong', [told(), summary()[0], summary().length], [['Enter a title.', NAME, NAME, NAME, NAME, RENT], LEFT(6), 7]);
change(rentForm.form, 'title', 'Flat');
same('a title that was entered', [told(), summary()[0], document.getElementById('title').getAttribute('aria-invalid')], [[NAME, NAME, NAME, NAME, RENT], LEFT(5), null]);
for (const [id, value] of [['members-0', 'Ann'], ['members-1', 'Ben'], ['things-0', 'Attic'], ['rent', '1450.50']]) change(rentForm.form, id, value);
same('what is left', [told(), summary()], [[NAME], [LEFT(1), 'Room 2: Enter a name.']]);
change(rentForm.form, 'title', 'x'.repeat(41));
same('what is wrong since', [told(), summary()[0]], [['This is too long by 1 letter.', NAME], LEFT(2)]);
change(rentForm.form, 'title', 'Flat');
change(rentForm.form, 'things-1', 'Cellar');
same('nothing is left', [told(), summary(), rentForm.cases.length], [[], [], 0]);
change(rentForm.form, 'currency', 'E');
same('a currency', [told(), summary()[0]], [['Enter the three letters of a currency, such as EUR, or nothing.'], LEFT(1)]);
change(rentForm.form, 'currency', 'EUR');
rentForm.send();
same('the case', rentForm.cases, [{ kind: 'rent', title: 'Flat', members: ['Ann', 'Ben'], rooms: ['Attic', 'Cellar'], rent: 145_050 }]);
const roomy = formOf('rent', { title: 'Flat', people: ['Ann', 'Ben', ''], things: ['Attic', 'Cellar', 'Loft'], amount: '9' });
roomy.send();
same('more rooms than people', [told(), summary()[0], roomy.cases], [['There are 3 rooms for 2 people: add a name above, or clear this room.'], LEFT(1), []]);
root.querySelectorAll('button').find((one) => one.getAttribute('aria-label') === 'Remove Housemate 3').click();
same('a row that was removed', told(), []);
const rideForm = formOf('fares', { title: 'Ride', people: ['Ann', 'Ben'], things: ['Station', 'Airport'], amount: '3' });
rideForm.send();
const TRIP = (to) => `From the start to ${to}: Enter an amount from £0.00 to £10,000.00.`;
same('trips', [told(), summary()[0]], [[TRIP('Station')], LEFT(4)]);
change(rideForm.form, 'legs-0-0', '10');
same('a trip that was entered', [told(), summary()[0]], [[TRIP('Airport')], LEFT(3)]);
change(rideForm.form, 'legs-0-1', '20');
root.querySelector('.tick').querySelector('input').listeners.change({ target: { checked: true } });
same('the others follow along one road', told(), []);
const chipForm = formOf('goods', { title: 'Estate', people: ['Ann', 'Ben'], things: ['Desk', 'Lamp'], hasChips: true });
chipForm.send();
same('items need no currency', chipForm.cases.length, 1);

// Ten chips of a hundred points each, as the fields hold them and as they are sent.
const { ValueFields } = await import(`${JS}/value_fields.js`);
const chipped = new ValueFields(round, { values: [700, 300, 0] }, { alive: () => true, calm() {}, message: root, hasChips: true });
same('chips', [chipped.raw, chipped.said().values, chipped.restText([7, 2, 0], -1)], [['7', '3', '0'], [700, 300, 0], '1 of 10 chips left']);
const odd = new ValueFields(round, { values: [750, 250, 0] }, { alive: () => true, calm() {}, message: root, hasChips: true });
same('points that are no whole chips stay points', [odd.raw, odd.said().values], [['750', '250', '0'], [750, 250, 0]]);
const { PlaceField } = await import(`${JS}/place_field.js`);
const field = new PlaceField({ places: ['Station', 'Airport'], flag: 300, legs: [[1000, 2000]] }, {});
root.replaceChildren();
root.append(field.set);
field.complain('Pick a place');
same('no place is picked', told(), ['Pick a place']);
document.getElementById('place').listeners.input?.({});
same('a place is picked', told(), []);

// An appointment.
const { calendarFile } = await import(`${JS}/calendar.js`);
const url = `https://split.example/h7/#7.${KEY}.EUR`;
const file = calendarFile({ id: 'x@y', title: 'Result: A; b, c\\d\ne 🌻', text: `Open ${url}`, url, until: Date.UTC(2026, 11, 4, 18), now: Date.UTC(2026, 10, 29) });
const lines = file.split('\r\n');
same('no line above 75 bytes, and none broken otherwise', [lines.every((line) => new TextEncoder().encode(line).length <= 75), /[^\r]\n/.test(file)], [true, false]);
same('the lines', file.replaceAll('\r\n ', '').split('\r\n').slice(3), ['BEGIN:VEVENT', 'UID:x@y', 'DTSTAMP:20261129T000000Z', 'DTSTART:20261204T180000Z', 'DTEND:20261204T181500Z', 'SUMMARY:Result: A\\; b\\, c\\\\d\\ne 🌻', `DESCRIPTION:Open ${url}`, `URL:${url}`,
  'BEGIN:VALARM', 'ACTION:DISPLAY', 'DESCRIPTION:Result: A\\; b\\, c\\\\d\\ne 🌻', 'TRIGGER:PT5M', 'END:VALARM', 'END:VEVENT', 'END:VCALENDAR', '']);

// Codes to be scanned, read by another program where it is there.
const { qrCode } = await import(`${JS}/qr.js`);
const hasReader = spawnSync('zbarimg', ['--version']).status === 0;
const folder = mkdtempSync(join(tmpdir(), 'fairsplit-codes-'));
function scanned(code) {
  const side = (code.length + 8) * 3;
  const square = (at) => Math.floor(at / 3) - 4;
  const rows = Array.from({ length: side }, (_, y) => Array.from({ length: side }, (__, x) => (code[square(y)]?.[square(x)] ? 0 : 255)).join(' '));
  const path = join(folder, 'code.pgm');
  writeFileSync(path, `P2\n${side} ${side}\n255\n${rows.join('\n')}\n`);
  return spawnSync('zbarimg', ['-q', '--raw', path], { encoding: 'utf8' }).stdout.replace(/\n$/, '');
}
const long = `${url}${'/0123456789abcdef'.repeat(60)}`;
for (const length of [1, 14, 15, 26, 42, 62, 84, 106, 122, 152, 180, 213, 251, 287, 331, 362, 412, 450, 504, 560, 624, 666]) {
  const text = long.slice(0, length);
  const code = qrCode(text);
  same(`a code of ${length} bytes`, [(code.length - 17) % 4, code.every((row) => row.length === code.length)], [0, true]);
  if (hasReader) same(`the code of ${length} bytes is read`, scanned(code), text);
}
if (hasReader) same('letters of two bytes are read', scanned(qrCode('https://müller.example/#Ж')), 'https://müller.example/#Ж');
same('what is too long has no code', [qrCode('x'.repeat(667)), qrCode('x'.repeat(666)).length], [null, 97]);
rmSync(folder, { recursive: true });

console.log(`forms: ${right} right, ${wrong} wrong; codes were ${hasReader ? 'read by zbarimg' : 'not read: no zbarimg'}`);
process.exit(wrong ? 1 : 0);

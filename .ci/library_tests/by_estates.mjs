// by_estates.mjs FOLDER ROWS.json: what the module of estates of a folder writes for the named estates, which has to be what the package wrote, byte for byte; what
// read.js makes of these certificates; and what the module does with progress, with signals and with what is refused.
// Node 20 and 22 run the module with a 64-bit memory only with --experimental-wasm-memory64.
import assert from 'node:assert/strict';
import { readFileSync } from 'node:fs';
import { join } from 'node:path';
import { pathToFileURL } from 'node:url';

const [folder, rowsName] = process.argv.slice(2);
const from = (name) => import(pathToFileURL(join(folder, name)));
const [{ loadEstates }, { loadJudge }, { read }] = await Promise.all([from('estates.js'), from('judge.js'), from('read.js')]);
const fileOf = async (name) => readFileSync(join(folder, name));
const [estates, judge] = await Promise.all([loadEstates(fileOf), loadJudge(fileOf)]);
const LIMIT = 20_000;
const rows = JSON.parse(readFileSync(rowsName, 'utf8'));

/** The members of a case in which everybody has bid. */
function everyone(bids) {
  return bids.map((_, place) => place + 1);
}

/** The division of a case with these owners and this text. */
function divisionOf(bids, { owners, text }) {
  const steps = Number(text.match(/^steps (.*)$/m)[1]);
  const shares = bids.map((values, player) => {
    const goods = values.map((_, good) => good + 1).filter((good) => owners[good - 1] === player + 1);
    return { member: player + 1, goods, points: goods.reduce((sum, good) => sum + values[good - 1], 0) };
  });
  return { kind: 'goods', limit: LIMIT, steps, who: everyone(bids), goods: bids[0].map((_, good) => good + 1), values: bids, owners, shares };
}

for (const { name, bids, text } of rows) {
  const found = await estates.divide(LIMIT, everyone(bids), bids);
  assert.equal(found.status === 0 ? found.text : '', text, name);
  if (found.status !== 0) continue;
  assert.deepEqual(found.owners, text.match(/^owners (.*)$/m)[1].split(' ').map(Number), name);
  assert.deepEqual(await read(judge, found.text), { status: 0, line: 'yes', division: divisionOf(bids, found) }, name);
}

// Each judge refuses what the other reads.
const [{ bids, text }] = rows;
const asItems = text.replace('fairsplit 2', 'fairsplit 1');
assert.deepEqual(await judge.check(text), { status: 3, line: 'refused: line 1' });
assert.deepEqual(await estates.check(asItems), { status: 3, line: 'refused: line 1' });

// An estate is read with names, from bytes and by the judge of estates itself; and only if the judge says yes.
const names = { members: bids.map((_, place) => `m${place}`), goods: bids[0].map((_, place) => `g${place}`) };
const { division } = await read(estates, new TextEncoder().encode(text), names);
assert.deepEqual(division.shares.map(({ member }) => member), names.members);
assert.deepEqual(division.shares.flatMap(({ goods }) => goods).sort(), [...names.goods].sort());
assert.deepEqual((await read({ ...judge, checkEstate: undefined }, text)), { status: 3, line: 'refused: line 1' });
assert.deepEqual(await read(judge, asItems), await judge.check(asItems));
assert.deepEqual(await read(judge, text.replace(/^owners .*$/m, (line) => line.replace(/ \d+$/, ` ${bids.length + 1}`))), { status: 1, line: 'no 2' });
assert.deepEqual(await read(estates, 'fairsplit 2\nkind rent\n'), { status: 3, line: 'refused: line 2' });
await assert.rejects(read(judge, text, { rooms: ['x'] }), RangeError);

// A long search tells how far it is, and ends by its limit or by a signal.
const long = rows.reduce((most, row) => (row.text.length > most.text.length ? row : most));
const steps = [];
const found = await estates.divide(LIMIT, everyone(long.bids), long.bids, { progress: (reached) => steps.push(reached.steps) });
assert.ok(steps.length > 0 && steps.every((count, place) => count > (steps[place - 1] ?? 0)), `${steps}`);
assert.equal(found.text, long.text);
const stopped = await estates.divide(1, everyone(long.bids), long.bids);
assert.deepEqual([stopped.status, stopped.text, stopped.owners.length], [1, 'step limit 1\n', long.bids[0].length]);
await assert.rejects(estates.divide(LIMIT, everyone(long.bids), long.bids, { signal: AbortSignal.abort() }), { name: 'AbortError' });
const controller = new AbortController();
await assert.rejects(estates.divide(LIMIT, everyone(long.bids), long.bids, { signal: controller.signal, progress: () => controller.abort() }), { name: 'AbortError' });

for (const [field, call] of [
  ['goods', () => estates.divide(LIMIT, [1], [[]])], ['limit', () => estates.divide(0, [1], [[1000]])], ['limit', () => estates.divide(1_000_001, [1], [[1000]])],
  ['bids', () => estates.divide(LIMIT, [2, 1], [[1000], [1000]])], ['bids', () => estates.divide(LIMIT, [1], [[999]])]]) {
  assert.deepEqual(await call(), { status: 3, text: `refused: field ${field}\n` });
}
await assert.rejects(estates.divide(-1, [1], [[1000]]), RangeError);
console.log(`by_estates: ${rows.length} estates, with ${estates.isLowered ? 'the lowered' : 'the proved'} module`);

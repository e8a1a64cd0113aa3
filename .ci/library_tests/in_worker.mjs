// in_worker.mjs: what the package does in a worker: calls wait for each other, errors come back, and a signal stops a search.
import assert from 'node:assert/strict';
import { read, startWorker } from 'fairsplit';

const FLAT = [[600, 300], [500, 400]];
const worker = startWorker();
const [{ status, text }, { pays }] = await Promise.all([worker.rent(900, FLAT), worker.rentCents(900, FLAT)]);
assert.deepEqual([status, pays, (await worker.check(text)).line], [0, [550, 350], 'yes']);
await assert.rejects(worker.rent(900, [[600, 300], [500]]), RangeError);

// An estate is divided and judged there, and read here; so is a rent.
const estate = await worker.estate(1000, [1, 2], [[600, 400], [500, 500]]);
const [found, flat] = [await read(worker, estate.text, { members: ['Ada', 'Bo'], goods: ['Piano', 'Car'] }), await read(worker, text)];
assert.deepEqual([found.line, found.division.owners, flat.line, flat.division.kind], ['yes', ['Ada', 'Bo'], 'yes', 'rent']);

// Six people and 20 goods that nobody prefers: the search takes longer than this signal waits.
const equal = Array.from({ length: 6 }, () => Array(20).fill(50));
const stop = new AbortController();
const search = worker.goods(200_000, [1, 2, 3, 4, 5, 6], equal, { signal: stop.signal });
const next = worker.rentCents(900, FLAT);
setTimeout(() => stop.abort(), 20);
await assert.rejects(search, { name: 'AbortError' });
assert.deepEqual((await next).pays, [550, 350]);
await assert.rejects(worker.rent(900, FLAT, { signal: AbortSignal.abort() }), { name: 'AbortError' });
worker.end();

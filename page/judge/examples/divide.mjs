// Divides a flat in Node, lets the proved judge check the certificate, and prints who gets what: node divide.mjs
import { loadJudge, loadSolver, read, startWorker } from 'fairsplit';

const solver = await loadSolver();
const bids = [[600, 300], [500, 400]];
const { text } = await solver.rent(900, bids);
const { pays } = await solver.rentCents(900, bids);
const { line, division } = await read(await loadJudge(), text, { members: ['Ann', 'Ben'], rooms: ['Attic', 'Back'] });
division.shares.forEach(({ member, room }, place) => console.log(`${member}: ${room} for ${pays[place]} cents`));
console.log(`the judge says ${line}`);

// The same in a worker, which a signal can stop.
const worker = startWorker();
const again = await worker.rent(900, bids, { signal: AbortSignal.timeout(60_000) });
console.log(`the worker writes ${again.text === text ? 'the same' : 'another'} certificate`);
worker.end();

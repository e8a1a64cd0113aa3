// by_solver.mjs FOLDER ROWS.json: what the solvers of a folder write for the cases that the program could divide, or found above their limit, and
// what they say that each pays beside the program's reports, and what they hand out as numbers beside both.
// Node 20 and 22 run the module with a 64-bit memory only with --experimental-wasm-memory64.
import { readFileSync } from 'node:fs';
import { join } from 'node:path';
import { pathToFileURL } from 'node:url';
import { isDeepStrictEqual } from 'node:util';

const [folder, rowsName] = process.argv.slice(2);
const { loadSolver } = await import(pathToFileURL(join(folder, 'solver.js')));
const solver = await loadSolver(async (name) => readFileSync(join(folder, name)));
const USUAL_LIMIT = 100_000;

/** The numbers of the members who have bid, and their bids. */
function bidders(bids) {
  const who = bids.map((_, place) => place + 1).filter((member) => bids[member - 1] !== null);
  return [who, who.map((member) => bids[member - 1])];
}

/** What the solver writes for a case as JSON has it; in place of a report, what each pays. */
function solved(command, body) {
  const [who, bids] = bidders(body.bids);
  if (command === 'report') return body.kind === 'rent' ? solver.rentCents(body.rent, bids) : solver.faresCents(body.flag, body.legs, who, bids);
  if (body.kind === 'rent') return solver.rent(body.rent, bids);
  if (body.kind === 'goods') return solver.goods(body.limit ?? USUAL_LIMIT, who, bids);
  return solver.fares(body.flag, body.legs, who, bids);
}

/** What a report says that each pays. */
function paid(report) {
  return Array.from(report.matchAll(/^\d+ .*, pays (-?\d+), /gm), ([, cents]) => Number(cents));
}

/** A fraction as a text has it. */
function said({ numerator, denominator }) {
  return denominator === 1 ? `${numerator}` : `${numerator}/${denominator}`;
}

/** The lines of a certificate that a division in numbers says, of which no other line has anything to do with the division. */
async function told(body) {
  const [who, bids] = bidders(body.bids);
  if (body.kind === 'goods') return [`owners ${(await solver.goodsOwners(body.limit ?? USUAL_LIMIT, who, bids)).owners.join(' ')}`];
  const { rooms, prices, route, fares } = body.kind === 'rent' ? await solver.rentRooms(body.rent, bids) : await solver.faresRoute(body.flag, body.legs, who, bids);
  return rooms ? [`rooms ${rooms.join(' ')}`, `prices ${prices.map(said).join(' ')}`] : [`route ${route.join(' ')}`, `fares ${fares.map(said).join(' ')}`];
}

let tried = 0;
let differ = 0;
for (const [command, given, status, text] of JSON.parse(readFileSync(rowsName))) {
  const due = Buffer.from(text, 'base64').toString();
  if (!['solve', 'report'].includes(command) || (status !== 0 && !due.startsWith('step limit'))) continue;
  const body = JSON.parse(Buffer.from(given, 'base64').toString());
  if (command === 'report' && body.kind === 'goods') continue;
  tried += 1;
  const found = await solved(command, body);
  const wanted = command === 'report' ? { status, pays: paid(due) } : { status, text: due };
  const lines = command === 'solve' && status === 0 ? await told(body) : [];
  if (isDeepStrictEqual(found, wanted) && lines.every((line) => due.includes(`\n${line}\n`))) continue;
  differ += 1;
  if (differ < 6) console.log(`library: ${JSON.stringify(wanted).slice(0, 200)} by the program, ${JSON.stringify(found).slice(0, 200)} by the module`);
}
console.log(`library: ${solver.isLowered ? 'the lowered solvers' : 'the proved solvers'} on ${tried} certificates and cent plans: ${differ} differ`);
process.exit(differ || !tried ? 1 : 0);

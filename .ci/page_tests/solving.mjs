// Rung (b) of .ci/page, with node: what the page divides by the proved solver is byte for byte what `fairsplit solve` writes, for drawn cases and for the
// limits; and a certificate that is changed in one byte is never told yes where `fairsplit check` says no.
// node solving.mjs PROGRAM SEED COUNT CHANGED
import { spawn } from 'node:child_process';
import { readFileSync } from 'node:fs';
import { dirname, join } from 'node:path';
import { fileURLToPath } from 'node:url';
import { loadJudge } from '../../page/judge/judge.js';
import { has64Bits } from '../../page/judge/modules.js';
import { numbersOf } from '../../page/js/solver.js';
import { solveTask } from '../../page/js/solve_task.js';
import { judgeTask } from '../../page/js/judge_task.js';
import { linesOf, together } from '../../page/js/verdict.js';

const [program, seed, count, changed] = [process.argv[2], ...process.argv.slice(3).map(Number)];
const JUDGE = join(dirname(fileURLToPath(import.meta.url)), '../../page/judge');
const bits = has64Bits() ? '64' : '32';
const modules = { solver: readFileSync(join(JUDGE, `solver${bits}.wasm`)), judge: readFileSync(join(JUDGE, `judge${bits}.wasm`)) };
const AT_ONCE = 4;
let state = seed >>> 0 || 1;

/** A number below n. */
function draw(n) {
  state = (Math.imul(state, 1664525) + 1013904223) >>> 0;
  return Math.floor((state / 4294967296) * n);
}
const list = (n, f) => Array.from({ length: n }, (_, i) => f(i));
const names = (n) => list(n, (i) => `n${i}`);
/** So many numbers with this sum. */
function spread(n, whole) {
  const cuts = [...list(n - 1, () => draw(whole + 1)).sort((a, b) => a - b), whole];
  return cuts.map((cut, i) => cut - (i ? cuts[i - 1] : 0));
}

/** What the program writes, and its status. */
function run(words, input) {
  return new Promise((done) => {
    const child = spawn(program, words, { stdio: ['pipe', 'pipe', 'ignore'] });
    const pieces = [];
    child.stdin.on('error', () => {});
    child.stdout.on('data', (piece) => pieces.push(piece));
    child.on('close', (status) => done({ status, text: Buffer.concat(pieces).toString() }));
    child.stdin.end(input);
  });
}

const legsOf = (p, far) => list(p + 1, (from) => list(p, (to) => (from === to + 1 ? 0 : draw(far + 1))));
const bidOrNone = (i, bid) => (i > 1 && !draw(4) ? null : bid);
const CASES = {
  rent(n = 2 + draw(7), rent = 1 + draw(draw(2) ? 20 : 300_000)) {
    return { members: names(n), rooms: names(n), rent, bids: list(n, () => spread(n, rent)) };
  },
  goods(n = 2 + draw(4), g = 1 + draw(draw(2) ? 3 : 9), limit = draw(5) ? 200_000 : 1 + draw(60)) {
    const unit = draw(2) ? 50 : 1;
    return { members: names(n), goods: names(g), limit, bids: list(n, (i) => bidOrNone(i, spread(g, 1000 / unit).map((x) => x * unit))) };
  },
  fares(n = 2 + draw(5), p = 1 + draw(5), far = draw(2) ? 5 : 3000) {
    return { members: names(n), places: names(p), flag: draw(500), legs: legsOf(p, far), bids: list(n, (i) => bidOrNone(i, 1 + draw(p))) };
  },
};
const GREATEST = [['rent', 12, 10_000_000], ['goods', 12, 3, 200_000], ['goods', 2, 24, 200_000], ['fares', 10, 12, 1_000_000]];
const drawn = Object.keys(CASES).flatMap((kind) => list(count, () => ({ kind, title: 't', ...CASES[kind]() })));
const greatest = GREATEST.map(([kind, ...sizes]) => ({ kind, title: 't', ...CASES[kind](...sizes) }));

let differ = 0;
const tally = {};
const certificates = [];
/** Compares what the page makes of a case with what the program does. */
async function compare(made) {
  const theirs = await run(['solve', '1'], JSON.stringify(made));
  const ours = await solveTask({ modules, kind: made.kind, numbers: numbersOf(made) });
  const isSame = ours.status === theirs.status && (theirs.status === 0 ? ours.text === theirs.text && ours.says === 'yes' : true);
  tally[`${made.kind} ${theirs.status}`] = (tally[`${made.kind} ${theirs.status}`] ?? 0) + 1;
  if (theirs.status === 0 && theirs.text.length < 4000) certificates.push(theirs.text);
  if (!isSame && ++differ < 6) console.log(`solving: ${theirs.status} and here ${ours.status}, of ${JSON.stringify(made)}`);
}

const judge = await loadJudge(async () => modules.judge);
/** A certificate in which one byte is another. */
function withOtherByte(text) {
  const bytes = new TextEncoder().encode(text);
  const at = draw(bytes.length);
  bytes[at] = draw(3) ? bytes[Math.floor(draw(bytes.length))] : draw(256);
  return bytes;
}

let yes = 0, wrong = 0;
/** What the page says of bytes as they came from a server or from a file, and what the program says of the same bytes. */
async function compareChanged() {
  const bytes = withOtherByte(certificates[draw(certificates.length)]);
  const theirs = (await run(['check'], bytes)).text.trim();
  const { line } = await judge.check(new TextDecoder().decode(bytes));
  const known = {};
  for await (const step of judgeTask({ certificate: new TextDecoder().decode(bytes), module: modules.judge })) Object.assign(known, step);
  const { verdict } = together(linesOf(new TextDecoder().decode(bytes)), { ...known, isOver: true });
  yes += theirs === 'yes';
  if ((line === 'yes' || verdict === 'yes') !== (theirs === 'yes')) { wrong++; console.log(`solving: ${theirs} and here ${line}, ${verdict}`); }
}

const inTurn = async (all, what) => { for (let i = 0; i < all.length; i += AT_ONCE) await Promise.all(all.slice(i, i + AT_ONCE).map(what)); };
await inTurn([...drawn, ...greatest], compare);
await inTurn(list(changed, () => 0), compareChanged);
const told = Object.entries(tally).sort().map(([what, n]) => `${what}: ${n}`).join(', ');
console.log(`solving: ${differ} of ${drawn.length + greatest.length} cases differ (${told}); of ${changed} certificates changed in one byte ${yes} are right, and ${wrong} are told otherwise`);
process.exit(differ || wrong || !yes ? 1 : 0);

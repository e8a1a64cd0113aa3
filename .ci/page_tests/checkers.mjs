// Rung (b) of .ci/page, with node: the page's own checker against `fairsplit check`, on certificates of drawn cases of the three kinds and on forged ones;
// and whatever the page works out from a certificate against `fairsplit report`.
// node checkers.mjs PROGRAM SEED COUNT
import { spawn } from 'node:child_process';
import { readFileSync, readdirSync } from 'node:fs';
import { dirname, join } from 'node:path';
import { fileURLToPath } from 'node:url';
import { judging, lineOf } from '../../page/js/check.js';
import { exact } from '../../page/js/fractions.js';
import { LIMITS } from '../../page/js/rules.js';
import { adjustedWinner, fareShares, goodsShares, rentShares } from '../../page/js/shares.js';

const [program, seed, count] = [process.argv[2], Number(process.argv[3]), Number(process.argv[4])];
const EXAMPLES = join(dirname(fileURLToPath(import.meta.url)), '../../examples');
const FORGED = 10; // of each certificate
const AT_ONCE = 4;
const SHORT = 5; // marks of a tree
let state = seed >>> 0 || 1;

/** A number below n. */
function draw(n) {
  state = (Math.imul(state, 1664525) + 1013904223) >>> 0;
  return Math.floor((state / 4294967296) * n);
}
/** What the page's checker finds. */
function judge(text) {
  const steps = judging(text);
  for (;;) {
    const { done, value } = steps.next();
    if (done) return value;
  }
}
const list = (n, f) => Array.from({ length: n }, (_, i) => f(i));
const names = (n, word) => list(n, (i) => `${word}${i}`);
/** So many numbers with this sum. */
function spread(n, whole) {
  const cuts = [...list(n - 1, () => draw(whole + 1)).sort((a, b) => a - b), whole];
  return cuts.map((cut, i) => cut - (i ? cuts[i - 1] : 0));
}

/** What the program writes. */
function run(words, input) {
  return new Promise((done) => {
    const child = spawn(program, words, { stdio: ['pipe', 'pipe', 'ignore'] });
    const pieces = [];
    child.stdin.on('error', () => {});
    child.stdout.on('data', (piece) => pieces.push(piece));
    child.on('close', () => done(Buffer.concat(pieces).toString()));
    child.stdin.end(input);
  });
}

const DRAWN = {
  rent() {
    const n = 2 + draw(5), rent = 1 + draw(draw(2) ? 20 : 200000);
    return { members: names(n, 'm'), rooms: names(n, 'r'), rent, bids: list(n, () => spread(n, rent)) };
  },
  goods() {
    const n = 2 + draw(4), g = 1 + draw(draw(2) ? 2 : 8), unit = draw(2) ? 100 : 1;
    return { members: names(n, 'm'), goods: names(g, 'g'), bids: list(n, (i) => (i > 1 && !draw(4) ? null : spread(g, 1000 / unit).map((x) => x * unit))) };
  },
  fares() {
    const n = 2 + draw(5), p = 1 + draw(4), far = draw(2) ? 5 : 2000;
    return { members: names(n, 'm'), places: names(p, 'p'), flag: draw(500), legs: list(p + 1, (from) => list(p, (to) => (from === to + 1 ? 0 : draw(far)))), bids: list(n, (i) => (i > 1 && !draw(5) ? null : 1 + draw(p))) };
  },
};

/** One case of each kind with as many of everything as there may be. Each player wants two goods of their own, so that the search ends at once. */
const GREATEST = {
  rent() {
    const n = LIMITS.members[1];
    return { members: names(n, 'm'), rooms: names(n, 'r'), rent: LIMITS.rent, bids: list(n, () => spread(n, LIMITS.rent)) };
  },
  goods() {
    const n = LIMITS.members[1], g = LIMITS.goods[1];
    const wants = (i) => { const first = draw(LIMITS.points + 1); return list(g, (good) => (good === i ? first : good === n + i ? LIMITS.points - first : 0)); };
    return { members: names(n, 'm'), goods: names(g, 'g'), limit: LIMITS.steps, bids: list(n, wants) };
  },
  fares() {
    const n = LIMITS.riders[1], p = LIMITS.places[1];
    return { members: names(n, 'm'), places: names(p, 'p'), flag: LIMITS.cost, legs: list(p + 1, (from) => list(p, (to) => (from === to + 1 ? 0 : LIMITS.cost - draw(2000)))), bids: list(n, () => 1 + draw(p)) };
  },
};

const otherWord = (word, isTree) => {
  if (/^-?\d+$/.test(word)) return String(BigInt(word) + BigInt([1, -1, 2, -7, 1000][draw(5)]));
  if (!isTree) return word.replace(/\d/, () => String(draw(10)));
  const marks = [...word];
  marks[draw(marks.length)] = '+-==='[draw(5)];
  return marks.join('');
};

/** A text in which one thing is another. */
function forge(text) {
  const lines = text.split('\n');
  const told = lines.map((line, i) => (/^(tree|route|owners|fares|prices|rooms|ranks|walks) /.test(line) ? i : -1)).filter((i) => i >= 0);
  const at = draw(3) || !told.length ? draw(lines.length - 1) : told[draw(told.length)];
  const words = lines[at].split(' '), w = draw(words.length);
  const how = draw(9);
  if (how < 4) words[w] = otherWord(words[w], words[0] === 'tree' && w > 0);
  else if (how < 6 && words.length > 2) {
    const [u, v] = [1 + draw(words.length - 1), 1 + draw(words.length - 1)];
    [words[u], words[v]] = [words[v], words[u]];
  } else if (how === 6) words.splice(w, 1);
  else if (how === 7) words[w] += '0';
  else if (how === 8 && draw(2)) { lines.splice(at, 1, ...(draw(2) ? [] : [lines[at], lines[at]])); return lines.join('\n'); }
  lines[at] = words.join(' ');
  return lines.join('\n');
}

/** Of a short tree, the texts in which one mark, or one owner, is another. */
function allNear(text) {
  const tree = /^tree (.*)$/m.exec(text)?.[1];
  if (!tree || tree.length > SHORT) return [];
  const owners = /^owners (.*)$/m.exec(text)[1].split(' '), players = Number(/^players (\d+)$/m.exec(text)[1]);
  const marks = [...tree].flatMap((mark, i) => [...'+-='].filter((other) => other !== mark).map((other) => text.replace(/^tree .*$/m, `tree ${tree.slice(0, i)}${other}${tree.slice(i + 1)}`)));
  return [...marks, ...owners.flatMap((owner, i) => list(players, (p) => text.replace(/^owners .*$/m, `owners ${owners.map((o, at) => (at === i ? p + 1 : o)).join(' ')}`)))];
}

const tally = {};
let differ = 0;
/** Whether both say the same. A forged head may be an estate's: the command refuses that line, and the page's checker, which reads estates too, a line or more below. */
function agree(text, theirs, ours) {
  return theirs === ours || (text.startsWith('fairsplit 2\n') && theirs === 'refused: line 1' && ours.startsWith('refused: line '));
}
async function compare(kind, text) {
  const theirs = (await run(['check'], text)).trim();
  const ours = lineOf(judge(text));
  const key = `${kind} ${theirs.replace(/line .*/, 'line')}`;
  tally[key] = (tally[key] ?? 0) + 1;
  if (!agree(text, theirs, ours) && ++differ < 6) console.log(`checkers: ${theirs} and here ${ours}:\n${text}`);
}

/** What the page works out from a certificate, as texts in the order of a report. */
const WORKED_OUT = {
  rent(said) { const { pays, gain, room } = rentShares(said); return { pays, utility: room.map((at, m) => exact(gain(m, at))) }; },
  goods(said) { return { points: goodsShares(said).points }; },
  fares(said) { const { pays, alone } = fareShares(said); return { pays, alone, fare: said.fares.map(exact) }; },
};

/** Compares what follows from a certificate with the report of the same case, and with the program's adjusted winner. */
async function compareReport(kind, input, text) {
  const [report, winner] = [await run(['report', '1'], input), kind === 'goods' ? await run(['winner'], input) : ''];
  const { said } = judge(text);
  const mine = Object.entries(WORKED_OUT[kind](said)).map(([word, list]) => [word, list.map(String)]);
  const theirs = mine.map(([word]) => [word, report.split('\n').filter((line) => /^\d+ /.test(line)).map((line) => new RegExp(`, ${word} (-?[\\d/]+)`).exec(line)[1])]);
  if (winner.startsWith('fairsplit pair')) {
    const { shares, total } = adjustedWinner(said.values);
    mine.push([...shares.map(exact), exact(total)]);
    theirs.push([.../^shares (.*)$/m.exec(winner)[1].split(' '), /^total (.*)$/m.exec(winner)[1]]);
  }
  if (JSON.stringify(mine) !== JSON.stringify(theirs) && ++differ < 6) console.log(`checkers: ${JSON.stringify(theirs)} and here ${JSON.stringify(mine)}:\n${text}`);
}

const certificates = readdirSync(EXAMPLES).filter((name) => name.endsWith('.txt') && !/\.(report|winner|weigh)\.txt$/.test(name)).map((name) => readFileSync(join(EXAMPLES, name), 'utf8')).filter((text) => text.startsWith('fairsplit 1'));
for (let i = -3; i < count; i++) {
  const kind = Object.keys(DRAWN)[(i + 3) % 3];
  const input = JSON.stringify({ kind, title: 'x', ...(i < 0 ? GREATEST : DRAWN)[kind]() });
  const text = await run(['solve', '1'], input);
  if (!text.startsWith('fairsplit 1') && i < 0 && ++differ) console.log(`checkers: the greatest case of ${kind} gives ${text}`);
  if (!text.startsWith('fairsplit 1')) continue;
  certificates.push(text);
  await compareReport(kind, input, text);
}
const tries = certificates.flatMap((text) => [text, ...allNear(text), ...list(FORGED, () => forge(text)), forge(forge(text))].map((tried) => [/^kind (\w+)$/m.exec(text)[1], tried]));
for (let i = 0; i < tries.length; i += AT_ONCE) await Promise.all(tries.slice(i, i + AT_ONCE).map(([kind, text]) => compare(kind, text)));
const rules = { rent: 7, goods: 6, fares: 5 };
const unseen = Object.entries(rules).flatMap(([kind, most]) => list(most, (i) => `${kind} no ${i + 1}`)).filter((key) => !tally[key]);
console.log(`checkers: ${tries.length} texts, ${differ} verdicts differ${unseen.length ? `; no text broke first ${unseen.join(', ')}` : ''}`);
process.exit(differ || unseen.length ? 1 : 0);

// Rung (b): certificates of the second kind. The module for estates divides drawn cases, and its judge and the page's own checker say the same of each certificate,
// and of each that was changed.
//
// estates.mjs SECONDS
import { readFileSync } from 'node:fs';
import { dirname, join } from 'node:path';
import { fileURLToPath } from 'node:url';

const PAGE = join(dirname(fileURLToPath(import.meta.url)), '../../page');
const { judging, lineOf } = await import(`${PAGE}/js/check.js`);
const { loadEstates } = await import(`${PAGE}/judge/estates.js`);
const estates = await loadEstates(async (name) => readFileSync(join(PAGE, 'judge', name)));
const STEPS = 3000;
const END = performance.now() + Number(process.argv[2] ?? 5) * 1000;
const LEAST = 40; // texts, however slow the machine is

let state = 7;
const next = (below) => { state = (state * 1_103_515_245 + 12_345) % 2_147_483_648; return Math.floor(state / 65_536) % below; };
const one = (list) => list[next(list.length)];

/** Points over so many items, in steps. */
function spread(goods, step) {
  const cuts = Array.from({ length: goods - 1 }, () => next(1000 / step + 1) * step).sort((a, b) => a - b);
  return [...cuts, 1000].map((cut, i) => cut - (cuts[i - 1] ?? 0));
}

/** A case: any points, people who bid the same, or nearly even points. */
function drawn() {
  const [people, goods, step] = [1 + next(12), 1 + next(24), one([1, 10, 50, 100])];
  const rows = Array.from({ length: people }, () => spread(goods, step));
  const even = () => { const row = Array(goods).fill(Math.floor(1000 / goods)); row[next(goods)] += 1000 % goods; return row; };
  return one([rows, rows, rows, rows.map(() => one(rows)), rows.map(even)]);
}

/** A certificate, and others that differ from it in a byte, a mark, an owner or a weight. */
function* texts(text, people) {
  yield text;
  for (let i = 0; i < 4; i++) { const at = next(text.length); yield text.slice(0, at) + one([...'0123456789+-=!~AB \n']) + text.slice(at + next(2)); }
  const marked = (tree) => { const at = next(tree.length - 5) + 5; return tree.slice(0, at) + one([...'-+=!~AB']) + tree.slice(at + 1); };
  for (let i = 0; i < 4; i++) yield text.replace(/^tree .*$/m, marked);
  yield text.replace(/^owners .*$/m, (line) => { const words = line.split(' '); words[1 + next(words.length - 1)] = 1 + next(people); return words.join(' '); });
  yield text.replace(/^(weights|prices) (\d+)/m, (_, word, number) => `${word} ${next(3) ? Math.abs(Number(number) + next(40) - 20) : 0}`);
  yield text.replace(/^short.*$/m, 'short 1');
}

/** What the page's own checker says. */
function checked(text) {
  const steps = judging(text);
  for (;;) { const { done, value } = steps.next(); if (done) return lineOf(value); }
}

const told = { texts: 0, yes: 0, no: 0, differ: 0 };
while (performance.now() < END || told.texts < LEAST) {
  const values = drawn();
  const { status, text } = await estates.divide(STEPS, values.map((_, i) => i + 1), values);
  if (status !== 0) continue;
  for (const changed of texts(text, values.length)) {
    const [proved, own] = [(await estates.check(changed)).line, checked(changed)];
    told.texts++;
    if (proved === 'yes') told.yes++;
    if (proved.startsWith('no')) told.no++;
    if (proved !== own) { told.differ++; console.log(`estates: the judge says ${proved} and the script ${own}\n${changed.slice(0, 2000)}`); }
  }
}
console.log(`estates: ${told.texts} texts, ${told.yes} yes, ${told.no} no, ${told.differ} verdicts differ`);
process.exit(told.differ > 0 || told.yes === 0 || told.no === 0 ? 1 : 0);

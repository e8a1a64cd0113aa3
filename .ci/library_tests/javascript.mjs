// javascript.mjs FOLDER EXAMPLES: what the loaders of a folder do with rows that could slide, with typed arrays and with what is no text, and what read.js
// makes of each certificate of EXAMPLES.
import assert from 'node:assert/strict';
import { readFileSync, readdirSync } from 'node:fs';
import { join } from 'node:path';
import { pathToFileURL } from 'node:url';

const [folder, examples] = process.argv.slice(2);
const from = (name) => import(pathToFileURL(join(folder, name)));
const [{ loadJudge }, { loadSolver }, { read, divisionIn }] = await Promise.all([from('judge.js'), from('solver.js'), from('read.js')]);
const fileOf = async (name) => readFileSync(join(folder, name));
const [judge, solver] = await Promise.all([loadJudge(fileOf), loadSolver(fileOf)]);
const textOf = (name) => readFileSync(join(examples, name), 'utf8');

const FLAT = [[600, 300], [500, 400]];
const WRONG = [
  [RangeError, 'row 2 has 1 numbers, and row 1 has 3', () => solver.rent(900, [[600, 300, 500], [400]])],
  [RangeError, 'row 2 has 3 numbers, and row 1 has 2', () => solver.goods(1000, [1, 2], [[600, 400], [500, 300, 200]])],
  [RangeError, 'row 2 has 4 numbers, and row 1 has 2', () => solver.goods(1000, [1, 2, 3], [[600, 400], [500, 500, 1000, 0], []])],
  [RangeError, 'row 2 has 1 numbers, and row 1 has 2', () => solver.fares(300, [[1000, 1500], [0], [700, 900, 0]], [1, 2], [1, 2])],
  // eslint-disable-next-line no-sparse-arrays
  [RangeError, 'row 1, number 2: undefined is no whole number', () => solver.rent(900, [[600, , 300], [500, 400]])],
  [RangeError, 'row 2, number 1: -1 is no whole number from 0 to 4294967295', () => solver.rentCents(900, [[600, 300], [-1, 901]])],
  [RangeError, 'row 1, number 1: NaN', () => solver.rent(900, [[NaN, 300], [500, 400]])],
  [RangeError, 'the rent: 900.5', () => solver.rent(900.5, FLAT)],
  [RangeError, 'the rent: 900 is no', () => solver.rent('900', FLAT)],
  [RangeError, 'the members, number 2: 300 is no whole number from 0 to 255', () => solver.goods(100, [1, 300], FLAT)],
  [RangeError, 'the places, number 1: 0.5', () => solver.faresCents(300, [[1000, 1500], [0, 700], [900, 0]], [1, 2], [0.5, 2])],
  [TypeError, 'row 2: this is no array', () => solver.rent(900, [[600, 300], null])],
  [TypeError, 'row 1: this is no array', () => solver.rent(900, ['ab', 'cd'])],
  [TypeError, 'row 1: this is no array', () => solver.rent(900, [new Set([600, 300]), new Set([500, 400])])],
  [TypeError, 'the rows: this is no array', () => solver.rent(900)],
  [TypeError, 'a text is', () => judge.check(42)],
  [TypeError, 'a text is', () => judge.checkWinner()],
  [RangeError, '1 names for 2 members', async () => divisionIn((await solver.rent(900, FLAT)).text, { members: ['Ann'] })],
  [RangeError, 'goods names nothing', async () => divisionIn((await solver.rent(900, FLAT)).text, { goods: ['x', 'y'] })],
  [RangeError, '2 names, and the text has a member 3', () => divisionIn(textOf('three-heirs.txt'), { members: ['Ada', 'Bo'] })],
];
for (const [type, said, call] of WRONG) {
  await assert.rejects(async () => call(), (error) => error.constructor === type && error.message.includes(said), said);
}

// Typed arrays are rows, and bytes are texts.
const due = await solver.rent(900, FLAT);
assert.deepEqual(await solver.rent(900, FLAT.map((row) => new Uint32Array(row))), due);
assert.deepEqual(await solver.rent(900, FLAT.map((row) => new Float64Array(row))), due);
const bytes = new TextEncoder().encode(due.text);
for (const text of [due.text, bytes, bytes.buffer, Buffer.from(bytes)]) assert.deepEqual(await judge.check(text), { status: 0, line: 'yes' });

// What was divided is read, with names and without them.
const names = { members: ['Ann', 'Ben'], rooms: ['Attic', 'Back'] };
const { division } = await read(judge, due.text, names);
assert.deepEqual(division.shares.map(({ member, room, price }) => [member, room, price]),
  [['Ann', 'Attic', { numerator: 550, denominator: 1 }], ['Ben', 'Back', { numerator: 350, denominator: 1 }]]);
assert.deepEqual(await solver.rentCents(division.total, division.values), { status: 0, pays: [550, 350] });
assert.deepEqual(await read(judge, due.text.replace('prices 550', 'prices 551')), { status: 1, line: 'no 7' });
assert.deepEqual(await read(judge, 'hello'), { status: 3, line: 'refused: line 1' });

/** A fraction as a text has it. */
function said({ numerator, denominator }) {
  return denominator === 1 ? `${numerator}` : `${numerator}/${denominator}`;
}

/** What a report says of each share of a division. */
const LINES = {
  rent: ({ room, price, utility }) => [`room ${room} `, `price ${said(price)}, `, `utility ${said(utility)}`],
  goods: ({ goods, points }) => [`goods ${goods.join(' ') || 'none'}, points ${points}`],
  fares: ({ place, fare, alone }) => [`place ${place} `, `fare ${said(fare)}, `, `alone ${alone}`],
};
let tried = 0;
for (const name of readdirSync(examples).filter((each) => each.endsWith('.report.txt'))) {
  const text = textOf(name.replace('.report', ''));
  if (text.startsWith('step limit ')) continue;
  const found = (await read(judge, text)).division;
  const report = textOf(name).split('\n');
  found.shares.forEach((share) => {
    const line = report.find((each) => each.startsWith(`${share.member} `));
    LINES[found.kind](share).forEach((part) => assert.ok(line.includes(part), `${name}: ${line} has no ${part}`));
  });
  if (found.kind === 'fares') assert.ok(report.includes(`total ${found.total}, route ${found.route.join(' ')}`), name);
  tried += 1;
}
const pair = (await read(judge, textOf('attic-for-two.winner.txt'))).division;
assert.deepEqual(pair.shares.map(({ parts }) => parts.map(said)), [['10/11', '0'], ['1/11', '1']]);
const estate = (await read(judge, textOf('estate-for-four.estate.txt'))).division;
assert.deepEqual([estate.kind, estate.steps, estate.shares[0]], ['goods', 21, { member: 1, goods: [1, 3, 11, 13], points: 380 }]);
console.log(`library: ${WRONG.length} wrong calls of JavaScript are refused with their place, and ${tried} certificates are read as their reports say`);

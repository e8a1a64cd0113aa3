// by_judge.mjs FOLDER ROWS.json: what the judges of a folder answer beside what the program answered, and how long the longest text takes.
// Node 20 and 22 run the module with a 64-bit memory only with --experimental-wasm-memory64.
import { readFileSync } from 'node:fs';
import { join } from 'node:path';
import { pathToFileURL } from 'node:url';

const [folder, rowsName] = process.argv.slice(2);
const { loadJudge } = await import(pathToFileURL(join(folder, 'judge.js')));
const judges = { check: 'check', checkwinner: 'checkWinner' };
const rows = JSON.parse(readFileSync(rowsName)).filter(([command]) => judges[command]);
const judge = await loadJudge(async (name) => readFileSync(join(folder, name)));
let differ = 0;
let longest = new Uint8Array(0);
for (const [command, given, status, text] of rows) {
  const bytes = new Uint8Array(Buffer.from(given, 'base64'));
  const due = Buffer.from(text, 'base64').toString().trimEnd();
  const found = await judge[judges[command]](bytes);
  if (bytes.length > longest.length && status === 0) longest = bytes;
  if (found.status === status && found.line === due) continue;
  differ += 1;
  if (differ < 6) console.log(`library: ${command}: ${due} with ${status} by the program, ${found.line} with ${found.status} by the module`);
}
const begun = performance.now();
await judge.check(longest);
const took = (performance.now() - begun).toFixed(0);
console.log(`library: ${judge.isLowered ? 'the lowered module' : 'the proved module'} on ${rows.length} texts: ${differ} verdicts differ; ${longest.length} bytes took ${took} ms`);
process.exit(differ || !rows.length ? 1 : 0);

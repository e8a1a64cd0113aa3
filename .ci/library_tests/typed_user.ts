// A user's file for tsc, which has to find each wrong call below: an expected error that is none is an error itself.
import { divisionIn, loadEstates, loadJudge, loadSolver, read, startWorker } from 'fairsplit';

const solver = await loadSolver();
const { status, text }: { status: number; text: string } = await solver.rent(900, [new Uint32Array([600, 300]), [500, 400]]);
const { pays } = await solver.rentCents(900, [[600, 300], [500, 400]]);
const cents: number | undefined = pays?.[0];
const { division } = await read(await loadJudge('https://split.example/judge/'), text, { members: ['Ann', 'Ben'] });
if (division?.kind === 'rent') {
  const price: number = division.shares[0].price.numerator;
  console.log(status, cents, price);
}
const estates = await loadEstates();
const { text: estate, owners }: { text: string; owners?: number[] } = await estates.divide(1000, [1], [[1000]], { progress: ({ steps }) => console.log(steps) });
const worker = startWorker();
for (const judges of [await loadJudge(), estates, worker]) {
  const { division: found } = await read(judges, estate);
  if (found?.kind === 'goods') console.log(owners, found.shares[0].points);
}
await worker.goods(1000, [1], [[1000]], { signal: new AbortController().signal });
worker.end();

// @ts-expect-error: rows are numbers
await solver.rent(900, [['600', '300']]);
// @ts-expect-error: a solver is no judge
await read(solver, text);
// @ts-expect-error: a text is no number
divisionIn(5);
export {};

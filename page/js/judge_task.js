// The two checks of a certificate, one after the other: by the proved judge, which takes a moment, and then by the
// page's own checker, which takes seconds for a long tree.
import { isEstate, judging, lineOf } from './check.js';
import { loadEstates } from '../judge/estates.js';
import { loadJudge } from '../judge/judge.js';

/** What the proved judge says. Where it can't run, nothing. */
async function provedVerdict(certificate, module) {
  try {
    const judge = await (isEstate(certificate) ? loadEstates : loadJudge)(async () => module);
    const { line } = await judge.check(certificate);
    return { proved: line, isLowered: judge.isLowered };
  } catch { return {}; }
}

/** What comes out, in this order: { proved, isLowered }, or {} where the proved judge can't run; { branches } now and
    then; and { second }, what the page's own checker found, with its verdict as a line. `module` may be null. */
export async function* judgeTask({ certificate, module }, pause = async () => {}) {
  yield module ? await provedVerdict(certificate, module) : {};
  const steps = judging(certificate);
  for (;;) {
    const { done, value } = steps.next();
    if (done) {
      const { said, ...found } = value;
      yield { second: { ...found, says: lineOf(value) } };
      return;
    }
    yield { branches: value };
    await pause();
  }
}

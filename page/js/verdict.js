// What the two checks of a certificate say together. Pure.
import { read } from './check.js';

/** The verdict that a line of `fairsplit check` means. */
function meaningOf(says) {
  const [, rule, line] = /^(?:yes|no (\d+)|refused: (?:line )?(.+))$/.exec(says) ?? [null, undefined, says];
  if (rule) return { verdict: 'no', rule: Number(rule) };
  return line ? { verdict: 'refused', line } : { verdict: 'yes' };
}

/** What the lines of a certificate say, which are read once, when they are asked for; null where the page can't. */
export function linesOf(certificate) {
  let said;
  return () => {
    if (said === undefined) try { said = read(certificate); } catch { said = null; }
    return said;
  };
}

/** The verdict, of what has come of both checks, and of the lines of the certificate: { verdict, rule, line, by,
    isLowered, second, said }. The proved judge decides, and no verdict stands where the script says otherwise; `by`
    says who has judged: proved, script or both. */
export function together(lines, { proved, isLowered, second, isOver }) {
  const says = proved ?? second?.says;
  if (says === undefined) return { verdict: 'none', by: 'none' };
  if (proved && second && proved !== second.says) return { verdict: 'differ', by: 'both', proved, script: second.says };
  const meaning = meaningOf(says);
  const said = meaning.verdict === 'refused' ? null : lines();
  if (!said && meaning.verdict === 'yes') return { verdict: 'differ', by: 'both', proved, script: '?' };
  return { ...meaning, said, isLowered, isOver, second, by: proved && second ? 'both' : proved ? 'proved' : 'script' };
}

"""Parts of rung (c): that the proved modules run in each engine under the shipped policy, as the kit makes them and as they are lowered to a 32-bit memory,
and answer what the program answers."""
import importlib.util
import json
import os
import random

from tally import TOP, check, program, same

SEED = 11
FEW, MANY = 10, 500
# Of each case what the solver writes, and of each text what the judge says, by the module of arguments[1] bits; null while it runs.
ASK = '''const [cases, bits] = arguments;
window.answers = null;
(async () => {
  const { called } = await import("./judge/modules.js");
  const { numbersOf } = await import("./js/solver.js");
  const { loadSolver } = await import("./judge/solver.js");
  const validate = WebAssembly.validate;
  if (bits === "32") WebAssembly.validate = () => false; // as an engine without 64-bit memories says
  const fileOf = async (name) => new Uint8Array(await (await fetch(`judge/${name}`)).arrayBuffer());
  const { loadJudge } = await import("./judge/judge.js");
  const [solver, judge] = [await loadSolver(fileOf), await loadJudge(fileOf)];
  const found = [];
  for (const made of cases) {
    const { status, text } = await solver[made.kind](...numbersOf(made));
    found.push([status, text, status === 0 ? (await judge.check(text)).line : ""]);
  }
  const { line } = await judge.check("fairsplit 1\\nkind rent\\n");
  window.answers = { found, refused: line, isLowered: [solver.isLowered, judge.isLowered] };
  WebAssembly.validate = validate;
})().catch((fault) => { window.answers = { fault: String(fault) }; })'''
HAS_64 = 'const [bytes] = arguments; return WebAssembly.validate(new Uint8Array(bytes))'
WITH_64_BITS = [0, 97, 115, 109, 1, 0, 0, 0, 5, 3, 1, 4, 1]


def rows():
    """How the library's test draws its cases."""
    place = os.path.join(TOP, '.ci/library_tests/rows.py')
    module = importlib.util.module_from_spec(importlib.util.spec_from_file_location('rows', place))
    module.__spec__.loader.exec_module(module)
    return module


def drawn(count):
    """So many cases of each kind."""
    draw, made = random.Random(SEED), rows()
    return [{'limit': 200000, **case(draw)} if case is made.goods else case(draw) for case in (made.rent, made.goods, made.fares) for _ in range(count)]


def compared(p, rig, count):
    """What the modules say in this engine beside what the program writes."""
    cases = drawn(count)
    wanted = [program('solve 1', json.dumps(case)) for case in cases]
    p.open(rig.url)
    has_64 = p.run(HAS_64, WITH_64_BITS)
    for bits in ('64', '32') if has_64 else ('32',):
        p.open(rig.url + '#new-rent')  # one page makes the policy of its workers once, and the form has no worker of its own
        p.one('#title')
        p.run(ASK, cases, bits)
        answers = p.until(lambda: p.run('return window.answers'), 300, f'the modules with {bits} bits do not answer')
        check(f'the modules with {bits} bits run under the policy', 'fault' not in answers, answers)
        if 'fault' in answers:
            continue
        same(f'they are lowered, {bits}', answers['isLowered'], [bits == '32'] * 2)
        same(f'certificates with {bits} bits that differ', [i for i, (found, text) in enumerate(zip(answers['found'], wanted)) if found[0] == 0 and found[1] != text], [])
        same(f'verdicts with {bits} bits that are no yes', [line for status, _, line in answers['found'] if status == 0 and line != 'yes'], [])
        check(f'most cases have an answer with {bits} bits', sum(found[0] == 0 for found in answers['found']) > 2 * count)
        check('what is no certificate is refused', answers['refused'].startswith('refused'), answers['refused'])
    return has_64


def modules(rig, olive, ann, ben):
    """A few drawn cases of each kind. Chromium and Firefox run the modules as the kit made them, WebKit lowered ones."""
    same('a 64-bit memory', compared(ann, rig, FEW), rig.engine.name != 'WebKit')
    same('the browser complains of nothing', ann.complaints(), [])


def many_modules(rig, olive, ann, ben):
    """The same with many cases; not in the gate."""
    compared(ann, rig, MANY)

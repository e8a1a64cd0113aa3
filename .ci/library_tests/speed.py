#!/usr/bin/env python3
"""Times a thousand rents, by hand: by the installed package in one thread and in four, by the program started for each, and by HiGHS if SciPy is there;
and 200 searches by the package, which is where threads help.

    speed.py PROGRAM [COUNT]

All have to find the same: package and program the same certificates, and HiGHS, as .ci/peers calls it, the same least utilities.
"""
import importlib.machinery
import importlib.util
import json
import os
import random
import subprocess
import sys
import time
from concurrent.futures import ThreadPoolExecutor

import fairsplit

PEERS = os.path.join(os.path.dirname(os.path.abspath(__file__)), '../peers')
SEED = 3
SEARCHES = 200
MOST_STEPS = 200_000


def peers():
    """The script .ci/peers."""
    sys.dont_write_bytecode = True
    loader = importlib.machinery.SourceFileLoader('peers', PEERS)
    module = importlib.util.module_from_spec(importlib.util.spec_from_loader('peers', loader))
    loader.exec_module(module)
    return module


def flat(draw, rent, spread):
    """A rent of two to eight rooms."""
    names = [str(number + 1) for number in range(draw.randint(2, 8))]
    bids = [spread(draw, rent, len(names)) for _ in names]
    return {'kind': 'rent', 'title': 'x', 'members': names, 'rooms': names, 'rent': rent, 'bids': bids}


def searched(bids):
    """How many steps the package takes to divide goods, or that it would take more than it may."""
    try:
        return fairsplit.goods(bids, limit=MOST_STEPS).steps
    except fairsplit.OverLimit:
        return f'more than {MOST_STEPS}'


def started(program, case):
    """The certificate that the program writes, started for this case."""
    return subprocess.run([program, 'solve', '1'], input=json.dumps(case).encode(), stdout=subprocess.PIPE, check=True).stdout.decode()


def processor_seconds():
    """The processor time of this process and of the programs that it started."""
    return sum(os.times()[:4])


def timed(name, solve, cases, threads=1):
    """What is found for each case. Writes how long it took, and how much processor time."""
    begun, used = time.perf_counter(), processor_seconds()
    with ThreadPoolExecutor(threads) as pool:
        found = list(pool.map(solve, cases))
    took, used = time.perf_counter() - begun, processor_seconds() - used
    print(f'{name}, {threads} at once: {len(cases)} cases in {took:.2f} s, {used:.2f} s of a processor')
    return found


def main(program, count=1000):
    other = peers()
    draw = random.Random(SEED)
    cases = [flat(draw, other.RENT, other.spread) for _ in range(int(count))]
    found = {}
    for threads in (1, 4):
        found[threads] = timed('names in, division out', lambda case: fairsplit.rent(case['rent'], case['bids']), cases, threads)
        found[threads, 'numbers'] = timed('numbers in, certificate out', lambda case: fairsplit.numbers.rent(case['rent'], case['bids'])[1], cases, threads)
        found[threads, 'program'] = timed('the program', lambda case: started(program, case), cases, threads)
    texts = [[division if isinstance(division, str) else division.text for division in divisions] for divisions in found.values()]
    wrong = sum(any(text != same[0] for text in same) for same in zip(*texts))
    print(f'{wrong} certificates differ')
    estates = [[other.spread(draw, other.POINTS, 12) for _ in range(5)] for _ in range(SEARCHES)]
    wrong += timed('long searches', searched, estates) != timed('long searches', searched, estates, 4)
    try:
        import scipy.optimize  # noqa: F401
    except ImportError:
        print('no SciPy, so no HiGHS')
        return wrong
    least = timed('HiGHS', lambda case: other.solve_rent(case)[0], cases)
    apart = sum(abs(float(division.least_utility) - utility) > other.NEAR for division, utility in zip(found[1], least))
    print(f'{apart} least utilities differ from those of HiGHS')
    return wrong + apart


if __name__ == '__main__':
    sys.exit(bool(main(*sys.argv[1:])))

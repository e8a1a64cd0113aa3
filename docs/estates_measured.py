#!/usr/bin/env python3
"""Measures the solver of estates on the drawn estates of goods_answered.py: how many it divides within 20,000 steps, how many steps that takes, and how
long the certificates are. It uses the Python package and the library that include/build makes.

estates_measured.py            writes the table of SEARCH.md, and then a row for each way of drawing points; some minutes
estates_measured.py SEED       the same with other draws

The steps of a case don't depend on the machine, so each run with the same seed writes the same, except for the times.
"""
import os
import random
import statistics
import sys
import time
from concurrent.futures import ProcessPoolExecutor

HERE = os.path.dirname(os.path.abspath(__file__))
sys.path[:0] = [HERE, os.path.join(HERE, '../python')]
from fairsplit import numbers  # noqa: E402
from goods_answered import DRAWS, estate  # noqa: E402

PEOPLE = [2, 3, 4, 5, 6, 8, 10, 12]
GOODS = [4, 6, 8, 10, 12, 14, 16, 20, 24]
SHOWN_GOODS = [4, 8, 12, 16, 20, 24]
STEPS_OF_POINTS = [1, 10, 50, 100]
LIMIT = 20_000
POINTS = 1000


def stepped(points, step):
    """The points in multiples of a step, what is left over going to the greatest remainders."""
    low = [value // step * step for value in points]
    order = sorted(range(len(points)), key=lambda good: (low[good] - points[good], good))
    for good in order[:(POINTS - sum(low)) // step]:
        low[good] += step
    return low


def measured(cell):
    """For each draw of a cell: the steps, the bytes of the certificate and the CPU seconds, or None if the limit of steps was too low."""
    people, goods, step, alike, seed = cell
    rows = []
    for number in range(DRAWS):
        draw = random.Random(f'{people} people, {goods} goods, draw {number}{seed}')
        bids = [stepped(points, step) for points in estate(draw, people, goods, alike)]
        begun = time.process_time()
        status, text, _ = numbers.estate(LIMIT, range(1, people + 1), bids)
        spent = time.process_time() - begun
        rows.append((int(text.split('\nsteps ')[1].split('\n')[0]), len(text), spent) if status == 0 else None)
    return rows


def steps_in(rows):
    """The median and the greatest number of steps."""
    steps = [row[0] for row in rows if row]
    return f'{statistics.median_low(steps)}, {max(steps)}' if steps else '-'


def table(found):
    """The table of SEARCH.md: any points, each person's own, and half shared."""
    print('| people | ' + ' | '.join(f'{goods} items' for goods in SHOWN_GOODS) + ' |\n' + '|---' * (len(SHOWN_GOODS) + 1) + '|')
    for people in PEOPLE:
        cells = [f'{steps_in(found[people, goods, 1, False])}; {steps_in(found[people, goods, 1, True])}' for goods in SHOWN_GOODS]
        print(f'| {people} | ' + ' | '.join(cells) + ' |')


def summary(found, step, alike):
    """A row of figures for one way of drawing points."""
    rows = [row for (_, _, other, shared), rows in found.items() if (other, shared) == (step, alike) for row in rows]
    done = [row for row in rows if row]
    steps, sizes, times = zip(*done)
    print(f'multiples of {step}, {"half shared" if alike else "independent"}: {len(done)} of {len(rows)}; steps {statistics.median_low(steps)}, {max(steps)}; '
          f'bytes {statistics.median_low(sizes)}, {max(sizes)}, {sum(size < 20_000 for size in sizes)} below 20,000; '
          f'CPU ms {1000 * statistics.mean(times):.1f}, {1000 * max(times):.0f}')


def main():
    seed = f', {sys.argv[1]}' if len(sys.argv) > 1 else ''
    cells = [(people, goods, step, alike) for people in PEOPLE for goods in GOODS for step in STEPS_OF_POINTS for alike in (False, True)]
    with ProcessPoolExecutor() as pool:
        found = dict(zip(cells, pool.map(measured, [(*cell, seed) for cell in cells])))
    table(found)
    for step in STEPS_OF_POINTS:
        for alike in (False, True):
            summary(found, step, alike)
    ends = [row[2] for people in PEOPLE for step in STEPS_OF_POINTS for alike in (False, True) for row in found[people, 24, step, alike] if row]
    print(f'24 items: CPU ms {1000 * statistics.median(ends):.1f}, {1000 * max(ends):.0f}')


if __name__ == '__main__':
    main()

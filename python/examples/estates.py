#!/usr/bin/env python3
"""A thousand estates: draws them, divides each in one of four threads, and shows who would rather have another's share, and how long it took.

    estates.py [COUNT] [THREADS] [SEED]

A call lets go of the interpreter's lock, so the threads run side by side. The picture needs matplotlib, and is left out without it.
"""
import random
import statistics
import sys
import time
from concurrent.futures import ThreadPoolExecutor

import fairsplit


# %% Draw the estates
def estate(choice, number):
    """The bids of two to five heirs for three to nine goods."""
    return fairsplit.draw.goods(choice.randint(2, 5), choice.randint(3, 9), seed=number)


# %% Divide one, and measure it
def divided(bids):
    """The most that an heir would gain from another's share, the share that is worth least to its heir, and the milliseconds that it took."""
    begun = time.perf_counter()
    division = fairsplit.goods(bids)
    took = 1000 * (time.perf_counter() - begun)
    envy = max(max(row) for row in division.envy)
    return max(envy, 0), min(share.points for share in division.shares), took


# %% Divide them all
def main(count=1000, threads=4, seed=7):
    choice = random.Random(seed)
    estates = [estate(choice, f'{seed}, estate {number}') for number in range(count)]
    begun = time.perf_counter()
    with ThreadPoolExecutor(threads) as pool:
        rows = list(pool.map(divided, estates))
    seconds = time.perf_counter() - begun
    envies, least, times = zip(*rows)
    print(f'{count} estates in {seconds:.2f} s by {threads} threads')
    print(f'without envy: {sum(envy == 0 for envy in envies)}; greatest envy: {max(envies)} points')
    print(f'least points of an heir: {min(least)}; milliseconds an estate: {statistics.median(times):.2f} in the middle, {max(times):.1f} at most')
    picture(envies, times)


# %% Show them
def picture(envies, times):
    """Writes estates.png, where matplotlib is installed."""
    try:
        import matplotlib
    except ImportError:
        print('no picture: matplotlib is not installed')
        return
    matplotlib.use('Agg')
    from matplotlib import pyplot
    _, (left, right) = pyplot.subplots(1, 2, figsize=(9, 3.5))
    left.hist(envies, bins=30)
    left.set(xlabel='greatest envy, points', ylabel='estates')
    least, most = min(times), max(times)
    right.hist(times, bins=[least * (most / least) ** (part / 30) for part in range(31)])
    right.set(xlabel='milliseconds an estate', xscale='log')
    pyplot.tight_layout()
    pyplot.savefig('estates.png', dpi=120)
    print('estates.png')


if __name__ == '__main__':
    main(*map(int, sys.argv[1:]))

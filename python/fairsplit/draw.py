"""Draws cases at random, always the same ones for the same seed: rents, goods and fares to try rules on.

Each draw gives plain lists, which `fairsplit.rent`, `goods` and `fares` take.

Tastes of bidders are drawn in one of these ways:

- `uniform`: each way to cut the total is as likely as any other, and no item is more popular than another
- `shared=0.5`: that part of the total is cut once for everybody, and the rest for each bidder, so that they want much the same
- `alpha=0.3`: shares of a symmetric Dirichlet distribution, rounded; below 1 a few items get most, above 1 all get about as much
"""
from __future__ import annotations

import random
from fractions import Fraction
from typing import List, Optional, Tuple, Union

from ._limits import WHOLE_POINTS
from ._scaling import greatest_remainders

Seed = Union[int, str]
Rows = List[List[int]]


def _uniform(draw: random.Random, items: int, total: int) -> List[int]:
    """Numbers that add up to the total, each way to cut it as likely as any other."""
    cuts = sorted(draw.randint(0, total) for _ in range(items - 1))
    return [high - low for low, high in zip([0, *cuts], [*cuts, total])]


def _dirichlet(draw: random.Random, items: int, total: int, alpha: float) -> List[int]:
    """Numbers that add up to the total, in the proportions of a symmetric Dirichlet distribution."""
    parts = [Fraction(draw.gammavariate(alpha, 1)) for _ in range(items)]
    whole = sum(parts)
    return greatest_remainders([total * part / whole for part in parts], total) if whole else _uniform(draw, items, total)


def _stepped(numbers: List[int], step: int) -> List[int]:
    """The same numbers in multiples of a step, which divides their sum; what is left over goes to the greatest remainders."""
    return [step * number for number in greatest_remainders([Fraction(number, step) for number in numbers], sum(numbers) // step)]


def _bids(draw: random.Random, members: int, items: int, total: int, *, shared: float = 0, alpha: Optional[float] = None, step: int = 1) -> Rows:
    """A row of numbers for each member, each of which adds up to the total."""
    def cut(part: int) -> List[int]:
        return _uniform(draw, items, part) if alpha is None else _dirichlet(draw, items, part, alpha)

    common = int(total * shared)
    base = cut(common) if common else [0] * items
    rows = [[one + other for one, other in zip(base, cut(total - common))] for _ in range(members)]
    return rows if step == 1 else [_stepped(row, step) for row in rows]


def rent(members: int, *, seed: Seed, total: int = 120_000, shared: float = 0, alpha: Optional[float] = None, step: int = 1) -> Tuple[int, Rows]:
    """Draw a rent.

    Parameters
    ----------
    members : int
        How many members, and rooms, there are.
    seed : int or str
        The same seed gives the same case.
    total : int
        The rent in cents.
    shared, alpha, step
        How tastes are drawn.

    Returns
    -------
    tuple of int and list
        The rent, and for each member what each room is worth to them.

    Examples
    --------
    >>> from fairsplit import draw
    >>> total, bids = draw.rent(3, seed=1)
    >>> [sum(row) for row in bids]
    [120000, 120000, 120000]
    """
    return total, _bids(random.Random(seed), members, members, total, shared=shared, alpha=alpha, step=step)


def goods(members: int, items: int, *, seed: Seed, shared: float = 0, alpha: Optional[float] = None, step: int = 1) -> Rows:
    """Draw the points of goods.

    Parameters
    ----------
    members, items : int
        How many members and goods there are.
    seed : int or str
        The same seed gives the same case.
    shared, alpha, step
        How tastes are drawn.

    Returns
    -------
    list of list of int
        For each member points that add up to 1000.

    Examples
    --------
    >>> from fairsplit import draw
    >>> draw.goods(2, 4, seed=1, step=50)
    [[150, 450, 300, 100], [50, 700, 50, 200]]
    """
    return _bids(random.Random(seed), members, items, WHOLE_POINTS, shared=shared, alpha=alpha, step=step)


def estate(people: int, items: int, number: int, *, alike: bool = False, step: int = 1) -> Rows:
    """Draw an estate of docs/SEARCH.md.

    Parameters
    ----------
    people, items : int
        How many people and items there are: the row and the column of a table there.
    number : int
        Which of the twenty draws of that cell, from 0.
    alike : bool
        Whether everybody shares half of their points: the second table.
    step : int
        1 for the first number of the cell, 50 for the second.

    Returns
    -------
    list of list of int
        For each person points that add up to 1000.

    Examples
    --------
    >>> from fairsplit import draw
    >>> draw.estate(2, 4, 0, step=50)[0]
    [550, 150, 50, 250]
    """
    return goods(people, items, seed=f'{people} people, {items} goods, draw {number}', shared=0.5 if alike else 0, step=step)


def fares(riders: int, places: int, *, seed: Seed, flag: int = 300, size: int = 2000) -> Tuple[int, Rows, List[int]]:
    """Draw the ride of a taxi in a plane, where each leg costs about as much as it is long.

    Parameters
    ----------
    riders, places : int
        How many riders there are, and how many places where they may get off.
    seed : int or str
        The same seed gives the same case.
    flag : int
        What the ride costs before it begins, in cents.
    size : int
        What it costs to cross the square from side to side, in cents.

    Returns
    -------
    tuple of int, list and list
        The flag fall, the legs, and for each rider the number of the place, from 1.

    Examples
    --------
    >>> from fairsplit import draw
    >>> flag, legs, stops = draw.fares(3, 2, seed=1)
    >>> len(legs), len(stops)
    (3, 3)
    """
    draw = random.Random(seed)
    points = [(draw.randint(0, size), draw.randint(0, size)) for _ in range(places + 1)]
    legs = [[round(((x - across) ** 2 + (y - up) ** 2) ** 0.5) for across, up in points[1:]] for x, y in points]
    return flag, legs, [draw.randint(1, places) for _ in range(riders)]

"""Divisions from numbers, without JSON and without an allocator: for those who have no names and want no report.

    rent(900, [[800, 100, 0], [700, 200, 0], [300, 300, 300]])         (0, 'fairsplit 1\\nkind rent\\n...')
    goods(100_000, [1, 2], [[600, 400], [500, 500]])                   limit, the members who have bid, and their points
    estate(20_000, [1, 2], [[600, 400], [500, 500]])                   the same by the search for estates, and the owner of each good
    fares(300, [[1000, 1500], [0, 700], [900, 0]], [1, 2], [1, 2])     flag, legs, the members who ride, and their places
    rent_cents(900, values)                                            (0, [700, 100, 100]): what each member pays
    fares_cents(300, legs, who, at)                                    what each rider pays

With status 0 the text is the case's certificate. Otherwise it is one line, with the status of the command line. Amounts are whole cents. A number that
32 bits can't hold is a ValueError, and so is a row that is longer or shorter than the first. What has names or no order, such as a mapping or a set, is a
TypeError.
"""
from __future__ import annotations

import ctypes
from typing import Iterable, List, Sequence, Tuple, Union

from ._amounts import whole
from ._estates import run_estate
from ._library import Lists, Numbers, run_on_numbers
from ._names import listed

Rows = Sequence[Sequence[int]]
REFUSED = 3


def _held(bits: int, numbers: Iterable[int]) -> List[int]:
    """The numbers, if so many bits can hold each: an array would change one that it can't hold silently."""
    found = [whole(number) for number in listed(numbers, 'list of numbers')]
    most = (1 << bits) - 1
    for number in found:
        if not 0 <= number <= most:
            raise ValueError(f'{number} is not between 0 and {most}')
    return found


def _word(number: int) -> int:
    """A number that 32 bits can hold."""
    return _held(32, [number])[0]


def _words(numbers: Iterable[int]) -> Numbers:
    """Numbers in 32 bits each."""
    found = _held(32, numbers)
    return (ctypes.c_uint32 * len(found))(*found)


def _bytes(numbers: Iterable[int]) -> Numbers:
    """Numbers in 8 bits each."""
    found = _held(8, numbers)
    return (ctypes.c_uint8 * len(found))(*found)


def _table(rows: Rows) -> Tuple[int, int, Numbers]:
    """How many rows there are, the length of each, and the numbers of all of them."""
    found = [listed(row, 'row of numbers') for row in listed(rows, 'list of rows')]
    width = len(found[0]) if found else 0
    for number, row in enumerate(found, 1):
        if len(row) != width:
            raise ValueError(f'row {number} has {len(row)} numbers, and row 1 has {width}')
    return len(found), width, _words([number for row in found for number in row])


def _paid(name: str, numbers: List[int], lists: Lists, count: int) -> Tuple[int, Union[List[int], str]]:
    """What each of so many pays, or the refusal."""
    pays = (ctypes.c_int64 * count)()
    status, text, size = run_on_numbers(name, numbers, [*lists, pays])
    return status, text.decode() if status else list(pays[:size])


def _solved(name: str, numbers: List[int], lists: Lists) -> Tuple[int, str]:
    """A certificate, or why there is none."""
    status, text, _ = run_on_numbers(name, numbers, lists)
    return status, text.decode()


def rent(total: int, values: Rows) -> Tuple[int, str]:
    """Divide a rent.

    Parameters
    ----------
    total : int
        The rent in cents.
    values : list of list of int
        What each member would pay for each room, member by member.

    Returns
    -------
    tuple of int and str
        The status, and the certificate or a line.

    Raises
    ------
    ValueError
        If 32 bits can't hold a number, or rows have different lengths.
    TypeError
        If a number isn't whole, or rows have names or no order.

    Examples
    --------
    >>> from fairsplit import numbers
    >>> status, text = numbers.rent(900, [[600, 300], [500, 400]])
    >>> status, text.splitlines()[6]
    (0, 'rooms 1 2')
    """
    count, _, numbers = _table(values)
    return _solved('rent', [count, _word(total)], [numbers])


def goods(limit: int, who: Sequence[int], values: Rows) -> Tuple[int, str]:
    """Divide goods.

    Parameters
    ----------
    limit : int
        The most steps that the search may take.
    who : list of int
        The numbers of the members who have bid, rising from 1.
    values : list of list of int
        Their points.

    Returns
    -------
    tuple of int and str
        The status, and the certificate or a line.

    Raises
    ------
    ValueError, TypeError
        As for `rent`.

    Examples
    --------
    >>> from fairsplit import numbers
    >>> numbers.goods(10, [1, 2, 3], [[400, 100, 250, 150, 100], [100, 150, 450, 100, 200], [250, 100, 300, 300, 50]])
    (1, 'step limit 10\\n')
    """
    _, width, numbers = _table(values)
    return _solved('goods', [width, _word(limit)], [_bytes(who), numbers])


def estate(limit: int, who: Sequence[int], values: Rows) -> Tuple[int, str, List[int]]:
    """Divide goods by the search for estates.

    Parameters
    ----------
    limit : int
        The most steps that the search may take each time it walks, which is once or twice, from 1 to 1,000,000.
    who, values
        As for `goods`.

    Returns
    -------
    tuple of int, str and list
        The status, the certificate or a line, and for each good the player who gets it, from 1 in the order of `who`. With status 0 that is the best
        division, with 1 the best that was found; with 3 there is none.

    Raises
    ------
    ValueError, TypeError
        As for `rent`.

    Examples
    --------
    >>> from fairsplit import numbers
    >>> status, text, owners = numbers.estate(20_000, [1, 3], [[600, 400], [500, 500]])
    >>> status, text.splitlines()[0], owners
    (0, 'fairsplit 2', [1, 2])
    """
    _, width, numbers = _table(values)
    ended = run_estate(width, _word(limit), _bytes(who), numbers)
    return ended.status, ended.text, [] if ended.status == REFUSED else list(ended.owners)


def _fare(flag: int, legs: Rows, who: Sequence[int], at: Sequence[int]) -> Tuple[List[int], Lists]:
    """The numbers and the lists of a fare."""
    _, width, numbers = _table(legs)
    return [width, _word(flag)], [numbers, _bytes(who), _bytes(at)]


def fares(flag: int, legs: Rows, who: Sequence[int], at: Sequence[int]) -> Tuple[int, str]:
    """Share the fare of a taxi.

    Parameters
    ----------
    flag : int
        What the ride costs before it begins, in cents.
    legs : list of list of int
        A row of legs from the origin, and one from each place.
    who, at : list of int
        The numbers of the members who ride, rising from 1, and the numbers of the places where they get off.

    Returns
    -------
    tuple of int and str
        The status, and the certificate or a line.

    Raises
    ------
    ValueError, TypeError
        As for `rent`.

    Examples
    --------
    >>> from fairsplit import numbers
    >>> status, text = numbers.fares(300, [[1000, 1500], [0, 700], [900, 0]], [1, 2], [1, 2])
    >>> text.splitlines()[-2]
    'fares 750 1250'
    """
    return _solved('fares', *_fare(flag, legs, who, at))


def rent_cents(total: int, values: Rows) -> Tuple[int, Union[List[int], str]]:
    """Tell what each member pays of the rent that `rent` divides.

    Parameters
    ----------
    total, values
        As for `rent`.

    Returns
    -------
    tuple of int and list or str
        The status, and whole cents by member, which add up to the rent; or a line.

    Raises
    ------
    ValueError, TypeError
        As for `rent`.

    Examples
    --------
    >>> from fairsplit import numbers
    >>> numbers.rent_cents(900, [[600, 300], [501, 399]])
    (0, [551, 349])
    """
    count, _, numbers = _table(values)
    return _paid('rent_cents', [count, _word(total)], [numbers], count)


def fares_cents(flag: int, legs: Rows, who: Sequence[int], at: Sequence[int]) -> Tuple[int, Union[List[int], str]]:
    """Tell what each rider pays of the fare that `fares` shares.

    Parameters
    ----------
    flag, legs, who, at
        As for `fares`.

    Returns
    -------
    tuple of int and list or str
        The status, and whole cents by rider, which add up to the cost of the ride; or a line.

    Raises
    ------
    ValueError, TypeError
        As for `rent`.

    Examples
    --------
    >>> from fairsplit import numbers
    >>> numbers.fares_cents(300, [[1000, 1500], [0, 700], [900, 0]], [1, 2], [1, 2])
    (0, [750, 1250])
    """
    numbers, lists = _fare(flag, legs, who, at)
    return _paid('fares_cents', numbers, lists, len(lists[1]))

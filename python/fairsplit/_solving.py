"""Tables in, certificates and whole cents out, by the solvers that take numbers.

They know no names, no rooms apart from the members, and no missing bids. So these are tested here, in the order of the command line. All else is for the
library to refuse: a number that 32 bits can't hold becomes one that no field may have, and rows of another form become none.
"""
from __future__ import annotations

import ctypes
from typing import Any, Hashable, Iterable, List, Optional, Sequence, Tuple

from ._errors import OverLimit, Refused, Void, error_of
from ._estates import Ended, run_estate
from ._library import Lists, Numbers, run_on_numbers
from ._limits import FEWEST_MEMBERS, MOST_MEMBERS, MOST_RIDERS, USUAL_STEPS
from ._tables import Table, bids_of

_MOST_WORD = (1 << 32) - 1
_MOST_BYTE = (1 << 8) - 1
# How far the specified search goes before that for estates takes over: at most a few milliseconds.
FIRST_STEPS = 10_000


def _test_members(count: int, most: int) -> None:
    """Refuses too few members, and too many."""
    if not FEWEST_MEMBERS <= count <= most:
        raise Refused.of_field('members')


def _word(number: int) -> int:
    """The number, or the greatest that 32 bits hold in place of one that they don't: no rent, limit or flag fall may be that."""
    return number if 0 <= number <= _MOST_WORD else _MOST_WORD


def _bytes(numbers: Iterable[int]) -> Numbers:
    """Numbers of members or of places, or the greatest that a byte holds in place of a greater one, which no case has."""
    found = [min(number, _MOST_BYTE) for number in numbers]
    return (ctypes.c_uint8 * len(found))(*found)


def _words(rows: Sequence[Optional[Sequence[int]]], count: int, width: int) -> Numbers:
    """So many rows of this width, one after another; or no number at all, if the rows are others or 32 bits can't hold a number."""
    found = [number for row in rows if row is not None and len(row) == width for number in row]
    if len(rows) != count or len(found) != count * width or any(_word(number) != number for number in found):
        found = []
    return (ctypes.c_uint32 * len(found))(*found)


def _certificate(name: str, numbers: List[int], lists: Lists) -> str:
    """The certificate that a solver writes, or its refusal as an error."""
    status, text, _ = run_on_numbers(name, numbers, lists)
    if status:
        raise error_of(status, text.decode().strip())
    return text.decode()


def _certificate_of_some(name: str, numbers: List[int], lists: Lists, members: Tuple[Hashable, ...], is_void: bool) -> str:
    """The same of goods or a fare. If nobody has bid, the library refuses the bids, and nothing before them."""
    try:
        return _certificate(name, numbers, lists)
    except Refused as refused:
        if is_void and refused.field == 'bids':
            raise Void(members) from None
        raise


def _cents(name: str, numbers: List[int], lists: Lists, count: int) -> Tuple[int, ...]:
    """What each of so many pays, of a case that has been divided."""
    pays = (ctypes.c_int64 * count)()
    status, text, _ = run_on_numbers(f'{name}_cents', numbers, [*lists, pays])
    if status:
        raise error_of(status, text.decode().strip())
    return tuple(pays)


def rent_cents(total: int, rows: Sequence[Sequence[int]]) -> Tuple[int, ...]:
    """What each member pays of a rent that has a certificate, in whole cents."""
    return _cents('rent', [len(rows), total], [_words(rows, len(rows), len(rows))], len(rows))


def fare_cents(flag: int, legs: Sequence[Sequence[int]], who: Sequence[int], at: Sequence[int]) -> Tuple[int, ...]:
    """What each rider pays of a fare that has a certificate, in whole cents."""
    places = len(legs) - 1
    return _cents('fares', [places, flag], [_words(legs, places + 1, places), _bytes(who), _bytes(at)], len(who))


def solve_rent(total: int, table: Table[Any, Any]) -> Tuple[str, Tuple[int, ...]]:
    """The certificate of a rent, and what each member pays in whole cents."""
    count = len(table.members)
    _test_members(count, MOST_MEMBERS)
    if len(table.columns) != count:
        raise Refused.of_field('rooms')
    # Who has not bid stands in with the whole rent for the first room, which breaks no rule: so what is wrong with the other bids is said first.
    all_for_one = [total] + [0] * (count - 1)
    rows = [all_for_one if row is None else row for row in table.rows]
    certificate = _certificate('rent', [count, _word(total)], [_words(rows, count, count)])
    missing = tuple(member for member, row in zip(table.members, table.rows) if row is None)
    if missing:
        raise Void(missing)
    return certificate, rent_cents(total, rows)


def solve_goods(limit: Optional[int], table: Table[Any, Any]) -> str:
    """The certificate of goods."""
    _test_members(len(table.members), MOST_MEMBERS)
    who = [number for number, row in enumerate(table.rows, 1) if row is not None]
    width = len(table.columns)
    numbers = [width, _word(USUAL_STEPS if limit is None else limit)]
    return _certificate_of_some('goods', numbers, [_bytes(who), _words(bids_of(table), len(who), width)], table.members, not who)


def is_soon_solved(table: Table[Any, Any]) -> bool:
    """Whether the specified search answers within a few milliseconds. What it refuses is an error here already."""
    try:
        solve_goods(FIRST_STEPS, table)
    except OverLimit:
        return False
    return True


def solve_estate(steps: int, table: Table[Any, Any]) -> Ended:
    """The end of the search for estates, for goods that the specified search doesn't refuse."""
    who = [number for number, row in enumerate(table.rows, 1) if row is not None]
    width = len(table.columns)
    return run_estate(width, steps, _bytes(who), _words(bids_of(table), len(who), width))


def solve_fares(flag: int, legs: Table[Any, Any], members: Tuple[Hashable, ...], stops: Sequence[Optional[int]]) -> Tuple[str, Tuple[int, ...]]:
    """The certificate of a fare, and what each rider pays in whole cents. `stops` has for each member the place, from 1, where they get off."""
    _test_members(len(members), MOST_RIDERS)
    who = [number for number, stop in enumerate(stops, 1) if stop is not None]
    at = [stop for stop in stops if stop is not None]
    has_stops = len(stops) == len(members)
    # Riders without stops are no bids of anyone.
    riders = [_bytes(who), _bytes(at)] if has_stops else [_bytes([1]), _bytes([])]
    places = len(legs.columns)
    lists = [_words(legs.rows, places + 1, places), *riders]
    certificate = _certificate_of_some('fares', [places, _word(flag)], lists, members, has_stops and not who)
    return certificate, fare_cents(flag, bids_of(legs), who, at)

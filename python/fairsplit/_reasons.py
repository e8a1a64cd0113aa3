"""Says in names and numbers why the library refuses a field. The refusal is the library's; this only looks for what it may have meant."""
from __future__ import annotations

from contextlib import contextmanager
from typing import Any, Callable, Hashable, Iterator, Optional, Sequence

from ._amounts import Money
from ._errors import Refused
from ._limits import FEWEST_MEMBERS, MOST_FARE_CENTS, MOST_GOODS, MOST_MEMBERS, MOST_PLACES, MOST_RENT, MOST_RIDERS, MOST_STEPS, WHOLE_POINTS
from ._names import Names, called
from ._tables import Table

Reason = Optional[str]
TOO_LARGE = 10 ** 15


@contextmanager
def explained(why: Callable[[str], Reason]) -> Iterator[None]:
    """Gives a reason to the refusal of a field."""
    try:
        yield
    except Refused as refused:
        if refused.field is None:
            raise
        raise refused.because(why(refused.field)) from None


def _so_many(count: int, word: str) -> str:
    """A number of things: 1 member, 2 members."""
    return f'{count} {word}' if count == 1 else f'{count} {word}s'


def _said(amount: int, money: Money) -> str:
    """An amount in the caller's unit, unless it is far too large for anything."""
    return str(money.paid(amount)) if abs(amount) < TOO_LARGE else 'a number of more than 15 digits'


def _of_row(name: Hashable, row: Sequence[int], columns: Names, total: int, what: str, money: Money) -> Reason:
    """What is wrong with the bids of one member, if anything is."""
    whose = f"{called(name, 'member')}'s"
    if len(row) != len(columns):
        return f'{whose} row has {_so_many(len(row), "number")} for {_so_many(len(columns), what)}'
    for column, number in zip(columns, row):
        if number < 0:
            return f'{whose} bid for {called(column, what)} is {_said(number, money)}, which is below 0'
    if sum(row) != total:
        return f'{whose} {"points" if what == "good" else "bids"} add up to {_said(sum(row), money)}, not {_said(total, money)}'
    return None


def _of_rows(table: Table[Any, Any], total: int, what: str, money: Money) -> Reason:
    """What is wrong with the first bids that are."""
    found = (_of_row(member, row, table.columns, total, what, money) for member, row in zip(table.members, table.rows) if row is not None)
    return next(filter(None, found), None)


def why_rent(field: str, total: int, table: Table[Any, Any], money: Money) -> Reason:
    """Why a rent is refused."""
    members, rooms = len(table.members), len(table.columns)
    if field == 'members':
        return f'{_so_many(members, "member")}; a rent is divided between {FEWEST_MEMBERS} to {MOST_MEMBERS}'
    if field == 'rooms':
        return f'{_so_many(rooms, "room")} for {_so_many(members, "member")}'
    if field == 'rent':
        return f'the rent is {_said(total, money)}; it may be from {_said(1, money)} to {_said(MOST_RENT, money)}'
    return _of_rows(table, total, 'room', money)


def why_goods(field: str, table: Table[Any, Any], limit: Optional[int]) -> Reason:
    """Why goods are refused."""
    if field == 'members':
        return f'{_so_many(len(table.members), "member")}; goods are divided between {FEWEST_MEMBERS} to {MOST_MEMBERS}'
    if field == 'goods':
        return f'{_so_many(len(table.columns), "good")}; there may be 1 to {MOST_GOODS}{": put small ones together" if len(table.columns) > MOST_GOODS else ""}'
    if field == 'limit':
        return f'the limit is {limit}; it may be from 1 to {MOST_STEPS}'
    reason = _of_rows(table, WHOLE_POINTS, 'good', Money())
    return f'{reason}; fairsplit.scaled makes points add up' if reason and 'add up' in reason else reason


def _of_legs(legs: Table[Any, Any], money: Money) -> Reason:
    """What is wrong with the first leg that is."""
    places = legs.columns
    if len(legs.rows) != len(places) + 1:
        return f'{_so_many(len(legs.rows), "row")} of legs for {_so_many(len(places), "place")}: give one from the origin and one from each place'
    for number, row in enumerate(legs.rows):
        start = called(places[number - 1], 'place') if number else 'the origin'
        if row is None or len(row) != len(places):
            return f'the row of legs from {start} has {_so_many(len(row or ()), "number")} for {_so_many(len(places), "place")}'
        for place, leg in zip(places, row):
            if not 0 <= leg <= MOST_FARE_CENTS:
                most = _said(MOST_FARE_CENTS, money)
                return f'the leg from {start} to {called(place, "place")} is {_said(leg, money)}; it may be from {_said(0, money)} to {most}'
        if number and row[number - 1] != 0:
            return f'the leg from {start} to itself is {_said(row[number - 1], money)}, and has to be {_said(0, money)}'
    return None


def why_fares(field: str, flag: int, legs: Table[Any, Any], members: Names, stops: Sequence[Optional[int]], money: Money) -> Reason:
    """Why a fare is refused."""
    if field == 'members':
        return f'{_so_many(len(members), "member")}; a fare is shared by {FEWEST_MEMBERS} to {MOST_RIDERS}'
    if field == 'places':
        return f'{_so_many(len(legs.columns), "place")}; there may be 1 to {MOST_PLACES}'
    if field == 'flag':
        return f'the flag fall is {_said(flag, money)}; it may be from {_said(0, money)} to {_said(MOST_FARE_CENTS, money)}'
    if field == 'legs':
        return _of_legs(legs, money)
    return f'{_so_many(len(stops), "bid")} for {_so_many(len(members), "member")}' if len(stops) != len(members) else None

"""The divisions: bids of any form in, a division with the caller's names out."""
from __future__ import annotations

from typing import Any, Iterable, List, Mapping, Optional, Sequence, Tuple, overload

from ._amounts import Money, is_missing, whole
from ._commands import goods_case, text_of, title_of
from ._divisions import (FareDivision, GoodsDivision, PairDivision, RentDivision, fare_division, found_division, goods_division, pair_division,
                         rent_division)
from ._errors import OverLimit
from ._limits import MOST_ESTATE_STEPS, USUAL_ESTATE_STEPS
from ._names import Given, Names, labelled, listed, ordered, place_of
from ._reasons import explained, why_fares, why_goods, why_rent
from ._solving import is_soon_solved, solve_estate, solve_fares, solve_goods, solve_rent
from ._tables import Table, legs_of, table_of
from ._texts import numbers_of
from ._types import AnyAmount, Array, Frame, Item, Member, NamedBids, NamedRows, Order, Rows, Whole


@overload  # one without any bid fits two of these: whoever has no bids has no division
def rent(  # type: ignore[misc]
        total: AnyAmount, bids: NamedBids[Member, Item, AnyAmount], *, members: Order[Member] = ..., rooms: Order[Item] = ...,
         title: str = ...) -> RentDivision[Member, Item]: ...
@overload
def rent(total: AnyAmount, bids: NamedRows[Member, AnyAmount], *, members: Order[Member] = ..., rooms: Iterable[Item],
         title: str = ...) -> RentDivision[Member, Item]: ...
@overload
def rent(total: AnyAmount, bids: NamedRows[Member, AnyAmount], *, members: Order[Member] = ..., title: str = ...) -> RentDivision[Member, int]: ...
@overload
def rent(total: AnyAmount, bids: Rows[AnyAmount], *, members: Iterable[Member], rooms: Iterable[Item],
         title: str = ...) -> RentDivision[Member, Item]: ...
@overload
def rent(total: AnyAmount, bids: Rows[AnyAmount], *, members: Iterable[Member], title: str = ...) -> RentDivision[Member, int]: ...
@overload
def rent(total: AnyAmount, bids: Rows[AnyAmount], *, rooms: Iterable[Item], title: str = ...) -> RentDivision[int, Item]: ...
@overload
def rent(total: AnyAmount, bids: Rows[AnyAmount], *, title: str = ...) -> RentDivision[int, int]: ...
@overload
def rent(total: AnyAmount, bids: Frame, *, members: Order[Any] = ..., rooms: Order[Any] = ..., title: str = ...) -> RentDivision[Any, Any]: ...
def rent(total: Any, bids: Any, *, members: Given = None, rooms: Given = None, title: Optional[str] = None) -> RentDivision[Any, Any]:
    """Divide a rent.

    The prices are envy-free, and the least utility is as great as envy-free prices allow.

    Parameters
    ----------
    total : int or Decimal
        The rent: whole cents, or a Decimal with at most two places.
    bids
        What each room is worth to each member, in any of the forms. Each member's bids add up to the rent.
    members, rooms : iterable, optional
        Names for what has none, and the order of what has.
    title : str, optional
        The title of the report, at most 40 bytes.

    Returns
    -------
    RentDivision
        For each member the room, the exact price and what the member pays.

    Raises
    ------
    Void
        If somebody hasn't bid.
    Refused
        If the numbers are no rent. It says whose bids are wrong, and how.
    ValueError
        If a name is unknown, or stands for two.
    TypeError
        If a number isn't whole, or a row has no order.

    Examples
    --------
    >>> import fairsplit
    >>> division = fairsplit.rent(900, {'Ann': {'Attic': 600, 'Back': 300}, 'Ben': {'Attic': 500, 'Back': 400}})
    >>> division['Ann'].room, division['Ann'].pays
    ('Attic', 550)
    """
    money = Money()
    amount = money(total)
    table = table_of(bids, members, rooms, 'rooms', money)
    with explained(lambda field: why_rent(field, amount, table, money)):
        text, pays = solve_rent(amount, table)
    return rent_division(table, text, pays, money, title_of(title, 'rent'))


@overload
def goods(bids: NamedBids[Member, Item, Whole], *, members: Order[Member] = ..., goods: Order[Item] = ...,
          steps: Optional[Whole] = ..., limit: Optional[Whole] = ..., title: str = ...) -> GoodsDivision[Member, Item]: ...
@overload
def goods(bids: NamedRows[Member, Whole], *, members: Order[Member] = ..., goods: Iterable[Item], steps: Optional[Whole] = ...,
          limit: Optional[Whole] = ..., title: str = ...) -> GoodsDivision[Member, Item]: ...
@overload
def goods(bids: NamedRows[Member, Whole], *, members: Order[Member] = ..., steps: Optional[Whole] = ..., limit: Optional[Whole] = ...,
          title: str = ...) -> GoodsDivision[Member, int]: ...
@overload
def goods(bids: Rows[Whole], *, members: Iterable[Member], goods: Iterable[Item], steps: Optional[Whole] = ..., limit: Optional[Whole] = ...,
          title: str = ...) -> GoodsDivision[Member, Item]: ...
@overload
def goods(bids: Rows[Whole], *, members: Iterable[Member], steps: Optional[Whole] = ..., limit: Optional[Whole] = ...,
          title: str = ...) -> GoodsDivision[Member, int]: ...
@overload
def goods(bids: Rows[Whole], *, goods: Iterable[Item], steps: Optional[Whole] = ..., limit: Optional[Whole] = ...,
          title: str = ...) -> GoodsDivision[int, Item]: ...
@overload
def goods(bids: Rows[Whole], *, steps: Optional[Whole] = ..., limit: Optional[Whole] = ..., title: str = ...) -> GoodsDivision[int, int]: ...
@overload
def goods(bids: Frame, *, members: Order[Any] = ..., goods: Order[Any] = ..., steps: Optional[Whole] = ..., limit: Optional[Whole] = ...,
          title: str = ...) -> GoodsDivision[Any, Any]: ...
def goods(bids: Any, *, members: Given = None, goods: Given = None, steps: Optional[Whole] = None, limit: Optional[Whole] = None,
          title: Optional[str] = None) -> GoodsDivision[Any, Any]:
    """Divide goods.

    As many members as possible get something, and among those divisions the product of their points is as great as possible. Of several such divisions
    it is the first, so each case has exactly one answer.

    Two searches can find it. The one that the program and the server use comes first. If it takes more than 10,000 steps, the search for estates takes
    over, which divides nearly all cases of up to 12 members and 24 goods, most of them in milliseconds. The first line of the certificate says which
    search it was: `fairsplit 1`, or `fairsplit 2` for an estate's.

    Parameters
    ----------
    bids
        The points of each member for each good, in any of the forms. Each member's points add up to 1000; `scaled` makes them do so.
    members, goods : iterable, optional
        Names for what has none, and the order of what has.
    steps : int, optional
        How far the search for estates may go, from 1 to 1,000,000 steps; without it 20,000, which was enough for all but a few of the drawn cases. A step takes less than a
        millisecond. Ctrl-C ends the search.
    limit : int, optional
        With it the first search decides alone, as in the program: the most steps that it may take, up to 200,000. Then `steps` can't be given.
    title : str, optional
        As for `rent`.

    Returns
    -------
    GoodsDivision
        For each member who has bid the goods and their points.

    Raises
    ------
    Void
        If nobody has bid.
    OverLimit
        If the search takes more steps than it may. `best` is the best division that it found, unless `limit` was given.
    Refused, ValueError, TypeError
        As for `rent`.

    Examples
    --------
    >>> import fairsplit
    >>> division = fairsplit.goods({'Ada': {'Piano': 700, 'Car': 300}, 'Bo': {'Piano': 600, 'Car': 400}})
    >>> division.owners, division.product
    (('Ada', 'Bo'), 280000)
    >>> estate = fairsplit.goods(fairsplit.draw.goods(4, 18, seed=1))
    >>> estate.text.splitlines()[0], bool(fairsplit.check(estate.text))
    ('fairsplit 2', True)
    """
    table = table_of(bids, members, goods, 'goods', whole)
    most, further = None if limit is None else whole(limit), _further(steps, limit)
    with explained(lambda field: why_goods(field, table, most)):
        if most is not None or is_soon_solved(table):
            return goods_division(table, solve_goods(most, table), title_of(title, 'goods'))
    return _estate(table, further, title_of(title, 'goods'))


def _further(steps: Optional[Whole], limit: Optional[Whole]) -> int:
    """How many steps the search for estates may take."""
    if steps is None:
        return USUAL_ESTATE_STEPS
    if limit is not None:
        raise ValueError('limit= asks for the specified search alone, and steps= for that of estates: give one of them')
    found = whole(steps)
    if not 1 <= found <= MOST_ESTATE_STEPS:
        raise ValueError(f'steps is {found}; it may be from 1 to {MOST_ESTATE_STEPS}')
    return found


def _estate(table: Table[Any, Any], steps: int, title: str) -> GoodsDivision[Any, Any]:
    """The division by the search for estates."""
    ended = solve_estate(steps, table)
    if not ended.status:
        return goods_division(table, ended.text, title)
    raise OverLimit(steps, found_division(table, [owner - 1 for owner in ended.owners], ended.steps, title), ended.text.strip())


def _stops(bids: Any, members: Given, places: Names) -> Tuple[Names, List[Optional[int]]]:
    """The members, and for each the number of the place where they get off, or None."""
    found = labelled(bids)
    if isinstance(found, Mapping):
        names, order = ordered(members, tuple(found), 'members')
        stops = list(found.values())
        stops = [stops[place] for place in order]
    else:
        stops = listed(found, 'list of places')
        names = tuple(range(1, len(stops) + 1) if members is None else members)
    return names, [None if is_missing(stop) else place_of(stop, places, 'places') + 1 for stop in stops]


@overload
def fares(flag: AnyAmount, legs: Any, bids: Mapping[Member, Optional[Item]], *, members: Order[Member] = ...,
          places: Given = ..., title: str = ...) -> FareDivision[Member, Item]: ...
@overload
def fares(flag: AnyAmount, legs: Any, bids: Sequence[Optional[Item]], *, members: Iterable[Member], places: Given = ...,
          title: str = ...) -> FareDivision[Member, Item]: ...
@overload
def fares(flag: AnyAmount, legs: Any, bids: Sequence[Optional[Item]], *, places: Given = ..., title: str = ...) -> FareDivision[int, Item]: ...
@overload
def fares(flag: AnyAmount, legs: Any, bids: Array, *, members: Given = ..., places: Given = ..., title: str = ...) -> FareDivision[Any, Any]: ...
def fares(flag: Any, legs: Any, bids: Any, *, members: Given = None, places: Given = None, title: Optional[str] = None) -> FareDivision[Any, Any]:
    """Share the fare of a taxi.

    Each rider pays the mean, over all orders in which they may join, of what they add to the cost (the Shapley value).

    Parameters
    ----------
    flag : int or Decimal
        What the ride costs before it begins.
    legs
        What each leg costs: a row from the origin and one from each place, each with a number for every place. If the rows have names, these are those of
        the places, and one more for the origin.
    bids
        Where each member gets off: a mapping from member to place, or a list of places; None for a member who does not ride.
    members, places : iterable, optional
        Names for what has none, and the order of what has.
    title : str, optional
        As for `rent`.

    Returns
    -------
    FareDivision
        For each rider the exact fare, what the rider pays, and what they would pay alone; and the route.

    Raises
    ------
    Void
        If nobody rides.
    Refused, ValueError, TypeError
        As for `rent`.

    Examples
    --------
    >>> import fairsplit
    >>> legs = {'origin': {'Station': 1000, 'Harbour': 1500}, 'Station': {'Station': 0, 'Harbour': 700}, 'Harbour': {'Station': 900, 'Harbour': 0}}
    >>> division = fairsplit.fares(300, legs, {'Ann': 'Station', 'Ben': 'Harbour'})
    >>> [(share.member, share.pays) for share in division]
    [('Ann', 750), ('Ben', 1250)]
    """
    money = Money()
    amount = money(flag)
    table = legs_of(legs, places, money)
    riders, stops = _stops(bids, members, table.columns)
    with explained(lambda field: why_fares(field, amount, table, riders, stops, money)):
        text, pays = solve_fares(amount, table, riders, stops)
    return fare_division(amount, table, riders, stops, text, pays, money, title_of(title, 'fares'))


@overload
def winner(bids: NamedBids[Member, Item, Whole], *, members: Order[Member] = ..., goods: Order[Item] = ...) -> PairDivision[Member, Item]: ...
@overload
def winner(bids: Any, *, members: Given = ..., goods: Given = ...) -> PairDivision[Any, Any]: ...
def winner(bids: Any, *, members: Given = None, goods: Given = None) -> PairDivision[Any, Any]:
    """Divide goods between two members by adjusted winner.

    At most one good is cut, both members have as many points, and neither envies (Brams and Taylor 1996).

    Parameters
    ----------
    bids, members, goods
        As for `goods`.

    Returns
    -------
    PairDivision
        For both members the part of each good, and their points.

    Raises
    ------
    NotTwo
        If there aren't exactly two members who have bid.
    Refused, ValueError, TypeError
        As for `rent`.

    Examples
    --------
    >>> import fairsplit
    >>> division = fairsplit.winner({'Ada': {'Piano': 700, 'Car': 300}, 'Bo': {'Piano': 600, 'Car': 400}})
    >>> division.cut, [str(part) for part in division['Ada'].parts], str(division.total)
    ('Piano', ['10/13', '0'], '7000/13')
    """
    table = table_of(bids, members, goods, 'goods', whole)
    with explained(lambda field: why_goods(field, table, None)):
        text = text_of('winner', goods_case(table), table.members)
    (who,) = numbers_of(text, 'who')
    return pair_division([table.members[number - 1] for number in who], table.columns, text)

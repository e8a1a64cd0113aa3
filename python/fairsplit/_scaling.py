"""Points of any sum, scaled to 1000 by greatest remainders."""
from __future__ import annotations

from dataclasses import dataclass
from decimal import Decimal
from fractions import Fraction
from numbers import Rational, Real
from typing import Any, Dict, Generic, Hashable, List, Optional, Sequence, Tuple, TypeVar, overload

from ._limits import WHOLE_POINTS
from ._names import Given
from ._tables import Table, table_of
from ._types import NamedBids, Order

Member = TypeVar('Member', bound=Hashable)
Good = TypeVar('Good', bound=Hashable)


@dataclass(frozen=True)
class Scaled(Generic[Member, Good]):
    """Points that add up to 1000 a member.

    Attributes
    ----------
    table : Table
        The points, which `goods` and the other functions take.
    rounded : tuple of tuple of Fraction
        For each member and good how many points were added by rounding, always between -1 and 1. A member who has not bid has none.
    """

    table: Table[Member, Good]
    rounded: Tuple[Tuple[Fraction, ...], ...]

    @property
    def most(self) -> Fraction:
        """By how many points rounding changed a number at most."""
        return max((abs(change) for row in self.rounded for change in row), default=Fraction(0))

    def by_name(self) -> Dict[Member, Dict[Good, Fraction]]:
        """What was rounded, by member and good."""
        return {member: dict(zip(self.table.columns, row)) for member, row in zip(self.table.members, self.rounded)}


def _exact(number: Any) -> Any:
    """A number of points, exactly: a whole number, a decimal one, a fraction, or a float as the fraction that it is."""
    if isinstance(number, bool) or not isinstance(number, (Real, Decimal)):
        raise TypeError(f'{number!r} is no number')
    try:
        found = Fraction(number) if isinstance(number, (Rational, Decimal)) else Fraction(float(number))
    except OverflowError:
        raise ValueError(f'{number} is no number of points') from None
    if found < 0:
        raise ValueError(f'{number} is below 0')
    return found


def greatest_remainders(shares: Sequence[Fraction], total: int) -> List[int]:
    """Whole numbers that add up to the total: each share is rounded down, and what is left over goes to the greatest remainders, the first ones of equals."""
    found = [int(share) for share in shares]
    order = sorted(range(len(shares)), key=lambda place: (found[place] - shares[place], place))
    for place in order[:total - sum(found)]:
        found[place] += 1
    return found


@overload
def scaled(points: NamedBids[Member, Good, Any], *, members: Order[Member] = ..., goods: Order[Good] = ...) -> Scaled[Member, Good]: ...
@overload
def scaled(points: Any, *, members: Given = ..., goods: Given = ...) -> Scaled[Any, Any]: ...
def scaled(points: Any, *, members: Given = None, goods: Given = None) -> Scaled[Any, Any]:
    """Scale points of any sum to 1000 a member, by greatest remainders.

    Parameters
    ----------
    points
        Numbers that are not below 0, in any of the forms of bids. Here they may also be floats or fractions.
    members, goods : iterable, optional
        Names for what has none, and the order of what has.

    Returns
    -------
    Scaled
        `table` has the points, and `rounded` by how much each one was rounded.

    Raises
    ------
    ValueError
        If a number is below 0, or a member has no points at all.
    TypeError
        If it is no number.

    Examples
    --------
    >>> import fairsplit
    >>> points = fairsplit.scaled({'Ada': {'Piano': 2, 'Car': 1}, 'Bo': {'Piano': 50, 'Car': 50}})
    >>> points.table.rows, str(points.most)
    (([667, 333], [500, 500]), '1/3')
    """
    given = table_of(points, members, goods, 'goods', _exact)
    rows: List[Optional[List[int]]] = []
    rounded: List[Tuple[Fraction, ...]] = []
    for member, row in zip(given.members, given.rows):
        shares = [] if row is None else _shares(member, row)
        rows.append(None if row is None else greatest_remainders(shares, WHOLE_POINTS))
        rounded.append(tuple(number - share for number, share in zip(rows[-1] or (), shares)))
    return Scaled(Table(given.members, given.columns, tuple(rows)), tuple(rounded))


def _shares(member: Hashable, row: Sequence[Any]) -> List[Fraction]:
    """What each number is of 1000, exactly."""
    total = sum(row)
    if not total:
        raise ValueError(f'{member} has no points at all')
    return [WHOLE_POINTS * Fraction(number) / total for number in row]

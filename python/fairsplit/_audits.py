"""Other people's divisions, judged. An audit of goods is the library's, which is proved. Rents and fares are compared with the proved best division;
the sums, the envy and the comparisons are plain arithmetic in Python.
"""
from __future__ import annotations

import re
from dataclasses import dataclass, field
from fractions import Fraction
from math import prod
from typing import Any, Generic, Hashable, Optional, Sequence, Tuple, TypeVar

from ._amounts import Amount, Money
from ._commands import goods_case, text_of
from ._divisions import FareDivision, GoodsShare, RentDivision, envy_between, goods_shares
from ._names import chosen, places_of
from ._results import Division
from ._tables import Table, bids_of
from ._texts import places_in, rows_of

Member = TypeVar('Member', bound=Hashable)
Good = TypeVar('Good', bound=Hashable)
Room = TypeVar('Room', bound=Hashable)
Place = TypeVar('Place', bound=Hashable)


def _greatest(names: Sequence[Any], envy: Sequence[Sequence[Any]]) -> Optional[Tuple[Any, Any, Any]]:
    """Who envies whom most, and by how much; None if nobody envies."""
    gain, one, other = max((gain, -one, -other) for one, row in enumerate(envy) for other, gain in enumerate(row))
    return (names[-one], names[-other], gain) if gain > 0 else None


@dataclass(frozen=True)
class GoodsAudit(Division[GoodsShare[Member, Good]], Generic[Member, Good]):
    """What the library's audit says of proposed owners.

    Attributes
    ----------
    shares : tuple of GoodsShare
        What each member who has bid would get.
    text : str
        The audit.
    envy : tuple of tuple of int
        How many points share i would gain by having the goods of share j.
    up_to_one : tuple
        Members one and other, and a good: one envies other, but not without that good. Proved.
    beyond_one : tuple or None
        Members one and other: one would envy other without any single good. None if there are none such. Proved.
    dominating : tuple or None
        For each good its owner in a division that is better for somebody and worse for nobody; None if there is none. Proved.
    """

    shares: Tuple[GoodsShare[Member, Good], ...]
    text: str = field(repr=False)
    envy: Tuple[Tuple[int, ...], ...]
    up_to_one: Tuple[Tuple[Member, Member, Good], ...]
    beyond_one: Optional[Tuple[Member, Member]]
    dominating: Optional[Tuple[Member, ...]]

    def _envy(self) -> Sequence[Sequence[int]]:
        return self.envy

    @property
    def envious(self) -> Optional[Tuple[Member, Member, int]]:
        """Who envies whom most, and by how many points; None if nobody envies."""
        return _greatest([share.member for share in self.shares], self.envy)

    @property
    def envy_free(self) -> bool:
        """Whether nobody would rather have another's goods."""
        return self.envious is None

    @property
    def ef1(self) -> bool:
        """Whether nobody envies anybody beyond one good (envy-free up to one good)."""
        return self.beyond_one is None

    @property
    def pareto(self) -> bool:
        """Whether no division is better for somebody and worse for nobody (Pareto-optimal)."""
        return self.dominating is None

    @property
    def positive(self) -> int:
        """How many members get something that they want."""
        return sum(share.points > 0 for share in self.shares)

    @property
    def product(self) -> int:
        """The product of the points of these members."""
        return prod(share.points for share in self.shares if share.points)


def goods_audit(table: Table[Any, Any], owners: Sequence[Any], limit: Optional[int]) -> GoodsAudit[Any, Any]:
    """The audit of proposed owners, one a good."""
    places = places_of(owners, table.members, 'members')
    text = text_of('weigh', {**goods_case(table, limit), 'owners': [place + 1 for place in places]}, table.members)
    players = [place for place, row in enumerate(table.rows) if row is not None]
    by_player = [players.index(place) for place in places]
    said = [(table.members[int(one) - 1], table.members[int(other) - 1], words)
            for one, other, words in re.findall(r'^envy (\d+) (\d+): (.+)$', text, re.MULTILINE)]
    up_to_one = tuple((one, other, table.columns[int(words.split()[1]) - 1]) for one, other, words in said if words.startswith('without '))
    beyond_one = next(((one, other) for one, other, words in said if words == 'fails'), None)
    dominated = rows_of(text, 'dominated')
    dominating = tuple(table.members[int(number) - 1] for number in dominated[0][1:]) if dominated else None
    return GoodsAudit(goods_shares(table, by_player), text, envy_between(bids_of(table), by_player), up_to_one, beyond_one, dominating)


@dataclass(frozen=True)
class RentAudit(Generic[Member, Room]):
    """What is said of rooms and prices that somebody proposes. The sums and the comparisons are plain arithmetic; `best` is proved.

    Attributes
    ----------
    members, rooms : tuple
        The members, and the room of each.
    utilities : tuple of Fraction
        What the room of each member is worth to them beyond its price.
    envy : tuple of tuple of Fraction
        How much member i would gain by having the room of member j at its price.
    sum : Fraction
        What the prices add up to.
    adds_up : bool
        Whether that is the rent.
    welfare_lost : Fraction
        How much more the members would pay for their rooms, all together, if these were given out as well as can be.
    best : RentDivision
        The best division for the same bids.
    """

    members: Tuple[Member, ...]
    rooms: Tuple[Room, ...]
    utilities: Tuple[Fraction, ...]
    envy: Tuple[Tuple[Fraction, ...], ...]
    sum: Fraction
    adds_up: bool
    welfare_lost: Fraction
    best: RentDivision[Member, Room] = field(repr=False)

    @property
    def envious(self) -> Optional[Tuple[Member, Member, Fraction]]:
        """Who envies whom most, and by how much; None if nobody envies."""
        return _greatest(self.members, self.envy)

    @property
    def envy_free(self) -> bool:
        """Whether nobody would rather have another's room at its price."""
        return self.envious is None

    @property
    def pareto(self) -> bool:
        """Whether no other rooms and prices with the same sum are better for somebody and worse for nobody: whether no welfare is lost."""
        return not self.welfare_lost

    @property
    def maximin(self) -> bool:
        """Whether the prices add up to the rent and are envy-free, and the least utility is as great as such prices allow."""
        return self.adds_up and self.envy_free and min(self.utilities) == self.best.least_utility


def rent_audit(total: int, table: Table[Any, Any], rooms: Any, prices: Any, money: Money, best: RentDivision[Any, Any]) -> RentAudit[Any, Any]:
    """The audit of proposed rooms and prices, beside the best division of the same bids."""
    own = chosen(rooms, table.members, 'members', 'list of rooms')
    places = places_of(own, table.columns, 'rooms')
    if len(set(places)) != len(places):
        raise ValueError(f'two members have one room: {own}')
    costs = [money.cents_of(price) for price in chosen(prices, table.columns, 'rooms', 'list of prices')]
    rows = bids_of(table)
    gains = [[row[room] - costs[room] for room in places] for row in rows]
    envy = tuple(tuple(money.exact(other - row[player]) for other in row) for player, row in enumerate(gains))
    utilities = tuple(money.exact(row[player]) for player, row in enumerate(gains))
    best_rooms = places_in(best.text, 'rooms')
    lost = sum(row[room] for row, room in zip(rows, best_rooms)) - sum(row[room] for row, room in zip(rows, places))
    return RentAudit(table.members, tuple(own), utilities, envy, money.exact(sum(costs)), sum(costs) == total, money.exact(lost), best)


@dataclass(frozen=True)
class FareAudit(Generic[Member, Place]):
    """What is said of fares that somebody proposes. What each set of riders would cost is read from the proved certificate of `best`; the sums and the
    comparisons are plain arithmetic.

    Attributes
    ----------
    members : tuple
        The members who ride.
    fares : tuple of Fraction
        What each of them would pay.
    cost : int or Decimal
        What the ride costs.
    adds_up : bool
        Whether the fares add up to that.
    overcharged : tuple or None
        The riders who together pay more than they would without the others, those who overpay most; None if there are none.
    excess : Fraction
        By how much those riders overpay, or 0.
    best : FareDivision
        The Shapley shares of the same ride.
    """

    members: Tuple[Member, ...]
    fares: Tuple[Fraction, ...]
    cost: Amount
    adds_up: bool
    overcharged: Optional[Tuple[Member, ...]]
    excess: Fraction
    best: FareDivision[Member, Place] = field(repr=False)

    @property
    def core(self) -> bool:
        """Whether the fares add up, and no set of riders pays more than it would without the others (the fares are in the core)."""
        return self.adds_up and self.overcharged is None

    @property
    def shapley(self) -> bool:
        """Whether these are the Shapley shares."""
        return self.fares == tuple(share.fare for share in self.best.shares)


def fare_audit(flag: int, fares: Any, money: Money, best: FareDivision[Any, Any]) -> FareAudit[Any, Any]:
    """The audit of proposed fares, beside the Shapley shares of the same ride."""
    riders = tuple(share.member for share in best.shares)
    amounts = [money.cents_of(fare) for fare in chosen(fares, riders, 'riders', 'list of fares')]
    cost_of = [0, *(flag + int(row[1]) for row in rows_of(best.text, 'set'))]
    excess, number = max((_paid(amounts, number) - cost, -number) for number, cost in enumerate(cost_of))
    overcharged = tuple(rider for place, rider in enumerate(riders) if -number >> place & 1) or None
    exact = tuple(money.exact(amount) for amount in amounts)
    return FareAudit(riders, exact, best.total, sum(amounts) == cost_of[-1], overcharged, money.exact(excess), best)


def _paid(amounts: Sequence[Fraction], number: int) -> Fraction:
    """What the riders of a set pay together. The number of a set is the sum of 1 for rider 1, 2 for rider 2, 4 for rider 3 and so on."""
    return sum((amount for place, amount in enumerate(amounts) if number >> place & 1), Fraction(0))

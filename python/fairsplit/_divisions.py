"""What a division is: read from the library's text, with the caller's names, in the caller's unit. Exact amounts are fractions.

A report comes from the command, which reads JSON.
"""
from __future__ import annotations

from dataclasses import dataclass, field
from fractions import Fraction
from functools import cached_property
from math import lcm, prod
from typing import Any, Generic, Hashable, List, Optional, Sequence, Tuple, TypeVar

from ._amounts import Amount, Money
from ._commands import case_of, said, text_of
from ._results import Division
from ._tables import Table, bids_of
from ._texts import fractions_of, number_of, numbers_of, places_in

Member = TypeVar('Member', bound=Hashable)
Room = TypeVar('Room', bound=Hashable)
Good = TypeVar('Good', bound=Hashable)
Place = TypeVar('Place', bound=Hashable)
# How a certificate of the specified search begins.
SPECIFIED = 'fairsplit 1\n'
UNPROVED = 'not proved to be the best'


@dataclass(frozen=True)
class RentShare(Generic[Member, Room]):
    """One member's room.

    Attributes
    ----------
    member, room : name
    price : Fraction
        The exact price of the room.
    pays : int or Decimal
        What the member pays: the price in whole cents, such that all together pay the rent.
    utility : Fraction
        What the room is worth to the member beyond its exact price.
    """

    member: Member
    room: Room
    price: Fraction
    pays: Amount
    utility: Fraction


@dataclass(frozen=True)
class RentDivision(Division[RentShare[Member, Room]], Generic[Member, Room]):
    """A rent, divided so that nobody envies and the least utility is as great as can be.

    Attributes
    ----------
    shares : tuple of RentShare
        By member.
    text : str
        The certificate.
    rooms : tuple
        The names of the rooms, in the order of the certificate.
    title : str
        The title of the report.
    """

    shares: Tuple[RentShare[Member, Room], ...]
    text: str = field(repr=False)
    rooms: Tuple[Room, ...] = field(repr=False)
    title: str = field(repr=False, compare=False)

    @property
    def certificate(self) -> str:
        """The division's text, which is a certificate."""
        return self.text

    @property
    def members(self) -> Tuple[Member, ...]:
        """The members, in the order of the certificate."""
        return tuple(share.member for share in self.shares)

    @cached_property
    def _values(self) -> List[List[int]]:
        """What each member would pay for each room, in cents."""
        return numbers_of(self.text, 'values')

    @property
    def least_utility(self) -> Fraction:
        """The utility of the member who gains least."""
        return min(share.utility for share in self.shares)

    @cached_property
    def envy(self) -> Tuple[Tuple[Fraction, ...], ...]:
        """How much member i would gain by having the room of member j at its exact price: never above 0."""
        money = Money.like(self.shares[0].pays)
        rooms = list(zip(places_in(self.text, 'rooms'), (share.price for share in self.shares)))
        return tuple(tuple(money.exact(row[room]) - price - share.utility for room, price in rooms) for row, share in zip(self._values, self.shares))

    def _envy(self) -> Sequence[Sequence[Fraction]]:
        return self.envy

    @cached_property
    def report(self) -> str:
        """What the program's `report` writes of this division. A name that a case can't have is m1, r1 and so on there."""
        return text_of('report', case_of(self.title, 'rent', self.members, 'rooms', self.rooms, self._values, rent=number_of(self.text, 'rent')), self.members)


@dataclass(frozen=True)
class GoodsShare(Generic[Member, Good]):
    """One member's goods.

    Attributes
    ----------
    member : name
    goods : tuple
        The names of the goods that the member gets.
    points : int
        What they are worth to the member.
    """

    member: Member
    goods: Tuple[Good, ...]
    points: int


@dataclass(frozen=True)
class GoodsDivision(Division[GoodsShare[Member, Good]], Generic[Member, Good]):
    """Goods, divided with the greatest Nash welfare. Only members who have bid have a share.

    Attributes
    ----------
    shares : tuple of GoodsShare
        By member who has bid.
    text : str
        The certificate. It begins with `fairsplit 2` if the search for estates has found the division, and otherwise with `fairsplit 1`.
    members, goods : tuple
        The names of all members, and of the goods in the order of the certificate.
    owners : tuple
        For each good the member who gets it.
    title : str
        The title of the report.
    """

    shares: Tuple[GoodsShare[Member, Good], ...]
    text: str = field(repr=False)
    members: Tuple[Member, ...] = field(repr=False)
    goods: Tuple[Good, ...] = field(repr=False)
    owners: Tuple[Member, ...] = field(repr=False)
    title: str = field(repr=False, compare=False)

    @property
    def certificate(self) -> str:
        """The division's text, which is a certificate."""
        return self.text

    @property
    def positive(self) -> int:
        """How many members get something that they want."""
        return sum(share.points > 0 for share in self.shares)

    @property
    def product(self) -> int:
        """The product of the points of these members."""
        return prod(share.points for share in self.shares if share.points)

    @property
    def _lines(self) -> str:
        """Where the case, the owners and the steps stand, in lines as a certificate has them."""
        return self.text

    @property
    def steps(self) -> int:
        """How many steps the search took."""
        return number_of(self._lines, 'steps')

    @cached_property
    def envy(self) -> Tuple[Tuple[int, ...], ...]:
        """How many points share i would gain by having the goods of share j."""
        return envy_between(numbers_of(self._lines, 'values'), places_in(self._lines, 'owners'))

    def _envy(self) -> Sequence[Sequence[int]]:
        return self.envy

    @cached_property
    def report(self) -> str:
        """What the program's `report` writes of this division; of an estate, which the program doesn't divide, the same lines. A name that a case can't
        have is m1, g1 and so on there.
        """
        if not self.text.startswith(SPECIFIED):
            return self._own_report()
        bids: List[Optional[List[int]]] = [None] * len(self.members)
        for member, row in zip(places_in(self.text, 'who'), numbers_of(self.text, 'values')):
            bids[member] = row
        case = case_of(self.title, 'goods', self.members, 'goods', self.goods, bids, limit=number_of(self.text, 'limit'))
        return text_of('report', case, self.members)

    def _own_report(self) -> str:
        """The lines of the report, without the program."""
        who, owners, names = places_in(self._lines, 'who'), places_in(self._lines, 'owners'), said(self.members, 'm')
        lines = [f'goods {self.title}', f'players {len(who)} of {len(self.members)}']
        for player, (member, share) in enumerate(zip(who, self.shares)):
            goods = ' '.join(str(good) for good, owner in enumerate(owners, 1) if owner == player) or 'none'
            lines.append(f'{member + 1} {names[member]}: goods {goods}, points {share.points}')
        lines.append(f'positive {self.positive}, product {self.product}, steps {self.steps}')
        lines += [f'envy {member + 1}: {" ".join(map(str, row))}' for member, row in zip(who, self.envy)]
        return ''.join(f'{line}\n' for line in lines)


@dataclass(frozen=True, repr=False)
class FoundDivision(GoodsDivision[Member, Good]):
    """The best division that a search has found before it came to its limit. It has no certificate: nothing proves that it is the best one.

    Attributes
    ----------
    shares, members, goods, owners, title
        As for `GoodsDivision`.
    text : str
        Nothing: there is no certificate.
    lines : str
        The case, the owners and the steps, in lines as a certificate has them.
    """

    lines: str

    @property
    def _lines(self) -> str:
        return self.lines

    def __repr__(self) -> str:
        return f'FoundDivision({UNPROVED}, shares={self.shares!r})'

    def _repr_html_(self) -> str:
        return f'<p>{UNPROVED.capitalize()}.</p>{super()._repr_html_()}'

    def _own_report(self) -> str:
        return f'{super()._own_report()}{UNPROVED}\n'


@dataclass(frozen=True)
class FareShare(Generic[Member, Place]):
    """One rider's fare.

    Attributes
    ----------
    member, place : name
    fare : Fraction
        The exact fare.
    pays : int or Decimal
        What the rider pays: the fare in whole cents, such that all together pay the ride.
    alone : Fraction
        What the rider would pay alone.
    """

    member: Member
    place: Place
    fare: Fraction
    pays: Amount
    alone: Fraction


@dataclass(frozen=True)
class FareDivision(Division[FareShare[Member, Place]], Generic[Member, Place]):
    """A fare, shared by the Shapley value on the cheapest route. Only members who ride have a share.

    Attributes
    ----------
    shares : tuple of FareShare
        By member who rides.
    text : str
        The certificate.
    members, places : tuple
        The names of all members, and of the places in the order of the certificate.
    total : int or Decimal
        What the ride costs.
    route : tuple
        The riders in the order in which they get off.
    title : str
        The title of the report.
    """

    shares: Tuple[FareShare[Member, Place], ...]
    text: str = field(repr=False)
    members: Tuple[Member, ...] = field(repr=False)
    places: Tuple[Place, ...] = field(repr=False)
    total: Amount
    route: Tuple[Member, ...]
    title: str = field(repr=False, compare=False)

    @property
    def certificate(self) -> str:
        """The division's text, which is a certificate."""
        return self.text

    @cached_property
    def report(self) -> str:
        """What the program's `report` writes of this division. A name that a case can't have is m1, p1 and so on there."""
        bids: List[Optional[int]] = [None] * len(self.members)
        for member, stop in zip(places_in(self.text, 'who'), numbers_of(self.text, 'at')[0]):
            bids[member] = stop
        facts = {'flag': number_of(self.text, 'flag'), 'legs': numbers_of(self.text, 'legs')}
        return text_of('report', case_of(self.title, 'fares', self.members, 'places', self.places, bids, **facts), self.members)


@dataclass(frozen=True)
class PairShare(Generic[Member]):
    """One of two members' part of each good.

    Attributes
    ----------
    member : name
    parts : tuple of Fraction
        For each good the part of it that the member gets.
    points : Fraction
        What they are worth to the member.
    """

    member: Member
    parts: Tuple[Fraction, ...]
    points: Fraction


@dataclass(frozen=True)
class PairDivision(Division[PairShare[Member]], Generic[Member, Good]):
    """Goods between two members by adjusted winner (Brams and Taylor 1996).

    Attributes
    ----------
    shares : tuple of PairShare
        Of the two members.
    text : str
        The text of adjusted winner, which `check_winner` judges.
    goods : tuple
        The names of the goods.
    total : Fraction
        The points that each of the two has.
    """

    shares: Tuple[PairShare[Member], ...]
    text: str = field(repr=False)
    goods: Tuple[Good, ...]
    total: Fraction

    @property
    def cut(self) -> Optional[Good]:
        """The good that is cut, or None."""
        return next((good for good, part in zip(self.goods, self.shares[0].parts) if part.denominator > 1), None)


@dataclass(frozen=True)
class Verdict:
    """What a judge says of a text. It is true where all rules hold.

    Attributes
    ----------
    holds : bool
        Whether all rules hold.
    rule : int or None
        The number of the first rule that does not.
    """

    holds: bool
    rule: Optional[int] = None

    def __bool__(self) -> bool:
        return self.holds


def envy_between(values: Sequence[Sequence[int]], owners: Sequence[int]) -> Tuple[Tuple[int, ...], ...]:
    """How many points each player would gain by having the goods of each other one. `owners` has for each good its player, from 0."""
    worth = [[sum(row[good] for good, owner in enumerate(owners) if owner == player) for player in range(len(values))] for row in values]
    return tuple(tuple(other - row[player] for other in row) for player, row in enumerate(worth))


def rent_division(table: Table[Any, Any], certificate: str, pays: Sequence[int], money: Money, title: str) -> RentDivision[Any, Any]:
    """The division of a rent from its certificate, and from what each member pays."""
    rooms, prices = places_in(certificate, 'rooms'), fractions_of(certificate, 'prices')
    # utilities in parts of a cent of which each price has a whole number
    parts = lcm(*(price.denominator for price in prices))
    costs = [int(price * parts) for price in prices]
    shares = tuple(
        RentShare(member, table.columns[room], money.exact(prices[room]), money.paid(paid), money.exact(Fraction(row[room] * parts - costs[room], parts)))
        for member, row, room, paid in zip(table.members, bids_of(table), rooms, pays))
    return RentDivision(shares, certificate, table.columns, title)


def goods_division(table: Table[Any, Any], certificate: str, title: str) -> GoodsDivision[Any, Any]:
    """The division of goods from its certificate."""
    owners = places_in(certificate, 'owners')
    players = [member for member, row in zip(table.members, table.rows) if row is not None]
    return GoodsDivision(goods_shares(table, owners), certificate, table.members, table.columns, tuple(players[owner] for owner in owners), title)


def found_division(table: Table[Any, Any], owners: Sequence[int], steps: int, title: str) -> FoundDivision[Any, Any]:
    """The division with these owners, players from 0, which a search of so many steps has found."""
    players = [number for number, row in enumerate(table.rows, 1) if row is not None]
    rows = [('who', players), *(('values', row) for row in bids_of(table)), ('owners', [owner + 1 for owner in owners]), ('steps', [steps])]
    lines = ''.join(f'{word} {" ".join(map(str, numbers))}\n' for word, numbers in rows)
    names = tuple(table.members[players[owner] - 1] for owner in owners)
    return FoundDivision(goods_shares(table, owners), '', table.members, table.columns, names, title, lines)


def goods_shares(table: Table[Any, Any], owners: Sequence[int]) -> Tuple[GoodsShare[Any, Any], ...]:
    """What each of those who have bid gets, if `owners` has for each good its player, from 0."""
    players = [(member, row) for member, row in zip(table.members, table.rows) if row is not None]
    shares = []
    for player, (member, row) in enumerate(players):
        got = [good for good, owner in enumerate(owners) if owner == player]
        shares.append(GoodsShare(member, tuple(table.columns[good] for good in got), sum(row[good] for good in got)))
    return tuple(shares)


def fare_division(flag: int, legs: Table[Any, Any], members: Tuple[Any, ...], stops: Sequence[Optional[int]], certificate: str, pays: Sequence[int],
                  money: Money, title: str) -> FareDivision[Any, Any]:
    """The division of a fare from its certificate, and from what each rider pays."""
    riders = [(member, stop - 1) for member, stop in zip(members, stops) if stop is not None]
    from_origin = bids_of(legs)[0]
    shares = tuple(
        FareShare(member, legs.columns[stop], money.exact(fare), money.paid(paid), money.exact(flag + from_origin[stop]))
        for (member, stop), fare, paid in zip(riders, fractions_of(certificate, 'fares'), pays))
    route = tuple(riders[rider][0] for rider in places_in(certificate, 'route'))
    return FareDivision(shares, certificate, members, legs.columns, money.paid(sum(pays)), route, title)


def pair_division(members: Sequence[Any], goods: Tuple[Any, ...], text: str) -> PairDivision[Any, Any]:
    """The division between two members from its text."""
    total, parts = fractions_of(text, 'total')[0], tuple(fractions_of(text, 'shares'))
    first, second = members
    return PairDivision((PairShare(first, parts, total), PairShare(second, tuple(1 - part for part in parts), total)), text, goods, total)

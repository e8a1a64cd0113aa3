"""Verdicts on texts, and audits of divisions that somebody else proposes."""
from __future__ import annotations

from typing import Any, Optional, overload

from ._amounts import Money, whole
from ._audits import FareAudit, GoodsAudit, RentAudit, fare_audit, goods_audit, rent_audit
from ._dividing import fares, rent
from ._divisions import Verdict
from ._names import Given, chosen
from ._reading import Text, bytes_of, judge_of, judged
from ._reasons import explained, why_goods
from ._tables import table_of
from ._types import AnyAmount, Item, Member, NamedBids, Order, Whole


def check(text: Text) -> Verdict:
    """Judge a certificate, also that of an estate.

    Parameters
    ----------
    text : str, bytes or path
        The certificate, or the path of its file.

    Returns
    -------
    Verdict
        If it holds, the text prints a valid case and its best division. Otherwise it has the number of the first rule that is broken.

    Raises
    ------
    Refused
        If the text is no certificate; `line` is its first broken line.
    TypeError
        If it is no text.

    Examples
    --------
    >>> import fairsplit
    >>> division = fairsplit.rent(900, [[600, 300], [500, 400]])
    >>> fairsplit.check(division.text)
    Verdict(holds=True, rule=None)
    """
    data = bytes_of(text)
    return judged(judge_of(data), data)


def check_winner(text: Text) -> Verdict:
    """Judge the text of adjusted winner.

    Parameters
    ----------
    text : str, bytes or path
        The text, or the path of its file.

    Returns
    -------
    Verdict
        If it holds, the text prints a division that is equitable, envy-free and efficient.

    Raises
    ------
    Refused, TypeError
        As for `check`.

    Examples
    --------
    >>> import fairsplit
    >>> division = fairsplit.winner([[700, 300], [600, 400]])
    >>> bool(fairsplit.check_winner(division.text))
    True
    """
    return judged('checkwinner', bytes_of(text))


@overload
def audit_goods(bids: NamedBids[Member, Item, Whole], owners: Any, *, members: Order[Member] = ..., goods: Order[Item] = ...,
                limit: Optional[Whole] = ...) -> GoodsAudit[Member, Item]: ...
@overload
def audit_goods(bids: Any, owners: Any, *, members: Given = ..., goods: Given = ..., limit: Optional[Whole] = ...) -> GoodsAudit[Any, Any]: ...
def audit_goods(bids: Any, owners: Any, *, members: Given = None, goods: Given = None, limit: Optional[Whole] = None) -> GoodsAudit[Any, Any]:
    """Audit a division of goods that somebody proposes.

    Parameters
    ----------
    bids, members, goods
        As for `goods`.
    owners
        The member who is to get each good: a mapping from good to member, or a list in the order of the goods.
    limit : int, optional
        The most steps that the search for a better division may take.

    Returns
    -------
    GoodsAudit
        Whether it is envy-free, envy-free up to one good and Pareto-optimal, each with who or what shows that it is not.

    Raises
    ------
    Void
        If nobody has bid.
    OverLimit
        If the search takes more steps than the limit.
    ValueError
        If an owner is no member, or stands for two.
    Refused, TypeError
        As for `goods`.

    Examples
    --------
    >>> import fairsplit
    >>> audit = fairsplit.audit_goods({'Ada': {'Piano': 700, 'Car': 300}, 'Bo': {'Piano': 600, 'Car': 400}}, {'Piano': 'Bo', 'Car': 'Ada'})
    >>> audit.envy_free, audit.envious, audit.ef1, audit.pareto
    (False, ('Ada', 'Bo', 400), True, True)
    """
    table = table_of(bids, members, goods, 'goods', whole)
    most = None if limit is None else whole(limit)
    with explained(lambda field: why_goods(field, table, most)):
        return goods_audit(table, chosen(owners, table.columns, 'goods', 'list of owners'), most)


@overload
def audit_rent(total: AnyAmount, bids: NamedBids[Member, Item, AnyAmount], rooms: Any, prices: Any, *,
               members: Order[Member] = ...) -> RentAudit[Member, Item]: ...
@overload
def audit_rent(total: AnyAmount, bids: Any, rooms: Any, prices: Any, *, members: Given = ...) -> RentAudit[Any, Any]: ...
def audit_rent(total: Any, bids: Any, rooms: Any, prices: Any, *, members: Given = None) -> RentAudit[Any, Any]:
    """Audit rooms and prices that somebody proposes.

    Parameters
    ----------
    total, bids, members
        As for `rent`.
    rooms
        The room of each member: a mapping from member to room, or a list in the order of the members.
    prices
        The price of each room, exact or in whole cents: a mapping from room to price, or a list in the order of the rooms.

    Returns
    -------
    RentAudit
        Whether the prices add up and are envy-free, whether the rooms are Pareto-optimal, and the best division beside it.

    Raises
    ------
    ValueError
        If a room or a member is unknown, or two members have one room.
    Void, Refused, TypeError
        As for `rent`.

    Examples
    --------
    >>> import fairsplit
    >>> bids = {'Ann': {'Attic': 600, 'Back': 300}, 'Ben': {'Attic': 500, 'Back': 400}}
    >>> audit = fairsplit.audit_rent(900, bids, {'Ann': 'Attic', 'Ben': 'Back'}, {'Attic': 650, 'Back': 250})
    >>> audit.adds_up, audit.envious, audit.pareto
    (True, ('Ann', 'Ben', Fraction(100, 1)), True)
    """
    money = Money()
    amount = money(total)
    table = table_of(bids, members, None, 'rooms', money)
    return rent_audit(amount, table, rooms, prices, money, rent(total, bids, members=members))


def audit_fares(flag: AnyAmount, legs: Any, bids: Any, fares_paid: Any, *, members: Given = None, places: Given = None) -> FareAudit[Any, Any]:
    """Audit fares that somebody proposes.

    Parameters
    ----------
    flag, legs, bids, members, places
        As for `fares`.
    fares_paid
        What each rider would pay, exact or in whole cents: a mapping from rider to fare, or a list in the order of the riders.

    Returns
    -------
    FareAudit
        Whether the fares add up, whether any riders together pay more than they would without the others, and whether these are the Shapley shares.

    Raises
    ------
    ValueError
        If a rider is unknown.
    Void, Refused, TypeError
        As for `fares`.

    Examples
    --------
    >>> import fairsplit
    >>> audit = fairsplit.audit_fares(300, [[1000, 1500], [0, 700], [900, 0]], [1, 2], [1400, 600])
    >>> audit.adds_up, audit.core, audit.overcharged, audit.excess
    (True, False, (1,), Fraction(100, 1))
    """
    money = Money()
    amount = money(flag)
    return fare_audit(amount, fares_paid, money, fares(flag, legs, bids, members=members, places=places))


# The name of the library's command for the same audit.
weigh = audit_goods

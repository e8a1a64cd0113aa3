"""Certificates as divisions: judged first, and read then."""
from __future__ import annotations

import os
from typing import Any, Callable, Dict, Iterable, Optional, Tuple, Union

from ._amounts import Money
from ._commands import title_of
from ._divisions import (FareDivision, GoodsDivision, PairDivision, RentDivision, Verdict, fare_division, goods_division, pair_division,
                         rent_division)
from ._errors import BrokenRule, error_of
from ._library import ROOM, run_on_bytes
from ._names import Given, Names, named
from ._solving import fare_cents, rent_cents
from ._tables import Table
from ._texts import number_of, numbers_of, words_of

Text = Union[str, bytes, bytearray, memoryview, 'os.PathLike[str]']
AnyDivision = Union[RentDivision[Any, Any], GoodsDivision[Any, Any], FareDivision[Any, Any], PairDivision[Any, Any]]
PAIR = b'fairsplit pair '
ESTATE = b'fairsplit 2\n'


def bytes_of(text: Text) -> bytes:
    """The bytes of a text, or of the file at a path. One byte more than a certificate may have is enough: what comes after it changes no verdict."""
    if isinstance(text, str):
        return text.encode('utf-8', 'surrogatepass')
    if isinstance(text, (bytes, bytearray, memoryview)):
        return bytes(text)
    if isinstance(text, os.PathLike):
        with open(text, 'rb') as file:
            return file.read(ROOM + 1)
    raise TypeError(f'{type(text).__name__} is no text: give a str, bytes, or the path of a file')


def judged(command: str, text: bytes) -> Verdict:
    """The verdict of a judge on a text."""
    status, line = run_on_bytes(command, text)
    said = line.decode().strip()
    if status == 0:
        return Verdict(True)
    if status == 1:
        return Verdict(False, int(said.split()[1]))
    raise error_of(status, said)


def judge_of(text: bytes) -> str:
    """The judge of a certificate: those of estates have one of their own."""
    return 'estate_check' if text.startswith(ESTATE) else 'check'


def _members(given: Given, who: Iterable[int]) -> Names:
    """The names of all members, of whom those with these numbers have bid: those that are given, or the numbers from 1."""
    least = max(who)
    names: Names = tuple(range(1, least + 1)) if given is None else tuple(given)
    if len(names) < least:
        raise ValueError(f'{len(names)} names, and the certificate has a member {least}')
    return names


def _rent(text: str, members: Given, rooms: Given, title: Optional[str]) -> RentDivision[Any, Any]:
    values, total = numbers_of(text, 'values'), number_of(text, 'rent')
    table: Table[Any, Any] = Table(named(members, len(values), 'members'), named(rooms, len(values), 'rooms'), tuple(values))
    return rent_division(table, text, rent_cents(total, values), Money.like(total), title_of(title, 'rent'))


def _goods(text: str, members: Given, goods: Given, title: Optional[str]) -> GoodsDivision[Any, Any]:
    values, (who,) = numbers_of(text, 'values'), numbers_of(text, 'who')
    names = _members(members, who)
    rows = dict(zip(who, values))
    table: Table[Any, Any] = Table(names, named(goods, number_of(text, 'goods'), 'goods'), tuple(rows.get(number) for number in range(1, len(names) + 1)))
    return goods_division(table, text, title_of(title, 'goods'))


def _fares(text: str, members: Given, places: Given, title: Optional[str]) -> FareDivision[Any, Any]:
    legs, (who,), (at,) = numbers_of(text, 'legs'), numbers_of(text, 'who'), numbers_of(text, 'at')
    flag, names, columns = number_of(text, 'flag'), _members(members, who), named(places, len(legs) - 1, 'places')
    stops = dict(zip(who, at))
    table: Table[Any, Any] = Table(('origin', *columns), columns, tuple(legs))
    return fare_division(flag, table, names, [stops.get(number) for number in range(1, len(names) + 1)], text, fare_cents(flag, legs, who, at),
                         Money.like(flag), title_of(title, 'fares'))


def _pair(text: str, members: Given, goods: Given, _: Optional[str]) -> PairDivision[Any, Any]:
    (who,) = numbers_of(text, 'who')
    names = _members(members, who)
    return pair_division([names[number - 1] for number in who], named(goods, number_of(text, 'goods'), 'goods'), text)


READERS: Dict[str, Tuple[str, Callable[[str, Given, Given, Optional[str]], AnyDivision]]] = {
    'rent': ('rooms', _rent), 'goods': ('goods', _goods),
    'fares': ('places', _fares), 'pair': ('goods', _pair)
}


def read(text: Text, *, members: Given = None, rooms: Given = None, goods: Given = None, places: Given = None,
         title: Optional[str] = None) -> AnyDivision:
    """Read a certificate, or the text of adjusted winner, as a division. The proved judge reads it first.

    Parameters
    ----------
    text : str, bytes or path
        The text, or the path of its file.
    members : iterable, optional
        The names of all members, also of those who have not bid; without them they are the numbers of the text.
    rooms, goods, places : iterable, optional
        The names of what the text is about.
    title : str, optional
        The title of the report, at most 40 bytes.

    Returns
    -------
    RentDivision, GoodsDivision, FareDivision or PairDivision
        The division that the text prints, with amounts in cents.

    Raises
    ------
    BrokenRule
        If a rule does not hold, so that the text doesn't show that its division is the best one.
    Refused
        If the text is no certificate.
    ValueError
        If there are too few names, or too many, or they name what the text hasn't.
    TypeError
        If it is no text.

    Examples
    --------
    >>> import fairsplit
    >>> text = fairsplit.rent(900, [[600, 300], [500, 400]]).text
    >>> fairsplit.read(text, members=['Ann', 'Ben'], rooms=['Attic', 'Back'])['Ben'].pays
    350
    """
    data = bytes_of(text)
    is_pair = data.startswith(PAIR)
    verdict = judged('checkwinner' if is_pair else judge_of(data), data)
    if verdict.rule is not None:
        raise BrokenRule(verdict.rule)
    said = data.decode()
    kind = 'pair' if is_pair else words_of(said, 'kind')[0]
    word, reader = READERS[kind]
    items = {'rooms': rooms, 'goods': goods, 'places': places}
    for other, names in items.items():
        if names is not None and other != word:
            raise ValueError(f'{other}= names nothing in a text of {kind}')
    return reader(said, members, items[word], title)

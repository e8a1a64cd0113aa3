"""What all divisions have in common: shares by member, as objects, as dictionaries, as a frame and as a picture."""
from __future__ import annotations

from dataclasses import fields
from decimal import Decimal
from fractions import Fraction
from importlib import import_module
from typing import Any, Dict, Generic, Hashable, Iterator, List, Sequence, Tuple, TypeVar

from ._names import place_of
from ._showing import envy_picture, html_table

Share = TypeVar('Share')


def plain(value: Any) -> Any:
    """A value as JSON can have it: exact amounts and names of other sorts become texts."""
    if isinstance(value, (list, tuple)):
        return [plain(part) for part in value]
    return value if value is None or isinstance(value, (bool, int, float, str)) else str(value)


def _columns(row: Dict[str, Any]) -> Dict[str, Any]:
    """A share as the row of a frame: exact amounts become numbers to compute with, and stand beside once more as they are."""
    exact = {name: value for name, value in row.items() if isinstance(value, (Fraction, Decimal))}
    return {**row, **{name: float(value) for name, value in exact.items()}, **{f'{name}_exact': value for name, value in exact.items()}}


class Division(Generic[Share]):
    """A division: iterate over its shares, or ask for that of a member, as in `division['Ann']`.

    Attributes
    ----------
    shares : tuple
        One share a member who has bid.
    text : str
        The library's text: a certificate, or the text of adjusted winner.
    """

    shares: Tuple[Share, ...]
    text: str

    def __iter__(self) -> Iterator[Share]:
        return iter(self.shares)

    def __len__(self) -> int:
        return len(self.shares)

    def __getitem__(self, member: Hashable) -> Share:
        """The share of a member. A name that nobody has, or that two have, is a KeyError."""
        try:
            return self.shares[place_of(member, self._names(), 'members with a share')]
        except ValueError as error:
            raise KeyError(str(error)) from None

    def _names(self) -> List[Hashable]:
        """The members, in the order of the shares."""
        return [row['member'] for row in self._rows()]

    def _rows(self) -> List[Dict[str, Any]]:
        """The shares as dictionaries, with values as they are."""
        return [{field.name: getattr(share, field.name) for field in fields(share)} for share in self.shares]

    def _envy(self) -> Sequence[Sequence[Any]]:
        """Who envies whom, if the division says so."""
        return ()

    def records(self) -> List[Dict[str, Any]]:
        """The shares as dictionaries that JSON can write: exact amounts are texts, such as '1101/2'."""
        return [{name: plain(value) for name, value in row.items()} for row in self._rows()]

    def to_frame(self) -> Any:
        """The shares as a pandas frame by member, with numbers that pandas computes with. Exact ones stand beside, in a column such as `price_exact`."""
        pandas: Any = import_module('pandas')
        return pandas.DataFrame([_columns(row) for row in self._rows()]).set_index('member')

    def _repr_html_(self) -> str:
        """The shares as a table, with a picture of who envies whom."""
        return html_table(self._rows()) + envy_picture(self._names(), self._envy())

"""What type checkers know of the forms of bids. `Member` and `Item` are the types of your names."""
from __future__ import annotations

from decimal import Decimal
from typing import Any, Hashable, Iterable, Mapping, Optional, Sequence, SupportsIndex, TypeVar, Union

from typing import Protocol

from ._tables import Table

Member = TypeVar('Member', bound=Hashable)
Item = TypeVar('Item', bound=Hashable)
Number = TypeVar('Number')


class Frame(Protocol):
    """A pandas frame, which has a type for its names only where its stubs are installed."""

    def itertuples(self, index: bool = ..., name: Any = ...) -> Any:
        """The rows."""


class Array(Protocol):
    """A NumPy array."""

    @property
    def ndim(self) -> int:
        """How many dimensions it has."""

    def tolist(self) -> Any:
        """The rows."""


# A whole number, and an amount: NumPy's whole numbers are such, and a float is none.
Whole = SupportsIndex
AnyAmount = Union[SupportsIndex, Decimal]
NamedBids = Union[Table[Member, Item], Mapping[Member, Optional[Mapping[Item, Number]]]]
NamedRows = Mapping[Member, Optional[Sequence[Number]]]
Rows = Union[Array, Sequence[Optional[Sequence[Number]]]]
Order = Optional[Iterable[Member]]

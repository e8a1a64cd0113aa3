"""Numbers that callers hand over: whole ones, amounts of money, and gaps in frames."""
from __future__ import annotations

import operator
from decimal import Decimal
from fractions import Fraction
from numbers import Real
from typing import Any, Optional, Union

# An amount as callers give it, and as they get it back: whole cents, or a Decimal with at most two places.
Amount = Union[int, Decimal]


def whole(number: Any) -> int:
    """A whole number, as points and counts are. A float is a TypeError, even 300.0, and so is a bool, also NumPy's."""
    if isinstance(number, (bool, float, str)) or type(number).__name__ in ('bool', 'bool_'):
        raise TypeError(f'{number!r} is no whole number: give an int')
    try:
        return operator.index(number)
    except TypeError:
        raise TypeError(f'{number!r} is no whole number: give an int') from None


def cents(amount: Decimal) -> int:
    """The cents of an amount with at most two places, exact whatever precision the caller's context has."""
    if not amount.is_finite():
        raise ValueError(f'{amount} is no amount')
    found = Fraction(amount) * 100
    if found.denominator != 1:
        raise ValueError(f'{amount} has more than two places')
    return found.numerator


class Money:
    """Reads amounts, and gives back what is due in the same unit: whole cents (int), or Decimal. One call has amounts of one sort only."""

    def __init__(self) -> None:
        self.sort: Optional[type] = None

    def __call__(self, amount: Any) -> int:
        sort = Decimal if isinstance(amount, Decimal) else int
        if self.sort not in (None, sort):
            raise TypeError('give all amounts in whole cents (int), or all of them as Decimal')
        self.sort = sort
        return cents(amount) if sort is Decimal else whole(amount)

    @classmethod
    def like(cls, amount: Amount) -> Money:
        """The unit of an amount."""
        found = cls()
        found(amount)
        return found

    @property
    def unit(self) -> int:
        """How many cents the caller's unit has."""
        return 100 if self.sort is Decimal else 1

    def exact(self, amount: Union[int, Fraction]) -> Fraction:
        """Cents in the caller's unit."""
        return Fraction(amount) / self.unit

    def paid(self, amount: int) -> Amount:
        """Whole cents as the caller gives amounts."""
        if self.sort is not Decimal:
            return amount
        return Decimal((amount < 0, tuple(map(int, str(abs(amount)))), -2))  # exact whatever precision the caller's context has

    def cents_of(self, amount: Any) -> Fraction:
        """The exact cents of an amount that need not be whole, such as the price of a room: an int, a Fraction or a Decimal."""
        if isinstance(amount, Decimal):
            if not amount.is_finite():
                raise ValueError(f'{amount} is no amount')
            return Fraction(amount) * self.unit
        return (amount if isinstance(amount, Fraction) else Fraction(whole(amount))) * self.unit


def is_missing(entry: Any) -> bool:
    """Whether an entry is a gap: None, or what frames and arrays have in place of a number that nobody gave."""
    if entry is None or type(entry).__name__ in ('NAType', 'NaTType'):
        return True
    return entry.is_nan() if isinstance(entry, Decimal) else isinstance(entry, Real) and bool(entry != entry)


def unfloated(entry: Any) -> Any:
    """The whole number that a float of a frame stands for: a gap in a column turns all its whole numbers into floats."""
    return int(entry) if isinstance(entry, Real) and hasattr(entry, 'is_integer') and not isinstance(entry, Fraction) and entry.is_integer() else entry

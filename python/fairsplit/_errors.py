"""Why there is no division, and no verdict."""
from __future__ import annotations

from typing import TYPE_CHECKING, Any, Hashable, Optional, Tuple

if TYPE_CHECKING:
    from ._divisions import FoundDivision


class FairsplitError(Exception):
    """The base of all that the library refuses.

    What an error is made from is in `args`, so that it can be pickled and come from another process.

    Attributes
    ----------
    status : int
        The status of the command line.
    """

    status = 0


class Void(FairsplitError):
    """Bids are missing: of a rent any, of goods and fares all.

    Attributes
    ----------
    missing : tuple
        The members who have not bid, as you named them.
    """

    status = 1

    def __init__(self, missing: Tuple[Hashable, ...]):
        super().__init__(missing)
        self.missing = missing

    def __str__(self) -> str:
        return f'no bid from {", ".join(map(str, self.missing))}'


class OverLimit(FairsplitError):
    """The search ends without a certificate: it takes more steps than its limit, or there is no room for the text. Try a greater `steps=`, up to
    1,000,000 (a greater `limit=`, up to 200,000), or put small goods together.

    Attributes
    ----------
    limit : int
        The most steps that the search was allowed.
    best : FoundDivision or None
        The best division that the search has found, which nothing proves to be the best one. None if you gave `limit=`, and of an audit.
    said : str
        The line of the library, such as 'step limit 20000'.
    """

    status = 1

    def __init__(self, limit: int, best: Optional[FoundDivision[Any, Any]] = None, said: Optional[str] = None):
        self.limit, self.best, self.said = limit, best, f'step limit {limit}' if said is None else said
        super().__init__(limit, best, self.said)

    def __str__(self) -> str:
        is_over = self.said.startswith('step limit')
        why = f'the search takes more than {self.limit} steps' if is_over else f'the search shows no division to be the best one ({self.said})'
        return why if self.best is None else f'{why}; `best` is the best division that it found'


class NotTwo(FairsplitError):
    """Adjusted winner wants exactly two members who have bid."""

    status = 1

    def __str__(self) -> str:
        return 'adjusted winner wants exactly two members who have bid'


class BrokenRule(FairsplitError, ValueError):
    """A text that is to be read breaks a rule, so it doesn't show that its division is the best one.

    Attributes
    ----------
    rule : int
        The number of the first rule that does not hold. docs/CERTIFICATES.md lists them.
    """

    status = 1

    def __init__(self, rule: int):
        super().__init__(rule)
        self.rule = rule

    def __str__(self) -> str:
        return f'rule {self.rule} does not hold, so the text does not show that its division is the best one'


class OutOfMemory(FairsplitError):
    """Memory ran out inside the library."""

    status = 9

    def __str__(self) -> str:
        return 'memory ran out'


class Refused(FairsplitError, ValueError):
    """The input is no case, or no text of the grammar.

    Attributes
    ----------
    field : str or None
        The first field of a case that breaks its rule, such as 'bids'.
    line : int or None
        The first broken line of a text, from 1. Both are None if the input is refused as a whole.
    said : str
        The line of the command line, such as 'refused: field bids'.
    reason : str or None
        What is wrong, with names and numbers, such as "Ben's bids add up to 901, not 900". It is what the error says.
    """

    def __init__(self, status: int, field: Optional[str], line: Optional[int], said: str, reason: Optional[str] = None):
        super().__init__(status, field, line, said, reason)
        self.status, self.field, self.line, self.said, self.reason = status, field, line, said, reason

    def __str__(self) -> str:
        return self.reason or self.said

    @classmethod
    def of_field(cls, field: str) -> Refused:
        """The refusal of a field, as the library says it."""
        return cls(3, field, None, f'refused: field {field}')

    def because(self, reason: Optional[str]) -> Refused:
        """The same refusal, with a reason."""
        return Refused(self.status, self.field, self.line, self.said, reason)


def error_of(status: int, said: str, members: Tuple[Hashable, ...] = ()) -> FairsplitError:
    """The error for a status and a line of the library. `members` names the members whose numbers the line has."""
    words = said.split()
    if status == 9:
        return OutOfMemory()
    if words[0] == 'void:':
        return Void(tuple(members[int(word) - 1] for word in words[1:]))
    if words[:2] == ['step', 'limit']:
        return OverLimit(int(words[2]))
    if words == ['not', 'two']:
        return NotTwo()
    field = words[2] if words[:2] == ['refused:', 'field'] else None
    line = int(words[2]) if words[:2] == ['refused:', 'line'] else None
    return Refused(status, field, line, said)

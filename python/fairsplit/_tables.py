"""What callers hand over, as rows of whole numbers with names: mappings of mappings, lists, NumPy arrays, pandas frames and tables. Neither NumPy nor
pandas is imported: what looks like theirs is taken.
"""
from __future__ import annotations

from dataclasses import dataclass
from typing import Any, Callable, Generic, Hashable, List, Mapping, Optional, Sequence, Tuple, TypeVar

from ._amounts import is_missing, unfloated
from ._names import Given, Names, by_name, called, is_counted, is_frame, labelled, listed, named, ordered, place_of, places_of

Row = Optional[List[int]]
Number = Callable[[Any], int]
Member = TypeVar('Member', bound=Hashable)
Item = TypeVar('Item', bound=Hashable)


@dataclass(frozen=True)
class Table(Generic[Member, Item]):
    """A row of numbers for each member, or None if they have not bid, and a column for each room, good or place.

    Attributes
    ----------
    members : tuple
        The names of the rows.
    columns : tuple
        The names of the columns.
    rows : tuple
        For each member a list of numbers, or None.
    """

    members: Tuple[Member, ...]
    columns: Tuple[Item, ...]
    rows: Tuple[Optional[Sequence[Any]], ...]


def bids_of(table: Table[Any, Any]) -> List[Sequence[int]]:
    """The rows of those who have bid."""
    return [row for row in table.rows if row is not None]


def _of_frame(frame: Any, members: Given, columns: Given) -> Tuple[Optional[Names], Optional[Names], List[Any]]:
    """The labels of a frame, except those that only count where names are given, and its rows."""
    rows = [list(row) for row in frame.itertuples(index=False, name=None)]
    index = None if members is not None and is_counted(frame.index) else tuple(frame.index)
    heads = None if columns is not None and is_counted(frame.columns) else tuple(frame.columns)
    return index, heads, rows


def _opened(bids: Any, members: Given, columns: Given) -> Tuple[Optional[Names], Optional[Names], List[Any]]:
    """The names that bids have of their own, of rows and of columns, and their rows as they are."""
    if is_frame(bids):
        return _of_frame(bids, members, columns)
    if isinstance(bids, Table):
        return bids.members, bids.columns, list(bids.rows)
    found = labelled(bids)
    if isinstance(found, Mapping):
        return tuple(found), None, list(found.values())
    return None, None, listed(bids, 'list of rows')


def _entries(row: Any) -> Any:
    """A row as a mapping, as a list, or as None if there is no number in it."""
    if row is None:
        return None
    found = labelled(row)
    if not isinstance(found, Mapping):
        found = listed(found, 'row of numbers')
    entries = list(found.values() if isinstance(found, Mapping) else found)
    return None if entries and all(map(is_missing, entries)) else found


def _columns(members: Names, rows: Sequence[Any], names: Given, word: str) -> Names:
    """The names of columns that have none of their own: those that are given, or those in the rows."""
    bids = [(member, row) for member, row in zip(members, rows) if row is not None]
    if not bids:
        return () if names is None else tuple(names)
    with_names = [(member, row) for member, row in bids if isinstance(row, Mapping)]
    if not with_names:
        return named(names, len(bids[0][1]), word)
    if names is not None:
        return tuple(names)
    if len(with_names) != len(bids):
        one, other = (called(next(member for member, row in bids if isinstance(row, Mapping) == has_names), 'member') for has_names in (True, False))
        raise ValueError(f'the bids of {one} have names, and those of {other} have none: say their order by {word}=')
    return tuple(with_names[0][1])


def _in_order(member: Hashable, row: Any, columns: Names, word: str) -> Any:
    """The entries of a row in the order of the columns."""
    if not isinstance(row, Mapping):
        return row
    try:
        return by_name(row, columns, word)
    except ValueError as error:
        raise ValueError(f'{called(member, "member")}: {error}') from None


def _numbers(member: str, row: Any, columns: Names, word: str, number: Number) -> Row:
    """The numbers of one member."""
    found = []
    for place, entry in enumerate(row):
        where = f'{member}, {called(columns[place], word[:-1]) if place < len(columns) else f"number {place + 1}"}'
        if is_missing(entry):
            raise ValueError(f'{where}: there is no number; who has not bid has none at all')
        try:
            found.append(number(entry))
        except (TypeError, ValueError) as error:
            raise (TypeError if isinstance(error, TypeError) else ValueError)(f'{where}: {error}') from None
    return found


def table_of(bids: Any, members: Given, columns: Given, word: str, number: Number, row_word: str = 'member') -> Table[Any, Any]:
    """Bids in any of the forms, as a table. Names that are given are those of rows and columns without any; for others they say the order."""
    index, heads, given = _opened(bids, members, columns)
    rows = [_entries(row) for row in given]
    if index is None:
        index = named(members, len(rows), 'members')
    else:
        index, places = ordered(members, index, 'members')
        rows = [rows[place] for place in places]
    if heads is None:
        heads = _columns(index, rows, columns, word)
        rows = [_in_order(member, row, heads, word) for member, row in zip(index, rows)]
    else:
        width = len(heads)
        heads, places = ordered(columns, heads, word)
        rows = [row if row is None or len(row) != width else [row[place] for place in places] for row in rows]
    if (is_frame(bids) or hasattr(bids, 'dtype')) and any(row is None or any(map(is_missing, row)) for row in rows):
        rows = [row and [unfloated(entry) for entry in row] for row in rows]
    found = (None if row is None else _numbers(called(member, row_word), row, heads, word, number) for member, row in zip(index, rows))
    return Table(index, heads, tuple(found))


def legs_of(legs: Any, places: Given, number: Number) -> Table[Any, Any]:
    """A table of legs: the row from the origin, and then the rows from the places, in the order of the columns if the rows have names."""
    has_names = not is_counted(legs.index) if is_frame(legs) else isinstance(legs, Table) or isinstance(labelled(legs), Mapping)
    table = table_of(legs, None, places, 'places', number, 'row')
    if not has_names or len(table.members) != len(table.columns) + 1:
        return table
    origins = [name for name in table.members if name not in table.columns]
    if len(origins) != 1:
        raise ValueError(f'the rows of legs are those of {list(table.members)}: give one from the origin, and one from each of {list(table.columns)}')
    order = [place_of(origins[0], table.members, 'rows of legs'), *places_of(table.columns, table.members, 'rows of legs')]
    return Table(tuple(table.members[row] for row in order), table.columns, tuple(table.rows[row] for row in order))

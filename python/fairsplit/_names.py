"""Names decide: what has a name goes by its name, and never by where it stands."""
from __future__ import annotations

from typing import AbstractSet, Any, Hashable, Iterable, List, Mapping, Optional, Sequence, Tuple

Names = Tuple[Hashable, ...]
Given = Optional[Iterable[Hashable]]
# What has no order, or is a text and no list of numbers.
_NO_ROWS = (str, bytes, bytearray, memoryview, AbstractSet)


def called(name: Hashable, word: str) -> str:
    """A name as a message says it: a number or anything else that is no text stands behind the word for what it is."""
    return name if isinstance(name, str) else f'{word} {name!r}'


def named(names: Given, count: int, word: str) -> Names:
    """So many names: those that are given, or the numbers from 1. A name may occur twice."""
    found = tuple(range(1, count + 1) if names is None else names)
    if len(found) != count:
        raise ValueError(f'{len(found)} names for {count} {word}')
    return found


def place_of(name: Hashable, labels: Sequence[Hashable], word: str) -> int:
    """Where a name stands among labels. A name that is none of them, or that two have, is a ValueError."""
    found = [place for place, label in enumerate(labels) if label == name]
    if len(found) != 1:
        raise ValueError(f'more than one of the {word} is {name!r}' if found else f'{name!r} is none of the {word} {list(labels)}')
    return found[0]


def places_of(names: Iterable[Hashable], labels: Sequence[Hashable], word: str) -> List[int]:
    """Where each of these names stands among labels."""
    return [place_of(name, labels, word) for name in names]


def ordered(names: Given, labels: Sequence[Hashable], word: str) -> Tuple[Names, List[int]]:
    """The names of what has labels already, and where the entry of each stands: in its own order, or in that of names that are given, which then
    have to be the labels.
    """
    own = tuple(labels)
    wanted = own if names is None else tuple(names)
    if wanted == own:
        return own, list(range(len(own)))
    places = places_of(wanted, own, word)
    for place, name in enumerate(own):
        if places.count(place) != 1:
            raise ValueError(f'{name!r} has bid, and is {"twice" if place in places else "not"} among the {word} {list(wanted)}')
    return wanted, places


def labelled(entries: Any) -> Any:
    """What has a label for each entry, as a mapping: a mapping itself, a pandas series, or a row of an array with fields. All else stays as it is."""
    fields = getattr(getattr(entries, 'dtype', None), 'names', None)
    if fields and entries.shape == ():
        return dict(zip(fields, entries.item()))
    if isinstance(entries, Mapping) or is_frame(entries) or not (hasattr(entries, 'index') and hasattr(entries, 'items')):
        return entries
    found = dict(entries.items())
    if len(found) != len(entries):
        raise ValueError('a series has a label twice')
    return found


def listed(entries: Any, what: str) -> List[Any]:
    """The entries of what has an order. A set, a text, or what has names has none, or another than it seems, and is a TypeError."""
    if isinstance(entries, _NO_ROWS) or hasattr(entries, 'items') or hasattr(entries, 'columns'):
        raise TypeError(f'{entries!r} is no {what}: give a list')
    try:
        return list(entries)
    except TypeError:
        raise TypeError(f'{entries!r} is no {what}: give a list') from None


def is_frame(bids: Any) -> bool:
    """Whether this is a pandas frame."""
    return hasattr(bids, 'itertuples')


def is_counted(labels: Any) -> bool:
    """Whether the labels of a frame are only the numbers from 0 that pandas gives where nobody has named anything."""
    return type(labels).__name__ == 'RangeIndex' and (labels.start, labels.step) == (0, 1)


def by_name(entries: Mapping[Any, Any], names: Names, word: str) -> List[Any]:
    """What is said for each of these names. They have to be the names of the entries, all of them and no others."""
    for name in entries:
        if name not in names:
            raise ValueError(f'{name!r} is none of the {word} {list(names)}')
    for name in names:
        if name not in entries:
            raise ValueError(f'nothing is said of {name!r}')
        place_of(name, names, word)
    return [entries[name] for name in names]


def chosen(entries: Any, names: Names, word: str, what: str) -> List[Any]:
    """What is said for each of these names: by its name, or in their order."""
    entries = labelled(entries)
    if isinstance(entries, Mapping):
        return by_name(entries, names, word)
    found = listed(entries, what)
    if len(found) != len(names):
        raise ValueError(f'{len(found)} entries for {len(names)} {word}')
    return found

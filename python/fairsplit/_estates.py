"""The search for estates: it divides what the specified search gives up, and shows by a certificate of its own that the division is the best one.

A search runs in slices, and between two of them Python comes to its signals, so Ctrl-C ends it. Its state lies in memory of its own, which the system
gives when it begins and takes back when it ends, however that is.
"""
from __future__ import annotations

import ctypes
from dataclasses import dataclass
from typing import Any, Tuple

from ._library import ROOM, Numbers, fresh_memory, library
from ._stack import with_stack

# How much room a search needs, and how many steps a slice has: about a twentieth of a second.
SPACE = 16_000_000
SLICE = 100
GOES_ON = 10


@dataclass(frozen=True)
class Ended:
    """What a search comes to: a status, a text, by good the player who gets it (from 1), and how many steps the search made. With status 0 that division
    is the best one, and otherwise the best that was found.
    """

    status: int
    text: str
    owners: Tuple[int, ...]
    steps: int


class _Search:
    """A search under way."""

    def __init__(self, goods: int, limit: int, who: Numbers, values: Numbers) -> None:
        self._memory = fresh_memory(SPACE + ROOM)
        self._space = (ctypes.c_uint8 * SPACE).from_buffer(self._memory)
        self._text = (ctypes.c_uint8 * ROOM).from_buffer(self._memory, SPACE)
        self._goods, self._limit, self._who, self._values = goods, limit, who, values
        self._owners = (ctypes.c_uint8 * goods)()
        self._reached, self._size = ctypes.c_uint32(), ctypes.c_size_t()

    def __enter__(self) -> _Search:
        return self

    def __exit__(self, *_: Any) -> None:
        del self._space, self._text
        self._memory.close()

    def _advance(self) -> int:
        """The status after so many more steps, in this thread."""
        words = [ctypes.c_uint32(number) for number in (self._goods, self._limit, SLICE)]
        lists = [part for numbers in (self._who, self._values) for part in (numbers, ctypes.c_size_t(len(numbers)))]
        return int(library.fair_estate(*words, *lists, self._space, ctypes.c_size_t(SPACE), self._owners, ctypes.c_size_t(self._goods),
                                       ctypes.byref(self._reached), self._text, ctypes.c_size_t(ROOM), ctypes.byref(self._size)))

    def end(self) -> Ended:
        """What the search comes to, slice by slice."""
        status = GOES_ON
        while status == GOES_ON:
            status = with_stack(self._advance)
        return Ended(status, ctypes.string_at(self._text, self._size.value).decode(), tuple(self._owners), self._reached.value)


def run_estate(goods: int, limit: int, who: Numbers, values: Numbers) -> Ended:
    """The end of a search for the best division of so many goods, of at most so many steps. `who` has the numbers of those who have bid, rising from 1, and
    `values` their points, one row after another.
    """
    with _Search(goods, limit, who, values) as search:
        return search.end()

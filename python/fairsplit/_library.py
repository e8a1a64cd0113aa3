"""The shared object: its functions take bytes or numbers, and give a status and bytes.

A call lets go of the interpreter's lock, and the library is thread-safe, so calls in several threads run side by side.
"""
from __future__ import annotations

import ctypes
import mmap
import os
import threading
from pathlib import Path
from typing import Any, List, Tuple, Union

from ._stack import with_stack

OBJECT = 'libfairsplit.so.1'
COMMANDS = ('check', 'checkwinner', 'solve', 'report', 'weigh', 'winner')
JUDGES_OF_ESTATES = ('estate_check',)
SOLVERS = ('rent', 'goods', 'fares', 'rent_cents', 'fares_cents', 'estate')
# No certificate has more bytes, and the system gives a page of the buffer only when it is written to.
ROOM = 4_000_000

_here = threading.local()

# Whole numbers of one width, as C has them.
Numbers = Union['ctypes.Array[ctypes.c_uint32]', 'ctypes.Array[ctypes.c_uint8]', 'ctypes.Array[ctypes.c_int64]']
Lists = List[Numbers]


def _path() -> str:
    """The shared object: that of the variable FAIRSPLIT_LIBRARY, or of this package, or in a checkout the one that include/build made."""
    here = Path(__file__).resolve()
    beside = here.with_name(OBJECT)
    return os.environ.get('FAIRSPLIT_LIBRARY') or str(beside if beside.exists() else here.parents[2] / 'include' / 'out' / OBJECT)


def _load() -> ctypes.CDLL:
    """The shared object, and what its functions take and answer."""
    loaded = ctypes.CDLL(_path())
    for name in COMMANDS + JUDGES_OF_ESTATES:
        function = getattr(loaded, f'fair_{name}')
        function.restype = ctypes.c_uint8
        function.argtypes = [ctypes.c_char_p, ctypes.c_size_t, ctypes.c_void_p, ctypes.c_size_t, ctypes.POINTER(ctypes.c_size_t)]
    for name in SOLVERS:
        getattr(loaded, f'fair_{name}').restype = ctypes.c_uint8
    return loaded


library = _load()


def fresh_memory(count: int) -> mmap.mmap:
    """So many bytes from the system. A process that is forked gets a copy of them, and not the same memory."""
    return mmap.mmap(-1, count, flags=mmap.MAP_PRIVATE | mmap.MAP_ANONYMOUS)


def _buffer() -> Any:
    """This thread's buffer for answers."""
    if not hasattr(_here, 'buffer'):
        _here.memory = fresh_memory(ROOM)
        _here.buffer = (ctypes.c_char * ROOM).from_buffer(_here.memory)
    return _here.buffer


def _call(name: str, data: bytes) -> Tuple[int, bytes]:
    """The answer of a function of the library, in this thread."""
    function, text, size = getattr(library, f'fair_{name}'), _buffer(), ctypes.c_size_t()
    status = function(data, len(data), text, ROOM, ctypes.byref(size))
    if size.value <= ROOM:
        return status, ctypes.string_at(text, size.value)
    text = ctypes.create_string_buffer(size.value)
    status = function(data, len(data), text, len(text), ctypes.byref(size))
    return status, text.raw[:size.value]


def _call_on_numbers(name: str, numbers: List[int], lists: Lists) -> Tuple[int, bytes, int]:
    """The answer of a solver, in this thread."""
    text, size = _buffer(), ctypes.c_size_t()
    words: List[Any] = [ctypes.c_uint32(number) for number in numbers]
    for numbered in lists:
        words += [numbered, ctypes.c_size_t(len(numbered))]
    status = getattr(library, f'fair_{name}')(*words, text, ctypes.c_size_t(ROOM), ctypes.byref(size))
    return status, ctypes.string_at(text, min(size.value, ROOM)), size.value


def run(name: str, data: Union[bytes, bytearray, memoryview]) -> Tuple[int, bytes]:
    """Run one of the library's commands on bytes.

    Parameters
    ----------
    name : str
        A command that reads an input: 'check', 'checkwinner', 'solve', 'report', 'weigh' or 'winner'. `solve` and `report` have one worker.
    data : bytes
        What the command reads.

    Returns
    -------
    tuple of int and bytes
        The command's status, and what it writes.

    Raises
    ------
    ValueError
        If it is none of these commands.
    TypeError
        If the input is not bytes.

    Examples
    --------
    >>> run('check', b'hello')
    (3, b'refused: line 1\\n')
    """
    if name not in COMMANDS:
        raise ValueError(f'{name!r} is none of {", ".join(COMMANDS)}')
    if not isinstance(data, (bytes, bytearray, memoryview)):
        raise TypeError(f'a command reads bytes, and not {type(data).__name__}')
    return run_on_bytes(name, bytes(data))


def run_on_bytes(name: str, data: bytes) -> Tuple[int, bytes]:
    """What a function that reads bytes answers: its status, and its text."""
    return with_stack(lambda: _call(name, data))


def run_on_numbers(name: str, numbers: List[int], lists: Lists) -> Tuple[int, bytes, int]:
    """What a solver answers to numbers, and to lists that it reads or fills: its status, its text, and how many amounts or bytes it tells."""
    return with_stack(lambda: _call_on_numbers(name, numbers, lists))

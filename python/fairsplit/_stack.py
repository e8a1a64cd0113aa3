"""Enough stack for the library. A thread that has too little of it waits for one of the library's own, which the system starts with a stack of its size:
no setting of the process is touched, and no lock is held that a fork could leave locked.
"""
from __future__ import annotations

import ctypes
import threading
from typing import Any, Callable, List, TypeVar

# The library needs 512 kB of stack; this leaves as much for Python.
LEAST_STACK = 1 << 20
NEW_STACK = 4 << 20

Answer = TypeVar('Answer')
_here = threading.local()
_system = ctypes.CDLL(None)
_system.pthread_self.restype = ctypes.c_ulong
_Start = ctypes.CFUNCTYPE(None, ctypes.c_void_p)


class _Attributes(ctypes.Structure):
    """A pthread_attr_t, which has 56 bytes on x86-64 Linux, and 64 on aarch64."""

    _fields_ = [('words', ctypes.c_ulong * 8)]


def _stack_size() -> int:
    """The size of this thread's stack in bytes."""
    attributes, size = _Attributes(), ctypes.c_size_t()
    if _system.pthread_getattr_np(ctypes.c_ulong(_system.pthread_self()), ctypes.byref(attributes)):
        return 0
    _system.pthread_attr_getstacksize(ctypes.byref(attributes), ctypes.byref(size))
    _system.pthread_attr_destroy(ctypes.byref(attributes))
    return size.value


def _has_stack() -> bool:
    """Whether this thread has stack enough. It is asked once in each thread."""
    if not hasattr(_here, 'has_stack'):
        _here.has_stack = _stack_size() >= LEAST_STACK
    return bool(_here.has_stack)


def _run_apart(start: Any) -> None:
    """Runs this in a thread of its own with a large stack, and waits until it has ended."""
    attributes, thread = _Attributes(), ctypes.c_ulong()
    _system.pthread_attr_init(ctypes.byref(attributes))
    _system.pthread_attr_setstacksize(ctypes.byref(attributes), ctypes.c_size_t(NEW_STACK))
    status = _system.pthread_create(ctypes.byref(thread), ctypes.byref(attributes), start, None)
    _system.pthread_attr_destroy(ctypes.byref(attributes))
    if status:
        raise RuntimeError("can't start a thread with enough stack")
    _system.pthread_join(thread, None)


def with_stack(call: Callable[[], Answer]) -> Answer:
    """What a call gives: in this thread if it has stack enough, and otherwise in one that has. An error in it is that of the call."""
    if _has_stack():
        return call()
    answers: List[Answer] = []
    errors: List[BaseException] = []

    def start(_: Any) -> None:
        try:
            answers.append(call())
        except BaseException as error:
            errors.append(error)

    _run_apart(_Start(start))
    if errors:
        raise errors[0]
    return answers[0]

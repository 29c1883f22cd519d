"""What owns something of libroam by a handle: calls one at a time, their answers as exceptions, an end by `with`."""
from __future__ import annotations

import contextlib
import threading
from ctypes import byref, c_size_t
from types import TracebackType
from typing import Any, ClassVar, Iterator, Optional, Type, TypeVar

import numpy as np

from . import _library as c
from ._library import calls, load
from ._types import Numbers

NO_MEMORY, TOO_MANY_PLANES, WORN, IS_EMPTY, BAD_MESH, SHRUNK, BAD_PAGE, NOT_THERE = 1, 7, 10, 12, 14, 15, 16, 17
Self = TypeVar("Self", bound="Owner")


class Worn(RuntimeError):
    """The engine has made 1,000,000 frames: call renew(); or its camera has gone 2^61 units."""


class BadPage(ValueError):
    """A page has no place there, may not go, or is not loaded; the message has the cause, and nothing has changed."""


class Owner:
    """Owns what a handle of roam.h does, within a `with` block or until `close`."""

    _kind: ClassVar[str]  #: what it is, in messages
    _prefix: ClassVar[str]  #: of its calls, behind roam_
    _end: ClassVar[str] = "close"  #: its call that lets go
    _told: ClassVar[dict[int, str]] = {}  #: of answers that are its own

    def __init__(self) -> None:
        load()
        self._handle, self._lock = c.Handle(), threading.RLock()
        self._reference = byref(self._handle)

    @contextlib.contextmanager
    def _held(self, told: str = ": give each its own, or share a lock") -> Iterator[None]:
        """Keeps it to one thread. Two calls at a time on one handle would be a race in C."""
        if not self._lock.acquire(False):
            raise RuntimeError(f"another thread is using this {self._kind}{told}")
        try:
            yield
        finally:
            self._lock.release()

    def _call(self, name: str, *words: Any) -> None:
        """One call, and its answer as an exception."""
        with self._held():
            answer = calls[self._prefix + name](self._reference, *words)
        if answer == 0:
            return
        if answer == NO_MEMORY:
            raise MemoryError("out of memory")
        told = {IS_EMPTY: f"the {self._kind} is closed", WORN: Worn.__doc__} | self._told
        kind = {WORN: Worn, BAD_PAGE: BadPage, NOT_THERE: BadPage}.get(answer, ValueError)
        raise kind(told.get(answer, f"roam_{self._prefix}{name} refused its arguments with answer {answer}"))

    def _list(self, name: str, out: Optional[Numbers], count: int, each: int) -> Numbers:
        """What a call writes: rows of `each` numbers, into `out` or into an array of its own of `count` rows."""
        places = each * count
        if out is None:
            out = np.empty(places, np.uint32)
        elif not (isinstance(out, np.ndarray) and out.dtype == np.uint32 and out.flags.c_contiguous
                  and out.flags.writeable):
            raise TypeError("out has to be a writable, C-contiguous array of numpy.uint32")
        elif out.size < places:
            raise ValueError(f"out has {out.size} places, and has to have at least {places}")
        written = c_size_t()
        self._call(name, out.ctypes.data, out.size, byref(written))
        found = out.reshape(-1)[:each * written.value]
        return found if each == 1 else found.reshape(-1, each)

    def close(self) -> None:
        """Lets go of what is owned and its memory; closing twice does nothing.

        >>> from calfrewin import Engine
        >>> engine = Engine([[0] * 3] * 3, 2)
        >>> engine.close(); engine.close()
        >>> engine.state()
        Traceback (most recent call last):
        ValueError: the engine is closed
        """
        with self._held(", so it cannot be closed"):
            calls[self._prefix + self._end](self._reference)

    def __enter__(self: Self) -> Self:
        return self

    def __exit__(self, kind: Optional[Type[BaseException]], why: Optional[BaseException],
                 where: Optional[TracebackType]) -> None:
        self.close()

    # What it calls is bound here: as the interpreter ends, the names of modules go.
    def __del__(self, calls: Any = calls, reference: Any = byref) -> None:
        if hasattr(self, "_handle"):  # not where the arguments were too few
            calls[self._prefix + self._end](reference(self._handle))

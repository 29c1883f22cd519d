"""Worlds of roam.h: one mesh over a terrain of pages, of which the fine ones come and go.

The terrain is a square of 2^large grid steps a side. A page is a grid of heights, 2^n + 1 a side, one n for all. One of
resolution q has heights 2^q grid steps apart and covers a square of side 2^(n + q), in a column and row of these squares, which
count from 0 at the near left point. The coarsest page, of resolution large - n, covers the terrain and is always loaded. Units
are those of `Engine`.
"""
from __future__ import annotations

import contextlib
import functools
import math
from ctypes import byref, c_size_t
from typing import Iterator, NamedTuple, Union

import numpy as np
import numpy.typing as npt

from . import _library as c
from ._owner import BAD_PAGE, IS_EMPTY, NOT_THERE, WORN, BadPage, Owner
from ._types import Numbers
from .engine import MOST_SPACING, MOST_TRIANGLES, Edited, Viewed, Whole, whole, whole_heights

__all__ = ["BadPage", "Page", "Square", "World", "WorldNote", "needed"]

MOST_LARGE = 14


class Square(NamedTuple):
    """Where a page lies."""
    q: int  #: the resolution: heights are 2^q grid steps apart
    column: int
    row: int


class WorldNote(NamedTuple):
    """What a frame did, and what its mesh is."""
    worst: int  #: the greatest priority of a triangle
    triangles: int
    splits: int  #: triangles split in this frame
    merges: int  #: triangles merged in this frame
    blocking: int  #: the address of the triangle of priority `worst` that does not fit the budget if split, or 0
    need: int  #: how many triangles the mesh would have with it split, or 0
    evaluations: int  #: how often a priority was evaluated in this frame


@functools.lru_cache(maxsize=1 << 14)
def needed(square: Square, coarsest: int) -> tuple[Square, ...]:
    """Which pages have to be loaded for one of a square: that of the next coarser resolution over it, and those beside that.

    >>> needed(Square(0, 3, 0), 2)
    (Square(q=1, column=1, row=0), Square(q=1, column=0, row=0), Square(q=1, column=1, row=1))
    """
    q, column, row = square.q + 1, square.column // 2, square.row // 2
    count = 1 << coarsest - q
    around = ((column, row), (column - 1, row), (column + 1, row), (column, row - 1), (column, row + 1))
    return tuple(Square(q, x, y) for x, y in around if 0 <= x < count and 0 <= y < count)


class Page(Edited):
    """A copy of a grid of heights, ready for a world; to make it is what costs time, and any thread may do that ahead.

    Args:
        heights: side x side whole numbers, as `Engine` takes them. All memory is taken here, some 3 bytes a height.

    >>> Page([[0] * 5] * 5).side
    5
    """
    _kind, _prefix, _end = "page", "page_", "drop"
    _told = {IS_EMPTY: "the page is empty: a world has it, or it is closed"}

    def __init__(self, heights: npt.ArrayLike) -> None:
        super().__init__()
        grid = whole_heights(heights)
        self._call("make", grid.ctypes.data, grid.size)
        self._side = math.isqrt(grid.size)
        self._last = self._side - 1

    @property
    def side(self) -> int:
        """Points of a side; 0 once a world has the page, or it is closed."""
        return self._side

    def close(self) -> None:
        """Lets go of the page and its memory; closing twice does nothing."""
        super().close()
        self._side = 0

    @classmethod
    def _empty(cls, side: int) -> Page:
        """One for a call that puts a page of this side into its handle."""
        page = cls.__new__(cls)
        Owner.__init__(page)
        page._side, page._last = side, side - 1
        return page

    @contextlib.contextmanager
    def _given(self) -> Iterator[Page]:
        """The page, for a call that takes it out of the handle, but where it is refused."""
        with self._held():
            if not self._side:
                raise ValueError(self._told[IS_EMPTY])
            try:
                yield self
            except MemoryError:
                self._side = 0
                raise
            self._side = 0

    def __repr__(self) -> str:
        return f"<calfrewin.Page of {self._side} x {self._side} points>" if self._side else "<calfrewin.Page: empty>"


class World(Viewed, Edited):
    """One mesh over a terrain of pages, within a `with` block or until `close`.

    Args:
        coarsest: the page that covers the terrain, or its heights.
        large: the terrain is 2^large grid steps a side, as many as the page has or more, up to 2^14.
        budget: the most triangles of a mesh, from 2 to 1,048,576. All memory but that of pages is taken here.
        spacing: the length of a grid step in units of height, from 1 to 1024.

    `set` and `raise_area` change heights in every loaded page that has such a point; a page that is loaded later has to agree,
    so change it too. A page that a world takes is empty afterwards; one that is refused stays as it is. As of an engine, one
    thread at a time may use a world, and a second one gets a RuntimeError.

    >>> hill = np.zeros((5, 5), np.uint16)
    >>> hill[1, 1] = 100
    >>> with World(np.zeros((5, 5), np.uint16), large=3, budget=100, spacing=10) as world:
    ...     world.load(0, 1, 0, hill)               # finer heights of the near right quarter
    ...     world.camera(60, 20, 150)
    ...     note = world.frame()
    ...     for square, triangles in sorted(world.draws().items()):
    ...         square, triangles.shape             # places in the heights of the page there
    (Square(q=0, column=1, row=0), (8, 3))
    (Square(q=1, column=0, row=0), (12, 3))
    >>> note.triangles, note.worst
    (20, 0)
    """
    _kind, _prefix = "world", "world_"
    _told = {WORN: "the world has split or merged 2^61 triangles: make a new one",
             BAD_PAGE: "the page has another height than a page that is loaded, at a point that both have",
             NOT_THERE: "no page is loaded that has a point there"}

    def __init__(self, coarsest: Union[Page, npt.ArrayLike], large: Whole, budget: Whole, spacing: Whole = 1) -> None:
        super().__init__()
        with _page_of(coarsest)._given() as page:
            self._n = (page.side - 1).bit_length() - 1
            self._large = whole("large", large, self._n, MOST_LARGE)
            self._most, self._triangles = whole("budget", budget, 2, MOST_TRIANGLES), 2
            self._last = 2 ** self._large
            self._call("open", page._reference, self._large, self._most, whole("spacing", spacing, 1, MOST_SPACING))
        self._pages = {Square(self.coarsest, 0, 0)}

    @property
    def coarsest(self) -> int:
        """The resolution of the coarsest page, large - n; that of the finest ones is 0."""
        return self._large - self._n

    @property
    def pages(self) -> frozenset[Square]:
        """Where pages are loaded."""
        return frozenset(self._pages)

    def __repr__(self) -> str:
        side = 2 ** self._large + 1
        return (f"<calfrewin.World of {side} x {side} points, {len(self._pages)} pages loaded, a mesh of {self._triangles:,} "
                f"triangles>")

    def _square(self, q: Whole, column: Whole, row: Whole) -> Square:
        """A square where pages come and go."""
        if self.coarsest == 0:
            raise BadPage("the coarsest page has all points of the terrain, so no other one is loaded or unloaded")
        fine = whole("q", q, 0, self.coarsest - 1)
        last = (1 << self.coarsest - fine) - 1
        return Square(fine, whole("column", column, 0, last), whole("row", row, 0, last))

    def load(self, q: Whole, column: Whole, row: Whole, page: Union[Page, npt.ArrayLike]) -> None:
        """Puts a page, or one of these heights, into the square of a resolution. Takes no memory.

        Raises:
            BadPage: one is loaded there; it has another side than the others; one that is `needed` is not loaded; or it has
                another height than a loaded page at a point that both have. The page is as it was.

        >>> world = World(np.zeros((3, 3), np.uint16), large=2, budget=8)
        >>> world.load(0, 1, 0, [[7, 0, 0], [0, 0, 0], [0, 0, 0]])
        Traceback (most recent call last):
        calfrewin._owner.BadPage: the page has another height than a page that is loaded, at a point that both have
        """
        with self._held(), _page_of(page)._given() as found:
            square = self._square(q, column, row)
            if square in self._pages:
                raise BadPage(f"a page is loaded in {square}")
            if found.side != 2 ** self._n + 1:
                raise BadPage(f"the page has {found.side} points a side, and the others have {2 ** self._n + 1}")
            for other in needed(square, self.coarsest):
                if other not in self._pages:
                    raise BadPage(f"{square} needs {other}, which is not loaded")
            self._call("load", *square, found._reference)
            self._pages.add(square)

    def unload(self, q: Whole, column: Whole, row: Whole) -> Page:
        """Takes the page out of a square, which comes back: it can be loaded again, or closed on another thread.

        Raises:
            BadPage: none is loaded there, or it is `needed` for one that is.

        >>> world = World(np.zeros((3, 3), np.uint16), large=2, budget=8)
        >>> world.load(0, 1, 0, np.zeros((3, 3), np.uint16))
        >>> world.unload(0, 1, 0)
        <calfrewin.Page of 3 x 3 points>
        """
        with self._held():
            square = self._square(q, column, row)
            if square not in self._pages:
                raise BadPage(f"no page is loaded in {square}")
            for other in self._pages:
                if other.q + 1 == square.q and square in needed(other, self.coarsest):
                    raise BadPage(f"{square} is needed for {other}, which is loaded")
            page = Page._empty(2 ** self._n + 1)
            self._call("unload", *square, page._reference)
            self._pages.remove(square)
            return page

    def frame(self) -> WorldNote:
        """Makes the best mesh of what is loaded and seen now, and tells of it.

        It has no cracks, is within the budget in force, and no other such mesh has a lower `worst`, where a triangle whose
        parts would have a height that is not loaded has priority 0.

        >>> World([[0, 0, 0], [0, 9, 0], [0, 0, 0]], large=1, budget=8).frame().triangles
        4
        """
        note = c.WorldNote()
        self._call("frame", byref(note))
        self._triangles = note.triangles
        return WorldNote(*(getattr(note, name) for name in WorldNote._fields))

    def draws(self) -> dict[Square, Numbers]:
        """The last frame's mesh by pages: of each the triangles, shape (count, 3), as places in its heights, as
        `Engine.indices` has them. A triangle is of the finest loaded page that it lies in.

        Raises:
            BadPage: a page that the mesh needs went since that frame.
        """
        runs, count, room = c_size_t(), c_size_t(), self._triangles
        found, places = np.empty((room, 5), np.uint32), np.empty((room, 3), np.uint32)
        try:
            self._call("draws", found.ctypes.data, room, byref(runs), places.ctypes.data, places.size, byref(count))
        except BadPage:
            raise BadPage("a page that the mesh needs went since the last frame: make a frame") from None
        parts: dict[Square, list[Numbers]] = {}
        for q, column, row, first, triangles in found[:runs.value].tolist():
            parts.setdefault(Square(q, column, row), []).append(places[first:first + triangles])
        return {square: np.concatenate(it) for square, it in parts.items()}


def _page_of(page: Union[Page, npt.ArrayLike]) -> Page:
    return page if isinstance(page, Page) else Page(page)

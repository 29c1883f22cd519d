"""Keeps the pages around a camera loaded in a world: they are read and made on a thread, ahead of their use.

Of each resolution the pages are wanted whose ground is within `reach` of their sides from the camera, and those which these
need, as `World.load` says. So the ground has nearly the same number of points for each part of the view, however far away.
"""
from __future__ import annotations

import concurrent.futures
import itertools
from math import floor, hypot
from types import TracebackType
from typing import Callable, Iterable, NamedTuple, Optional, Type

import numpy as np
import numpy.typing as npt

from .engine import SIDES, Whole, whole, whole_heights
from .world import MOST_LARGE, Page, Square, World, needed

Heights = npt.NDArray[np.uint16]
Source = Callable[[int, int, int], npt.ArrayLike]  #: the heights of the page in a square: resolution, column and row
KEPT = 1.25  # times the reach: what was loaded stays so far, so that a camera that turns back finds it


class _Made(NamedTuple):
    """A page that is ready, and its heights."""
    page: Page
    heights: Heights


class Moved(NamedTuple):
    """Which pages a call has loaded and unloaded."""
    come: list[Square]
    gone: list[Square]


def source_of(heights: Heights, side: int) -> Source:
    """Pages of `side` points a side of an array of 2^large + 1 points a side, whose northern row is the first; no copies.

    >>> source_of(np.arange(25, dtype=np.uint16).reshape(5, 5), 3)(0, 1, 0).tolist()
    [[12, 13, 14], [17, 18, 19], [22, 23, 24]]
    """
    def source(q: int, column: int, row: int) -> Heights:
        span = side - 1 << q
        top, left = len(heights) - 1 - (row + 1) * span, column * span
        return heights[top:top + span + 1:1 << q, left:left + span + 1:1 << q]
    return source


class Pager:
    """A world whose pages follow its camera, within a `with` block or until `close`.

    Args:
        source: gives the heights of a page, and is called on another thread, but for the coarsest page. Where two squares
            have a point in common it has to give one height for it.
        large: the terrain is 2^large grid steps a side.
        side: points of a page's side, 2^n + 1.
        budget, spacing: as for `World`.
        reach: how far from the camera pages are wanted, in sides of a page. With 2 some 22 of each resolution are loaded,
            with 9 bytes a height.
        at_once: the most pages that a call of `around` loads, and the most that it unloads.
        workers: threads that read and make pages.

    >>> heights = np.arange(17 * 17, dtype=np.uint16).reshape(17, 17)
    >>> with Pager(source_of(heights, 5), large=4, side=5, budget=100, spacing=10, reach=0.5) as pager:
    ...     pager.settle(20, 20, 300)           # waits; in a flight call `around` before each frame
    ...     note = pager.world.frame()
    ...     sorted(map(tuple, pager.heights))
    [(0, 0, 0), (1, 0, 0), (1, 0, 1), (1, 1, 0), (2, 0, 0)]
    """

    def __init__(self, source: Source, large: Whole, side: Whole, budget: Whole, spacing: Whole = 1, *, reach: float = 2.0,
                 at_once: int = 2, workers: int = 1) -> None:
        if not (reach >= 0 and at_once >= 1 and workers >= 1):
            raise ValueError(f"reach, at_once and workers are {reach}, {at_once}, {workers}, and have to be at least 0, 1 and 1")
        if side not in SIDES:
            raise ValueError(f"side is {side}, and has to be one of {', '.join(map(str, SIDES))}")
        n = (int(side) - 1).bit_length() - 1
        coarsest = Square(whole("large", large, n, MOST_LARGE) - n, 0, 0)
        first = whole_heights(source(*coarsest))
        if first.size != side ** 2:
            raise ValueError(f"the source gives {first.size} heights of the coarsest page, and side is {side}")
        self.world = World(first, large, budget, spacing)
        self.heights: dict[Square, Heights] = {coarsest: first}  #: of each page that is loaded, as the source gave them
        self._source, self._reach, self._at_once, self._most_asked = source, reach, at_once, 2 * workers
        self._wide, self._high = int(spacing) << n, int(first.max())  # of a finest page, in world units
        self._wanted, self._kept = {coarsest}, {coarsest}
        self._asked: dict[Square, concurrent.futures.Future[_Made]] = {}
        self._ready: dict[Square, _Made] = {}
        self._threads = concurrent.futures.ThreadPoolExecutor(workers, "calfrewin-pages")

    def around(self, x: float, y: float, z: float) -> Moved:
        """Puts the camera to a place, loads pages that are ready, unloads what is far, and asks for what is wanted there.

        For each frame; it never waits for the source. What the source or a page of it raises comes out here, and the page is
        asked for again.
        """
        self.world.camera(x, y, z)
        far = self._distances(x, y, z)
        self._kept = self._closed(far)
        self._wanted = self._closed(it for it, sides in far.items() if sides <= self._reach)
        self._take_what_is_ready()
        gone, come = self._unload(), self._load()
        missing = self._wanted - self.heights.keys() - self._ready.keys() - self._asked.keys()
        for square in sorted(missing, key=lambda it: (-it.q, far.get(it, 0))):
            if len(self._asked) >= self._most_asked:
                break
            self._asked[square] = self._threads.submit(self._made, square)
        return Moved(come, gone)

    @property
    def is_settled(self) -> bool:
        """Whether all pages are loaded that are wanted for the place of the last call, and none that is far."""
        return self._wanted <= self.heights.keys() <= self._kept

    def settle(self, x: float, y: float, z: float) -> None:
        """As `around`, until it is settled."""
        self.around(x, y, z)
        while not self.is_settled:
            concurrent.futures.wait(self._asked.values(), return_when=concurrent.futures.FIRST_COMPLETED)
            self.around(x, y, z)

    def _made(self, square: Square) -> _Made:
        heights = whole_heights(self._source(*square))
        return _Made(Page(heights), heights)

    def _distances(self, x: float, y: float, z: float) -> dict[Square, float]:
        """How far the ground of squares is from a place, in their sides: of all that may stay."""
        found, up = {}, max(0, z - self._high, -z)
        for q in range(self.world.coarsest):
            wide, most = self._wide << q, self._reach * KEPT
            last = (1 << self.world.coarsest - q) - 1
            columns, rows = (range(max(0, floor(it / wide - most)), min(last, floor(it / wide + most)) + 1) for it in (x, y))
            for column, row in itertools.product(columns, rows):
                off = (max(0, it * wide - at, at - (it + 1) * wide) for it, at in ((column, x), (row, y)))
                sides = hypot(*off, up) / wide
                if sides <= most:
                    found[Square(q, column, row)] = sides
        return found

    def _closed(self, squares: Iterable[Square]) -> set[Square]:
        """With all that these need."""
        found = {Square(self.world.coarsest, 0, 0), *squares}
        for q in range(self.world.coarsest):
            for square in [it for it in found if it.q == q]:
                found.update(needed(square, self.world.coarsest))
        return found

    def _unload(self) -> list[Square]:
        """What may not stay, fine before coarse."""
        gone = sorted(self.heights.keys() - self._kept)[:self._at_once]
        for square in gone:
            self._threads.submit(self.world.unload(*square).close)
            del self.heights[square]
        return gone

    def _take_what_is_ready(self) -> None:
        for square, work in list(self._asked.items()):
            if square not in self._kept:
                work.cancel()
            if work.done():
                del self._asked[square]
                if not work.cancelled():
                    self._ready[square] = work.result()
        for square in self._ready.keys() - self._kept:
            self._threads.submit(self._ready.pop(square).page.close)

    def _load(self) -> list[Square]:
        """What is wanted and ready, coarse before fine."""
        come: list[Square] = []
        for square in sorted(self._ready.keys() & self._wanted, reverse=True):
            if len(come) < self._at_once and all(it in self.heights for it in needed(square, self.world.coarsest)):
                page, heights = self._ready.pop(square)
                self.world.load(*square, page)
                self.heights[square] = heights
                come.append(square)
        return come

    def close(self) -> None:
        """Ends the threads, once they have made what they are making, and lets go of the world and its pages."""
        self._threads.shutdown(cancel_futures=True)
        self.world.close()

    def __enter__(self) -> Pager:
        return self

    def __exit__(self, kind: Optional[Type[BaseException]], why: Optional[BaseException],
                 where: Optional[TracebackType]) -> None:
        self.close()

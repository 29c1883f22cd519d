"""A flight: a ground of one grid, or of pages that come and go, its mesh for each frame, and what the page in the browser gets.

The page keeps the heights of pages, which of one grid are one, and asks for those that have changed. A frame is the addresses of
its triangles.
"""
from __future__ import annotations

import struct
import threading
import time
from typing import Optional, Sequence

import click
import numpy as np
import numpy.typing as npt

from .engine import Engine, Viewed, Worn
from .mesh import Array, gridded
from .pager import Heights, Pager
from .raster_pages import RasterPages
from .world import Square

#: points of the terrain's side, spacing, most triangles, edits, columns and rows of the raster, points of a page's side, pages
GROUND_HEAD = struct.Struct("<8I")
PAGE_HEAD = struct.Struct("<4I")  # resolution, column and row of a page, and the edit that changed it last
FRAME_HEAD = struct.Struct("<Q14I")  # the note, microseconds of frame and list, edits, and two zeros
MOST_RADIUS = 64


class Flight:
    """A ground, and its mesh for a view that moves. One method at a time runs: who calls holds `lock`."""

    viewed: Viewed
    large: int  #: the terrain is 2^large grid steps a side
    side: int  #: points of a page's side
    spacing: int
    rows: int  #: of the raster
    columns: int

    def __init__(self, most: int, report: bool) -> None:
        self.most, self.budget, self.report = most, most, report
        self.edits, self.frames, self.threshold, self.lock = 0, 0, 0, threading.Lock()
        self.planes: list[tuple[int, int, int, int]] = []
        self.names = np.empty(most, np.uint32)
        self.pages: dict[Square, tuple[int, Heights]] = {}  #: the edit that changed each last, and its heights

    def mesh(self, place: Sequence[int]) -> list[int]:
        """Makes the mesh for a camera there: the ten numbers of `Note`, 0 for what is not known."""
        raise NotImplementedError

    def lift(self, numbers: Sequence[int]) -> bytes:
        """Raises or lowers the ground, in the mesh and in what the page is told."""
        raise NotImplementedError

    def corners(self) -> tuple[npt.NDArray[np.int64], Heights]:
        """Of the corners of the last mesh, each of shape (triangles, 3): the place among the points of the terrain, and the
        height."""
        raise NotImplementedError

    def frame(self, numbers: Sequence[int]) -> bytes:
        """The mesh for a place, within a budget, above a threshold and with planes."""
        if len(numbers) % 4 != 1 or len(numbers) < 5:
            raise ValueError(f"a frame is asked with {len(numbers)} numbers, and has to be with 5, 9, .. or 29")
        began = time.perf_counter()
        planes = [(numbers[k], numbers[k + 1], numbers[k + 2], numbers[k + 3]) for k in range(5, len(numbers), 4)]
        if numbers[0] != self.budget:
            self.viewed.budget(numbers[0])
            self.budget = numbers[0]
        if numbers[1] != self.threshold:
            self.viewed.threshold(numbers[1])
            self.threshold = numbers[1]
        if planes != self.planes:
            self.viewed.look(planes)
            self.planes = planes
        note = self.mesh(numbers[2:5])
        made = time.perf_counter()
        names = self.viewed.leaves(self.names).tobytes()
        micros = [round(1e6 * (made - began)), round(1e6 * (time.perf_counter() - made))]
        self.frames += 1
        if self.report:
            click.echo(f"frame {self.frames} triangles {note[1]} vertices {note[2]} worst {note[0]} corners {self.sum()}")
        return FRAME_HEAD.pack(*note, *micros, self.edits, 0, 0) + names

    def sum(self) -> int:
        """A number that any other corner, or height of one, would make another; the page reckons it too."""
        places, heights = self.corners()
        numbers = (places @ np.array((1, 3, 5))) * (1 + heights @ np.array((1, 7, 11)))
        return int((numbers % (1 << 32)).sum()) % (1 << 32)

    def ground(self, numbers: Sequence[int]) -> bytes:
        """The ground as it stands: of each page where it lies, and the heights of those that changed after an edit."""
        if len(numbers) != 1:
            raise ValueError(f"the ground is asked with {len(numbers)} numbers, and has to be with the edit that is known, or -1")
        head = 2 ** self.large + 1, self.spacing, self.most, self.edits, self.columns, self.rows, self.side, len(self.pages)
        parts = [GROUND_HEAD.pack(*head), *(PAGE_HEAD.pack(*square, edit) for square, (edit, _) in self.pages.items())]
        parts += [heights.astype("<u2", copy=False).tobytes() for edit, heights in self.pages.values() if edit > numbers[0]]
        return b"".join(parts)

    def close(self) -> None:
        """Lets go of the ground."""
        self.viewed.close()


class GridFlight(Flight):
    """Over one grid."""

    def __init__(self, array: Array, most: int, step: Optional[float] = None, report: bool = False) -> None:
        """`step` is the length of a cell in the unit of the heights."""
        super().__init__(most, report)
        grid = gridded(array, step)
        self.rows, self.columns = array.heights.shape
        self.heights, self.spacing, self.side = grid.numbers, grid.spacing, len(grid.numbers)
        self.large = (self.side - 1).bit_length() - 1
        self.viewed = self.engine = Engine(grid.numbers, most, grid.spacing)
        self.pages = {Square(0, 0, 0): (0, self.heights)}

    def mesh(self, place: Sequence[int]) -> list[int]:
        self.engine.camera(*place)
        try:
            return list(self.engine.frame())
        except Worn:  # its frames are counted from 0 on again, and the mesh goes on
            self.engine.renew()
            return list(self.engine.frame())

    def corners(self) -> tuple[npt.NDArray[np.int64], Heights]:
        places = self.engine.indices().astype(np.int64)
        return places, self.heights.reshape(-1)[places]

    def lift(self, numbers: Sequence[int]) -> bytes:
        if len(numbers) != 4:
            raise ValueError(f"ground is raised with {len(numbers)} numbers, and has to be with x, y, radius and dz")
        x, y, radius, dz = numbers
        last = self.side - 1
        if not (0 <= x <= last and 0 <= y <= last and 1 <= radius <= MOST_RADIUS and abs(dz) <= 65_535):
            raise ValueError(f"x and y have to be from 0 to {last}, radius from 1 to {MOST_RADIUS}, dz within 65535 of 0")
        for k in range(radius):
            step = dz * (k + 1) // radius - dz * k // radius
            x0, y0, x1, y1 = max(0, x - k), max(0, y - k), min(last, x + k), min(last, y + k)
            self.engine.raise_area(x0, y0, x1, y1, step)
            part = self.heights[last - y1:last - y0 + 1, x0:x1 + 1]
            part[...] = np.clip(part.astype(np.int64) + step, 0, 65_535)
        self.edits += 1
        self.pages = {Square(0, 0, 0): (self.edits, self.heights)}
        return b""


class WorldFlight(Flight):
    """Over the pages of a raster around the camera."""

    def __init__(self, source: RasterPages, most: int, report: bool = False) -> None:
        super().__init__(most, report)
        self.rows, self.columns, self.spacing = source.rows, source.columns, source.spacing
        self.large, self.side = source.large, source.side
        self.pager = Pager(source, source.large, source.side, most, source.spacing, at_once=4, workers=2)
        self.viewed = self.world = self.pager.world
        self.pages = {square: (0, heights) for square, heights in self.pager.heights.items()}

    def mesh(self, place: Sequence[int]) -> list[int]:
        x, y, z = place
        self.pager.around(x, y, z)
        if self.pages.keys() != self.pager.heights.keys():
            self.edits += 1
            self.pages = {square: self.pages.get(square, (self.edits, its)) for square, its in self.pager.heights.items()}
        note = self.world.frame()
        return [note.worst, note.triangles, 0, note.splits, note.merges, note.blocking, note.need, 0, 0, 0]

    def corners(self) -> tuple[npt.NDArray[np.int64], Heights]:
        places, heights, last = [], [], self.side - 1
        for (q, column, row), triangles in self.world.draws().items():
            across, down = triangles % self.side, triangles // self.side
            x, y = (column * last + across) << q, ((row + 1) * last - down) << q
            places.append((2 ** self.large - y.astype(np.int64)) * (2 ** self.large + 1) + x)
            heights.append(self.pager.heights[Square(q, column, row)].reshape(-1)[triangles])
        return np.concatenate(places), np.concatenate(heights)

    def lift(self, numbers: Sequence[int]) -> bytes:
        raise ValueError("ground of pages cannot be raised here: --every, or a --window, takes at most 2049 points a side")

    def close(self) -> None:
        self.pager.close()

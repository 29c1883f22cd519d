"""One tile's mesh of the fewest triangles, with points that have to be vertices, and the books of many tiles.

The meshes of two tiles that lie side by side share their border's vertices where each has those of the other as required
points. `Mosaic` keeps which border points each tile has, and tells what each lacks; once none lacks any, the tiles together
are the mesh of the fewest triangles of the whole that is as fine as the tiles are.
"""
from __future__ import annotations

import math
from ctypes import byref, c_uint32
from fractions import Fraction
from typing import Any, NamedTuple, Optional, Union

import numpy as np
import numpy.typing as npt

from . import _library as c
from ._library import calls
from ._owner import BAD_MESH, NO_MEMORY, SHRUNK, Owner
from ._types import Numbers
from .engine import MOST_TOLERANCE, SIDES, Fit, Whole, thousandths_of, whole, whole_heights

ANY = 0xFFFF_FFFF  #: the tolerance, in thousandths, of a point that does not count: no height, sea, beyond the end
MOST_TILES = 65_536  # along one way
Tolerance = Union[float, Numbers]


def tolerances_of(tolerance: Tolerance, count: int) -> tuple[int, Numbers]:
    """What calls take: one tolerance in thousandths for all points, or one for each."""
    if not isinstance(tolerance, np.ndarray):
        return thousandths_of(tolerance), np.empty(0, np.uint32)
    if tolerance.dtype != np.uint32 or tolerance.size != count:
        raise ValueError(f"tolerance has {tolerance.size} numbers of {tolerance.dtype}, and has to have {count} of uint32, in "
                         "thousandths")
    each = np.ascontiguousarray(tolerance).reshape(-1)
    if ((each > MOST_TOLERANCE) & (each != ANY)).any():
        raise ValueError(f"tolerance has to be from 0 to {MOST_TOLERANCE} thousandths at each point, or ANY")
    return 0, each


def _places(name: str, places: npt.ArrayLike, count: int) -> Numbers:
    found = np.asarray(places)
    if found.size == 0:
        return np.empty(0, np.uint32)
    if found.dtype.kind not in "iu":
        raise TypeError(f"{name} are of type {found.dtype}, and have to be places in the heights")
    if not 0 <= found.min() <= found.max() < count:
        raise ValueError(f"{name} are from {found.min()} to {found.max()}, and have to be from 0 to {count - 1}")
    return np.ascontiguousarray(found, np.uint32).reshape(-1)


class Fitter(Owner):
    """A copy of a grid of heights and a mesh of it, within a `with` block or until `close`.

    Args:
        heights: side x side whole numbers from 0 to 65535, side 3, 5, 9, .. or 16385, rows from the far one to the near one.
            All memory is taken here, some 16 bytes a point. At first the mesh is the two halves of the square.

    A tolerance is a number in units of height, whose thousandths count, or a uint32 array with one in thousandths for each
    point, `ANY` where a point does not count. Required points are places in the heights; any grid point may be one.

    >>> flat = np.zeros((5, 5), np.uint16)
    >>> with Fitter(flat) as fitter:
    ...     alone = fitter.fit(0)
    ...     with_one = fitter.fit(0, required=[2])      # the middle of the far row
    ...     fitter.border().tolist(), fitter.indices().shape
    ([2], (5, 3))
    >>> alone, with_one
    (2, 5)
    """
    _kind, _prefix = "fitter", "fitter_"
    _told = {BAD_MESH: "leaves are not those of a conforming mesh of this grid, in the order in which leaves() gives them"}

    def __init__(self, heights: npt.ArrayLike) -> None:
        super().__init__()
        grid = whole_heights(heights)
        self._call("open", grid.ctypes.data, grid.size)
        self._side, self._triangles = math.isqrt(grid.size), 2

    def _settle(self, name: str, tolerance: Tolerance, required: npt.ArrayLike) -> int:
        count, triangles = self._side ** 2, c_uint32()
        one, each = tolerances_of(tolerance, count)
        places = _places("required", required, count)
        self._call(name, one, _pointer(each), each.size, _pointer(places), places.size, byref(triangles))
        self._triangles = triangles.value
        return triangles.value

    def fit(self, tolerance: Tolerance, required: npt.ArrayLike = ()) -> int:
        """Makes the mesh of the fewest triangles within the tolerance that has the required points as vertices: their count.

        There is one for each tolerance, whatever the order of what is required. Nothing is measured.
        """
        return self._settle("fit", tolerance, required)

    def more(self, tolerance: Tolerance, required: npt.ArrayLike = ()) -> int:
        """As `fit`, going on from the mesh that is there, which keeps what it has split: the count of triangles.

        After `fit`, `more` or `restore` of what they made for the same tolerance, it is the mesh of `fit` for all that was
        required in these calls. Costs what is split newly.

        >>> with Fitter(np.zeros((5, 5), np.uint16)) as fitter:
        ...     [fitter.fit(0), fitter.more(0, [2]), fitter.more(0, [22])]
        [2, 5, 6]
        """
        return self._settle("more", tolerance, required)

    def indices(self, out: Optional[Numbers] = None) -> Numbers:
        """Shape (triangles, 3): places in the heights, as `Engine.indices` has them."""
        return self._list("indices", out, self._triangles, 3)

    def leaves(self, out: Optional[Numbers] = None) -> Numbers:
        """Shape (triangles,): the address of each triangle, in the same order, as `Engine.leaves` has them."""
        return self._list("leaves", out, self._triangles, 1)

    def border(self) -> Numbers:
        """The vertices on the border but for the corners: places in the heights, in rising order."""
        return self._list("border", None, 4 * (self._side - 2), 1)

    def deviation(self) -> Fraction:
        """How far the heights are from the mesh at most, at all grid points, in units of height, exactly.

        >>> with Fitter([[0, 0, 0], [0, 9, 0], [0, 0, 0]]) as fitter:
        ...     fitter.deviation()
        Fraction(9, 1)
        """
        note = c.DeviationNote()
        self._call("deviation", byref(note))
        return Fraction(note.off, note.over)

    def restore(self, leaves: Numbers) -> None:
        """Makes a mesh that `leaves` told the mesh again.

        Raises:
            ValueError: these are not the leaves of a conforming mesh, depth first; the mesh is as before.

        >>> with Fitter(np.zeros((5, 5), np.uint16)) as fitter:
        ...     count = fitter.fit(0, [2]); leaves = fitter.leaves()
        ...     fitter.fit(0), fitter.restore(leaves), len(fitter.indices())
        (2, None, 5)
        """
        if not (isinstance(leaves, np.ndarray) and leaves.dtype == np.uint32 and leaves.ndim == 1):
            raise TypeError("leaves has to be what leaves() gave: an array of numpy.uint32")
        it = np.ascontiguousarray(leaves)
        self._call("restore", _pointer(it), it.size)
        self._triangles = it.size


def _pointer(array: Numbers) -> int:
    """Where an array lies; roam.h wants no null pointer, not even where there is nothing."""
    return array.ctypes.data if array.size else _NOTHING.ctypes.data


_NOTHING = np.zeros(1, np.uint32)


def fit_with(heights: npt.ArrayLike, tolerance: Tolerance = 0, required: npt.ArrayLike = ()) -> Fit:
    """The mesh of the fewest triangles of a square grid within a tolerance that has the required points as vertices.

    Args:
        heights, tolerance, required: as for `Fitter` and its `fit`.

    >>> len(fit_with([[0, 0, 0], [0, 9, 0], [0, 0, 0]], 9, required=[4]).triangles)
    4
    """
    grid = whole_heights(heights)
    one, each = tolerances_of(tolerance, grid.size)
    places = _places("required", required, grid.size)
    out, note = np.empty(6 * (math.isqrt(grid.size) - 1) ** 2, np.uint32), c.FitNote()
    answer = calls["fit_with"](grid.ctypes.data, grid.size, one, _pointer(each), each.size, _pointer(places), places.size,
                               out.ctypes.data, out.size, byref(note))
    if answer == NO_MEMORY:
        raise MemoryError("out of memory")
    if answer:
        raise ValueError(f"roam_fit_with refused its arguments with answer {answer}")
    return Fit(out[:3 * note.triangles].reshape(-1, 3), note.vertices, Fraction(note.off, note.over))


def fit_tin(heights: npt.ArrayLike, tolerance: float, effort: Whole = 3) -> Fit:
    """A mesh of few triangles of any shape of a square grid, each grid point within a tolerance of it.

    It tiles the square without cracks, its vertices are grid points with their heights, and it never has more triangles
    than `fit_with`: that is proved of each answer. Nothing is proved of how few they are; mostly a third to a fifth.

    Args:
        heights: 3 x 3, 5 x 5, .. numbers of 16 bits, the northern row first, as for `Fitter`.
        tolerance: in units of height, to thousandths.
        effort: 1 to 9: up to 3 so many rounds; above that searches beyond the tolerance and back, which take some ten
            times as long at 9. The same arguments give the same mesh.

    Raises:
        TypeError, ValueError: they name the argument, its value and its range.

    >>> fit_tin([[0, 0, 0], [0, 9, 0], [0, 0, 0]], 9)
    Fit(triangles=array([[6, 8, 0],
           [2, 0, 8]], dtype=uint32), vertices=4, deviation=Fraction(9, 1))
    """
    grid = whole_heights(heights)
    one, hard = thousandths_of(tolerance), whole("effort", effort, 1, 9)
    most = len(fit_with(grid, tolerance).triangles)
    out, note = np.empty(3 * most, np.uint32), c.FitNote()
    answer = calls["tin"](grid.ctypes.data, grid.size, one, hard, out.ctypes.data, out.size, byref(note))
    if answer == NO_MEMORY:
        raise MemoryError("out of memory")
    if answer:
        raise ValueError(f"roam_tin refused its arguments with answer {answer}")
    return Fit(out[:3 * note.triangles].reshape(-1, 3), note.vertices, Fraction(note.off, note.over))


class Required(NamedTuple):
    """What a tile's mesh has to have."""
    places: Numbers  #: its centre, and the border points that its neighbours have: places in its heights
    lacks: bool  #: whether it has not been fitted, or has not all of them


class Mosaic(Owner):
    """The books of a terrain of columns x rows tiles of `side` points a side that share their border points.

    Column 0 is the left one, row 0 the near one. A step is: `next`, or any tile that `lacks`; a mesh of it that has
    `required(..).places` as vertices; `put` of its border. No order makes a difference to where this ends.

    >>> with Mosaic(2, 1, 5) as mosaic:
    ...     first = mosaic.next()
    ...     mosaic.put(*first, [14])                    # its right side has a vertex in the middle
    ...     second = mosaic.next()
    ...     places = mosaic.required(*second).places.tolist()
    ...     mosaic.put(*second, [10]); mosaic.next()
    >>> first, second, places
    ((0, 0), (1, 0), [12, 10])
    """
    _kind, _prefix = "mosaic", "mosaic_"
    _told = {SHRUNK: "border lacks a point that the tile had before"}

    def __init__(self, columns: Whole, rows: Whole, side: Whole) -> None:
        super().__init__()
        if side not in SIDES:
            raise ValueError(f"side is {side}, and has to be one of {', '.join(map(str, SIDES))}")
        self._side = int(side)
        self._columns, self._rows = whole("columns", columns, 1, MOST_TILES), whole("rows", rows, 1, MOST_TILES)
        self._call("open", self._columns, self._rows, self._side)

    def _tile(self, column: Whole, row: Whole) -> tuple[int, int]:
        return whole("column", column, 0, self._columns - 1), whole("row", row, 0, self._rows - 1)

    def next(self) -> Optional[tuple[int, int]]:
        """Column and row of the next tile that has to be fitted, black ones of a chessboard first; None where none has."""
        note = c.TileNote()
        self._call("next", byref(note))
        return (note.column, note.row) if note.waits else None

    def required(self, column: Whole, row: Whole) -> Required:
        """What the mesh of a tile has to have, by what its neighbours have now."""
        out, note = np.empty(4 * (self._side - 1), np.uint32), c.RequiredNote()
        self._call("required", *self._tile(column, row), out.ctypes.data, out.size, byref(note))
        return Required(out[:note.count], bool(note.lacks))

    def put(self, column: Whole, row: Whole, border: npt.ArrayLike) -> None:
        """Keeps the border of a tile's mesh, as `Fitter.border` has it; the centre is taken to be there.

        Raises:
            ValueError: a place that is not on the border, or a point is lacking that the tile had before.
        """
        places: Any = _places("border", border, self._side ** 2)
        self._call("put", *self._tile(column, row), _pointer(places), places.size)

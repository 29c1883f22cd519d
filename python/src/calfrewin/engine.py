"""The engine of roam.h: best meshes of a grid of whole heights, for a camera, for an error or for a budget.

Units: heights are whole numbers in a unit of yours. In a place (x, y, z) of the camera, x and y count `spacing` of these
units to a grid step from the near left point (0, 0), and z counts units. `set` and `raise_area` alone count grid steps.
"""
from __future__ import annotations

import ctypes
import math
import operator
from ctypes import byref, c_size_t
from fractions import Fraction
from typing import Any, ClassVar, NamedTuple, Optional, Sequence, SupportsFloat, Union

import numpy as np
import numpy.typing as npt

from . import _library as c
from ._library import calls
from ._owner import IS_EMPTY, NO_MEMORY, TOO_MANY_PLANES, WORN, Owner, Worn
from ._types import Numbers

__all__ = ["IS_EMPTY", "NO_MEMORY", "TOO_MANY_PLANES", "WORN", "Changes", "Engine", "Fit", "Note", "SIDES", "State", "Whole",
           "Worn", "changes", "thousandths_of", "whole", "whole_heights"]

Whole = Union[int, "np.integer[Any]"]

# The ranges of roam.h.
SIDES = tuple(2 ** n + 1 for n in range(1, 15))
MOST_TRIANGLES, MOST_SPACING, MOST_COORDINATE, MOST_PLANES = 1_048_576, 1024, 1 << 30, 6
MOST_SLOPE, MOST_OFFSET, MOST_HEIGHT, MOST_TOLERANCE, MOST_BUDGET = 1 << 20, 1 << 50, 65_535, 65_535_999, (1 << 32) - 1


class Note(NamedTuple):
    """What a frame did, and what its mesh is."""
    worst: int  #: the greatest priority of a triangle
    triangles: int
    vertices: int
    splits: int  #: triangles split in this frame
    merges: int  #: triangles merged in this frame
    blocking: int  #: the address of the triangle of priority `worst` that does not fit the budget if split, or 0
    need: int  #: how many triangles the mesh would have with it split
    inside: int  #: triangles inside all planes, which all are where there is none
    cut: int
    outside: int


class State(NamedTuple):
    """How an engine stands."""
    side: int  #: points of a side
    way: int  #: how far the camera has gone, over the three axes, in world units
    evaluations: int  #: how often a priority was evaluated
    frames: int
    most: int  #: the budget at opening
    budget: int  #: the budget in force
    planes: int


class Changes(NamedTuple):
    """The addresses of the triangles that went and of those that came."""
    gone: Numbers
    come: Numbers


class Fit(NamedTuple):
    """The mesh of fewest triangles for a tolerance, or the best one of a budget."""
    triangles: Numbers  #: of shape (count, 3): places in the heights, counterclockwise from above
    vertices: int
    deviation: Fraction  #: how far the heights are from it at most, in units of height, exactly


def whole(name: str, value: Any, low: int, high: int) -> int:
    """The value as an int, or the error that names it and its range.

    >>> whole("budget", 1, 2, 1048576)
    Traceback (most recent call last):
    ValueError: budget is 1, and has to be from 2 to 1048576
    """
    if type(value) is int and low <= value <= high:
        return value  # what most calls are, before anything slower
    try:
        number = operator.index(value)
    except TypeError:
        raise TypeError(f"{name} is {value!r}, and has to be a whole number from {low} to {high}") from None
    if not low <= number <= high:
        raise ValueError(f"{name} is {number}, and has to be from {low} to {high}")
    return number


def _coordinate(name: str, value: Union[Whole, SupportsFloat]) -> int:
    """A coordinate of a place: floats are rounded to the nearest whole unit."""
    if type(value) is int and -MOST_COORDINATE <= value <= MOST_COORDINATE:
        return value  # what most calls are, before anything slower
    if isinstance(value, (float, np.floating)) and math.isfinite(value):
        value = round(float(value))
    return whole(name, value, -MOST_COORDINATE, MOST_COORDINATE)


def _plane(a: Whole, b: Whole, c_: Whole, d: Whole) -> list[int]:
    slopes = [whole(name, value, -MOST_SLOPE, MOST_SLOPE) for name, value in zip("abc", (a, b, c_))]
    return [*slopes, whole("d", d, -MOST_OFFSET, MOST_OFFSET)]


def thousandths_of(tolerance: float) -> int:
    """A tolerance in thousandths, by the decimals that a float prints as; what is finer is rounded down.

    >>> thousandths_of(0.29)
    290
    """
    exact = math.floor(Fraction(str(tolerance)) * 1000) if math.isfinite(tolerance) else tolerance
    return whole("tolerance in thousandths", exact, 0, MOST_TOLERANCE)


def whole_heights(heights: npt.ArrayLike) -> npt.NDArray[np.uint16]:
    """The heights as uint16 in rows: the same array where it is one already, else a copy."""
    found = np.asarray(heights)
    if found.dtype != np.uint16:
        if found.dtype.kind not in "iu":
            raise TypeError(f"heights are of type {found.dtype}, and have to be whole numbers from 0 to {MOST_HEIGHT}"
                            " (calfrewin.fit takes floats)")
        if found.size and not 0 <= found.min() <= found.max() <= MOST_HEIGHT:
            raise ValueError(f"heights are from {found.min()} to {found.max()}, and have to be from 0 to {MOST_HEIGHT}")
    side = math.isqrt(found.size)
    if side not in SIDES or found.shape not in ((side, side), (side * side,)):
        raise ValueError(f"heights have the shape {found.shape}, and have to be side x side, "
                         f"side one of {', '.join(map(str, SIDES))} (calfrewin.fit and calfrewin.view take any shape)")
    return np.ascontiguousarray(found, np.uint16)


class Viewed(Owner):
    """What makes meshes for a view: a camera, planes, a threshold and a budget."""

    _most: int  #: the budget at opening
    _triangles: int  #: of the last frame's mesh, at first the two halves of the square

    def camera(self, x: float, y: float, z: float) -> None:
        """Puts the camera to a place in world units, at most 2^30 from 0 on each axis; floats are rounded.

        >>> Engine([[0] * 3] * 3, 2).camera(0, 2.0 ** 31, 0)
        Traceback (most recent call last):
        ValueError: y is 2147483648, and has to be from -1073741824 to 1073741824
        """
        self._call("camera", _coordinate("x", x), _coordinate("y", y), _coordinate("z", z))

    def look(self, planes: Sequence[Sequence[Whole]]) -> None:
        """Puts these planes, (a, b, c, d) each as `add_plane` takes them and six at most, in the place of those in force.

        For a view that turns: the next frame asks anew for what left the view or came into it alone.

        >>> engine = Engine([[0] * 3] * 3, 2)
        >>> engine.look([(1, 0, 0, 0), (0, 1, 0, 0)])
        >>> engine.state().planes
        2
        """
        found = [c.Plane(*_plane(*plane)) for plane in planes]
        if len(found) > MOST_PLANES:
            raise ValueError(f"planes are {len(found)}, and may be {MOST_PLANES} at most")
        self._call("look", (c.Plane * MOST_PLANES)(*found), len(found))

    def threshold(self, ratio: Whole) -> None:
        """Puts a threshold in force: what is good enough, as `pixel_threshold` tells of an error in pixels.

        A triangle whose thickness over distance, as in `worst`, is no more has priority 0. Where a frame's `worst` is 0 its
        mesh has the fewest triangles of all that are good enough; else the budget is not enough for that.

        >>> engine = Engine([[0, 0, 0], [0, 100, 0], [0, 0, 0]], 8, spacing=10)
        >>> engine.camera(10, 10, 150)
        >>> engine.threshold(257_003); engine.frame().triangles
        2
        >>> engine.threshold(257_002); engine.frame().triangles
        4
        """
        self._call("threshold", whole("ratio", ratio, 0, 2 ** 64 - 1))

    def budget(self, triangles: Whole) -> None:
        """Puts another budget in force, from 2 to the one at opening.

        >>> Engine([[0] * 3] * 3, 8).budget(9)
        Traceback (most recent call last):
        ValueError: triangles is 9, and has to be from 2 to 8
        """
        self._call("budget", whole("triangles", triangles, 2, self._most))

    def leaves(self, out: Optional[Numbers] = None) -> Numbers:
        """Shape (triangles,): the address of each triangle of the last frame's mesh: a number that names it in every frame.

        >>> Engine([[0] * 3] * 3, 2).leaves().tolist()
        [2, 3]
        """
        return self._list("leaves", out, self._triangles, 1)


class Edited(Owner):
    """What has heights that change: an engine, a page, a world."""

    _set: ClassVar[str] = "set_height"  #: the name of the call for a point
    _last: int  #: the greatest coordinate of a point

    def set(self, x: Whole, y: Whole, height: Whole) -> None:
        """Sets the height of the grid point (x, y), counted in steps from the near left point.

        >>> engine = Engine([[0] * 3] * 3, 8)
        >>> engine.set(1, 1, 100)
        >>> engine.frame().triangles
        4
        """
        last = self._last
        self._call(self._set, whole("x", x, 0, last), whole("y", y, 0, last), whole("height", height, 0, MOST_HEIGHT))

    def raise_area(self, x0: Whole, y0: Whole, x1: Whole, y1: Whole, dz: Whole) -> None:
        """Raises the points from (x0, y0) to (x1, y1), both included, by dz (-65535 to 65535), within 0 to 65535.

        >>> engine = Engine([[0] * 3] * 3, 8)
        >>> engine.raise_area(1, 1, 1, 1, 100)
        >>> engine.frame().triangles
        4
        """
        last = self._last
        west, south = whole("x0", x0, 0, last), whole("y0", y0, 0, last)
        east, north = whole("x1", x1, west, last), whole("y1", y1, south, last)
        self._call("raise", west, south, east, north, whole("dz", dz, -MOST_HEIGHT, MOST_HEIGHT))


class Engine(Viewed, Edited):
    """An engine over a copy of a grid of heights, within a `with` block or until `close`.

    Args:
        heights: side x side whole numbers from 0 to 65535, side 3, 5, 9, .. or 16385: rows from the far one (greatest y)
            to the near one, each from left to right. A C-contiguous uint16 array is read where it lies.
        budget: the most triangles of a mesh, from 2 to 1,048,576; it determines the memory, all of which is taken here.
            For `fit` alone 2 is enough.
        spacing: the length of a grid step in units of height, from 1 to 1024.

    Every call lets other threads run. One thread at a time may use an engine; a second one gets a RuntimeError.

    >>> hill = [[0, 0, 0],
    ...         [0, 100, 0],
    ...         [0, 0, 0]]
    >>> with Engine(hill, budget=8, spacing=10) as engine:
    ...     engine.camera(10, 10, 150)
    ...     note = engine.frame()
    ...     triangles = engine.indices()
    >>> note.triangles, note.vertices, note.blocking
    (4, 5, 0)
    >>> triangles.shape, triangles[0].tolist()
    ((4, 3), [4, 6, 8])
    """

    _kind, _prefix, _set = "engine", "", "set"
    _told = {TOO_MANY_PLANES: "planes: six are in force, and there may be no more"}

    def __init__(self, heights: npt.ArrayLike, budget: Whole, spacing: Whole = 1) -> None:
        super().__init__()
        most = whole("budget", budget, 2, MOST_TRIANGLES)
        step = whole("spacing", spacing, 1, MOST_SPACING)
        grid = whole_heights(heights)
        self._call("open", grid.ctypes.data, grid.size, most, step)
        self._most, self._side, self._triangles, self._vertices = most, math.isqrt(grid.size), 2, 4
        self._last = self._side - 1

    def __repr__(self) -> str:
        try:
            state = self.state()
        except (ValueError, RuntimeError) as why:
            return f"<calfrewin.Engine: {why}>"
        return (f"<calfrewin.Engine of {state.side} x {state.side} points, a budget of {state.budget:,} triangles, "
                f"{state.frames} frames made>")

    def add_plane(self, a: Whole, b: Whole, c: Whole, d: Whole) -> None:
        """Adds a view plane, whose inside is where a x + b y + c z + d >= 0, six at most. What is outside has priority 0.

        a, b and c are at most 2^20 from 0, d at most 2^50.

        >>> engine = Engine([[0] * 3] * 3, 2)
        >>> engine.add_plane(1, 0, 0, -5)
        >>> engine.state().planes
        1
        """
        self._call("add_plane", *_plane(a, b, c, d))

    def clear_planes(self) -> None:
        """Takes all view planes away.

        >>> engine = Engine([[0] * 3] * 3, 2)
        >>> engine.add_plane(1, 0, 0, 0); engine.clear_planes(); engine.state().planes
        0
        """
        self._call("clear_planes")

    def renew(self) -> None:
        """Lets frames count from 0 on again, for an engine that has made 1,000,000. All else stays, the other counts too.

        >>> engine = Engine([[0] * 3] * 3, 2)
        >>> note = engine.frame(); engine.renew(); engine.state().frames
        0
        """
        self._call("renew")

    def frame(self) -> Note:
        """Makes the best mesh of what stands now, and tells of it.

        It has no cracks, is within the budget in force, and no other such mesh has a lower `worst`.

        >>> Engine([[0, 0, 0], [0, 9, 0], [0, 0, 0]], 8).frame().triangles
        4
        """
        note = c.FrameNote()
        self._call("frame", byref(note))
        self._triangles, self._vertices = note.triangles, note.vertices
        return Note(*(getattr(note, name) for name in Note._fields))

    def indices(self, out: Optional[Numbers] = None) -> Numbers:
        """Shape (triangles, 3): places in the heights of the last frame's mesh: apex and the ends of the base,
        counterclockwise from above.

        `out`, a uint32 array of three places a triangle, is written into where it is given, and its written part comes
        back: nothing is copied.

        >>> Engine([[0] * 3] * 3, 2).indices().tolist()
        [[6, 8, 0], [2, 0, 8]]
        """
        return self._list("indices", out, self._triangles, 3)

    def positions(self, out: Optional[Numbers] = None) -> Numbers:
        """Shape (vertices, 3): x, y, z of each vertex of the last frame's mesh alone, in world units and units of height.

        >>> Engine([[7] * 3] * 3, 2, spacing=10).positions().tolist()
        [[0, 0, 7], [20, 0, 7], [0, 20, 7], [20, 20, 7]]
        """
        return self._list("positions", out, self._vertices, 3)

    def compact(self, out: Optional[Numbers] = None) -> Numbers:
        """Shape (triangles, 3): places among the rows of `positions`, in the order of `indices`.

        >>> Engine([[0] * 3] * 3, 2).compact().tolist()
        [[0, 1, 2], [3, 2, 1]]
        """
        return self._list("compact", out, self._triangles, 3)

    def strip(self, out: Optional[Numbers] = None) -> Numbers:
        """Shape (triangles, 3): the triangles of `indices` in the order of one strip: each two neighbours share an edge,
        and so do the last and the first.

        >>> Engine([[0] * 3] * 3, 2).strip().shape
        (2, 3)
        """
        return self._list("strip", out, self._triangles, 3)

    def changed(self) -> Changes:
        """The addresses that the last frame took out of the mesh, and those that it put in: none before the first frame.

        >>> engine = Engine([[0, 0, 0], [0, 9, 0], [0, 0, 0]], 8)
        >>> note = engine.frame()
        >>> engine.changed()
        Changes(gone=array([2, 3], dtype=uint32), come=array([4, 5, 6, 7], dtype=uint32))
        """
        gone, come, note = np.empty(self._most, np.uint32), np.empty(self._most, np.uint32), c.ChangesNote()
        self._call("changed", gone.ctypes.data, gone.size, come.ctypes.data, come.size, byref(note))
        return Changes(gone[:note.gone], come[:note.come])

    def deviation(self) -> Fraction:
        """How far the heights are from the last frame's mesh at a grid point, at most, in units of height, exactly.

        >>> Engine([[0, 0, 0], [0, 9, 0], [0, 0, 0]], 8).deviation()
        Fraction(9, 1)
        """
        note = c.DeviationNote()
        self._call("deviation", byref(note))
        return Fraction(note.off, note.over)

    def fit(self, tolerance: float = 0, budget: Optional[Whole] = None) -> Fit:
        """The mesh of fewest triangles that is off by at most the tolerance, whatever the camera; the engine is as before.

        Args:
            tolerance: in units of height, from 0 to 65535.999; thousandths count, and what is finer is rounded down.
            budget: the most triangles, 2 or more; without it there is no bound. Where the tolerance asks for more, the
                mesh of the budget that is off by the least comes back; the answer's `deviation` says by how much.

        >>> engine = Engine([[0, 0, 0], [0, 9, 0], [0, 0, 0]], 2)
        >>> len(engine.fit(9).triangles), len(engine.fit(8.9).triangles), engine.fit(0, budget=3).deviation
        (2, 4, Fraction(9, 1))
        """
        thousandths = thousandths_of(tolerance)
        finest = 2 * (self._side - 1) ** 2
        most = finest if budget is None else whole("budget", budget, 2, MOST_BUDGET)
        out, note = np.empty(3 * min(most, finest), np.uint32), c.FitNote()
        self._call("fit", thousandths, most, out.ctypes.data, out.size, byref(note))
        return Fit(out[:3 * note.triangles].reshape(-1, 3), note.vertices, Fraction(note.off, note.over))

    def certificate(self, x: float, y: float, z: float) -> str:
        """A proof, as text, that no mesh of the budget in force is better from a place in world units, without planes.

        It is that of `roam certify make`; up to 2,049 points a side `roam certify check` checks it.

        >>> Engine([[0] * 3] * 3, 2).certificate(0, 0, 0).splitlines()[0]
        'camera 0 0 0'
        """
        place = [_coordinate(name, value) for name, value in zip("xyz", (x, y, z))]
        text, length = ctypes.create_string_buffer(48 + 33 * self.state().budget), c_size_t()
        self._call("certificate", *place, text, len(text), byref(length))
        return text.raw[:length.value].decode("ascii")

    def state(self) -> State:
        """How the engine stands.

        >>> Engine([[0] * 3] * 3, 8).state()
        State(side=3, way=0, evaluations=0, frames=0, most=8, budget=8, planes=0)
        """
        note = c.StateNote()
        self._call("state", byref(note))
        return State(*(getattr(note, name) for name in State._fields))


def changes(before: Numbers, after: Numbers) -> Changes:
    """Of two arrays that `leaves` gave for one grid: the addresses of the first alone, and those of the second alone.

    >>> numbers = np.array([2, 3], np.uint32), np.array([2, 6, 7], np.uint32)
    >>> changes(*numbers)
    Changes(gone=array([3], dtype=uint32), come=array([6, 7], dtype=uint32))
    """
    for name, found in (("before", before), ("after", after)):
        if not (isinstance(found, np.ndarray) and found.dtype == np.uint32 and found.ndim == 1):
            raise TypeError(f"{name} has to be what leaves() gave: an array of numpy.uint32")
    before, after = np.ascontiguousarray(before), np.ascontiguousarray(after)
    # roam.h wants no null pointer, not even where there is nothing.
    gone, come = (np.empty(max(1, found.size), np.uint32) for found in (before, after))
    note = c.ChangesNote()
    lists = [word for found in (before, after, gone, come) for word in (found.ctypes.data, found.size)]
    calls["changes"](*lists, byref(note))
    return Changes(gone[:note.gone], come[:note.come])

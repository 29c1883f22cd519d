"""Meshes of arrays of heights: `fit` for an error or a budget, of any shape, `view` for a camera, up to 2049 x 2049.

`column` and `row` count from the array's first point; x and y are what `transform` makes of them; heights are in metres,
or in whatever the array has. Triangles are counterclockwise seen from above.
"""
from __future__ import annotations

import math
import warnings
from dataclasses import dataclass, replace
from fractions import Fraction
from functools import cached_property
from typing import Any, Callable, NamedTuple, Optional, Union

import numpy as np
import numpy.typing as npt

from ._types import Fill, Flags, Floats, Numbers, Path, Transform
from .clip import Clip, GridMesh, area, compact, grid_mesh
from .engine import MOST_BUDGET, MOST_SPACING, MOST_TOLERANCE, MOST_TRIANGLES, Engine, Fit, whole
from .fitter import ANY, fit_with
from .heights import (MOST_POINTS, NOTHING, UNITS, Rounded, alone, fill_of, filled, is_none, padded, rises, rounded, side_of,
                      suspect)
from .shapes import have_any, shapes


@dataclass(frozen=True, eq=False)
class Grid:
    """The vertices of a mesh in its square grid, before anything was cut off: a height is base + unit * number."""
    side: int  #: 2^n + 1 points
    places: npt.NDArray[np.int64]  #: row * side + column of each
    numbers: npt.NDArray[np.uint16]
    unit: float
    base: float
    bare: Optional[npt.NDArray[np.uint8]]  #: points of the array on no triangle, a bit each; None: there are none

    @property
    def is_vertex(self) -> Flags:
        """Shape (side, side): which points are vertices."""
        found = np.zeros(self.side * self.side, bool)
        found[self.places] = True
        return found.reshape(self.side, self.side)


Tolerances = Union[float, npt.ArrayLike]
LITTLE = 1e-6  # of a cell
MOST_EXACT = 4096  # errors that are taken by the decimals that they print as


@dataclass(frozen=True, repr=False, eq=False)
class Mesh:
    """A mesh without cracks over an array's points.

    >>> mesh = fit([[0, 0, 0], [0, 9, 0], [0, 0, 0]], error=0, cell=30, crs="EPSG:32632")
    >>> mesh
    <calfrewin.Mesh of 4 triangles and 5 vertices over 3 x 3 points, error 0, of which 0 for rounding>
    >>> mesh.vertices[2].tolist()
    [30.0, 30.0, 9.0]
    """
    column: Floats  #: of each vertex
    row: Floats
    height: Floats
    triangles: Numbers  #: shape (count, 3): places among the vertices, counterclockwise from above
    error: float  #: how far the array's heights are from the mesh at most, straight up or down, rounding included
    rounding: float  #: by how much at most a height was rounded to a multiple of `unit`
    unit: float
    shape: tuple[int, int]  #: rows and columns of the array
    transform: Transform
    crs: Optional[str] = None  #: the coordinate system of x and y, as WKT or EPSG:code
    filled: int = 0  #: points without a height, which were filled
    holes: int = 0  #: points without a height, which were left out
    alone: int = 0  #: of these those that have heights all around them, so that triangles go over them
    is_curved: bool = False  #: whether the error holds on the globe, and not on the map
    is_clipped: bool = False  #: whether a mask, or what has no height, has cut parts off
    grid: Optional[Grid] = None  #: its vertices in the square grid that it was made of
    rises: Optional[npt.NDArray[np.float32]] = None  #: shape (count, 2): how much the ground rises by a column, and by a row

    def __eq__(self, other: object) -> bool:
        """Whether it is a mesh of the same vertices, triangles, place and error."""
        if not isinstance(other, Mesh):
            return NotImplemented
        return self._place == other._place and all(np.array_equal(getattr(self, name), getattr(other, name)) for name in (
            "column", "row", "height", "triangles"))

    def __hash__(self) -> int:
        return hash((self._place, len(self.height), len(self.triangles)))

    @property
    def _place(self) -> tuple[Any, ...]:
        return self.shape, self.transform, self.crs, self.error

    @cached_property
    def vertices(self) -> Floats:
        """Shape (count, 3): x, y and height of each vertex."""
        return np.column_stack((*self.xy(), self.height))

    def xy(self) -> tuple[Floats, Floats]:
        """x and y of each vertex.

        >>> [values.tolist() for values in fit([[5, 5], [5, 5]], error=0, cell=30).xy()]
        [[0.0, 30.0, 30.0, 0.0], [30.0, 30.0, 0.0, 0.0]]
        """
        a, b, c, d, e, f = self.transform
        return a * self.column + b * self.row + c, d * self.column + e * self.row + f

    def cells(self) -> float:
        """How many cells of the array the mesh covers, with parts of some.

        >>> fit([[5, 5, 5], [5, 5, 5]], error=0).cells()
        2.0
        """
        if not self.is_clipped:
            return float((self.shape[0] - 1) * (self.shape[1] - 1))
        return area(GridMesh(self.column, self.row, self.height, self.triangles))

    def surface(self) -> Floats:
        """Shape (rows, columns): the height of the mesh at each point of the array, from its vertices alone; NaN where points
        without a height have no triangle.

        >>> fit([[0, 4, 8], [0, 5, 8], [0, 4, 8]], error=1).surface().tolist()
        [[0.0, 4.0, 8.0], [0.0, 4.0, 8.0], [0.0, 4.0, 8.0]]
        """
        grid, (rows, columns) = self.grid, self.shape
        if grid is None:
            raise ValueError("the mesh has no grid of its own: it was made for the globe, or of more than 2049 points a side")
        numbers = np.zeros(grid.side * grid.side)
        numbers[grid.places] = grid.numbers
        found = grid.base + grid.unit * surface(numbers.reshape(grid.side, grid.side), grid.is_vertex)[:rows, :columns]
        if grid.bare is not None:
            found[np.unpackbits(grid.bare, count=rows * columns).astype(bool).reshape(rows, columns)] = np.nan
        return found

    def at(self, transform: Transform, crs: Optional[str] = None) -> Mesh:
        """The same mesh at another place.

        >>> fit([[5, 5], [5, 5]], error=0).at((30, 0, 500, 0, -30, 900)).vertices[0].tolist()
        [500.0, 900.0, 5.0]
        """
        is_turned = _turns(transform) != _turns(self.transform)
        triangles = self.triangles[:, ::-1] if is_turned else self.triangles
        return replace(self, transform=transform, crs=crs, triangles=triangles)

    def save(self, path: Path, **options: Any) -> dict[str, Any]:
        """Writes .glb, .ply, .stl, .obj, .vtk, .vtu, .off or .npz: calfrewin.export.save has the options.

        >>> import tempfile
        >>> with tempfile.TemporaryDirectory() as folder:
        ...     told = fit([[5, 5], [5, 5]], error=0).save(folder + "/my.glb")
        >>> told["triangles"], told["origin"]
        (2, [0.0, 0.0, 0.0])
        """
        from .export import save
        return save(self, path, **options)

    def plot(self, axes: Any = None, **options: Any) -> Any:
        """Draws the triangles from above, coloured by height, with matplotlib; the axes come back.

        Args:
            axes: of matplotlib; without them those of a new figure.
            options: for `Axes.tripcolor`.

        >>> import matplotlib; matplotlib.use("agg")
        >>> fit([[0, 0, 0], [0, 9, 0], [0, 0, 0]], error=0).plot().get_aspect()
        1.0
        """
        from matplotlib import pyplot
        axes = pyplot.figure().add_subplot() if axes is None else axes
        x, y = self.xy()
        drawn = axes.tripcolor(x, y, self.triangles, self.height, **{"shading": "gouraud", "cmap": "terrain"} | options)
        axes.triplot(x, y, self.triangles, color="black", linewidth=0.2)
        axes.set_aspect("equal")
        axes.figure.colorbar(drawn, ax=axes, label="height")
        return axes

    def __repr__(self) -> str:
        rows, columns = self.shape
        return (f"<calfrewin.Mesh of {len(self.triangles):,} triangles and {len(self.height):,} vertices over "
                f"{rows} x {columns} points, error {self.error:.6g}, of which {self.rounding:.2g} for rounding>")


def _turns(transform: Transform) -> bool:
    """Whether columns and rows as x and y turn clockwise into counterclockwise."""
    a, b, _, d, e, _ = transform
    return a * e - b * d > 0


def surface(heights: npt.NDArray[Any], is_vertex: Flags) -> Floats:
    """The height of the mesh with these vertices at each point of a grid of 2^n + 1 points a side, exactly.

    A point that is no vertex is the middle of the base of a triangle that lies within one of the mesh, so it has the mean
    of the two ends. This shares nothing with the engine: `abs(heights - surface(..)).max()` measures any such mesh.

    >>> is_vertex = np.array([[1, 0, 1], [0, 0, 0], [1, 0, 1]], bool)
    >>> surface(np.array([[0, 9, 2], [9, 9, 9], [4, 9, 8]]), is_vertex).tolist()
    [[0.0, 1.0, 2.0], [2.0, 4.0, 5.0], [4.0, 6.0, 8.0]]
    """
    found = np.array(heights, np.float64)
    step = found.shape[0] - 1
    while step > 1:
        half = step // 2
        # Middles of squares: the diagonals turn from square to square, as the longest edges of two halves meet there.
        middle, is_kept, corner = found[half::step, half::step], is_vertex[half::step, half::step], found[::step, ::step]
        falls = (corner[:-1, :-1] + corner[1:, 1:]) / 2  # along the diagonal from the upper left
        rises = (corner[1:, :-1] + corner[:-1, 1:]) / 2
        squares = np.arange(middle.shape[0])
        is_even = np.add.outer(squares, squares) % 2 == 0
        middle[...] = np.where(is_kept, middle, np.where(is_even, falls, rises))
        # Middles of edges, along rows and along columns.
        for values, kept in ((found, is_vertex), (found.T, is_vertex.T)):
            edge, ends = values[::step, half::step], values[::step, ::step]
            edge[...] = np.where(kept[::step, half::step], edge, (ends[:, :-1] + ends[:, 1:]) / 2)
        step = half
    return found


class Array(NamedTuple):
    """Heights that `fit` and `view` are given, looked through and placed."""
    heights: npt.NDArray[Any]  #: rows x columns, one at each point
    filled: int  #: points that had none, and count now
    transform: Transform
    crs: Optional[str]
    holes: Optional[Flags] = None  #: points that had none, and are left out


def array_of(heights: Any, *, nodata: Optional[float] = None, fill: Fill = None, cell: float = 1.0,
             transform: Optional[Transform] = None, crs: Optional[str] = None, is_any_size: bool = False) -> Array:
    """A numpy array, masked or not, an xarray.DataArray or nested lists; at holes there are heights, that count if so said."""
    if hasattr(heights, "dims") and hasattr(heights, "coords"):
        from .arrays import of_xarray
        heights, own_transform, own_crs, own_nodata = of_xarray(heights)
        transform, crs, nodata = transform or own_transform, crs or own_crs, own_nodata if nodata is None else nodata
    mask = heights.mask if isinstance(heights, np.ma.MaskedArray) else False
    array = np.asarray(heights)
    if array.dtype.kind not in "iuf":
        raise TypeError(f"heights are of type {array.dtype}, and have to be whole numbers or floats")
    if array.ndim != 2 or min(array.shape) < 2 or not is_any_size:
        side_of(array.shape)
    if nodata is None and not np.any(mask):
        _warn_of_edge(array)
    holes = is_none(array, nodata) | mask  # one for each point, or one for all
    if not 0 < cell < math.inf:
        raise ValueError(f"cell is {cell!r}, and has to be above 0")
    if transform is None:
        transform = (cell, 0.0, 0.0, 0.0, -cell, cell * (array.shape[0] - 1))
    elif transform[0] * transform[4] == transform[1] * transform[3]:
        raise ValueError(f"transform is {transform}, and puts all points on one line")
    return with_holes(array, holes, fill, transform, crs)


def with_holes(heights: npt.NDArray[Any], holes: Flags, fill: Fill, transform: Transform, crs: Optional[str]) -> Array:
    """Heights of which some are none: filled, as it is said, or left out."""
    fill = fill_of(fill)
    found, count = filled(heights, holes, fill)
    return Array(found, 0 if fill is None else count, transform, crs, holes if count and fill is None else None)


def _warn_of_edge(heights: npt.NDArray[Any]) -> None:
    """Of arrays only what is no round number: many have zeros around them."""
    edge = np.concatenate((heights[0], heights[-1], heights[:, 0], heights[:, -1])) if heights.size else heights
    told = suspect(edge, heights[len(heights) // 2], NOTHING) if heights.size else None
    if told is not None:
        warnings.warn(told, stacklevel=4)


def fit(heights: Any, *, error: Optional[Tolerances] = None, triangles: Optional[int] = None,
        transform: Optional[Transform] = None, cell: float = 1.0, crs: Optional[str] = None,
        nodata: Optional[float] = None, fill: Fill = None, unit: Optional[float] = None,
        globe: bool = False) -> Mesh:
    """A mesh of few triangles that is nowhere off by more than `error`, or of `triangles` at most and the least error.

    Args:
        heights: rows x columns of numbers, 2 or more of each, the northern row first: a numpy array, masked where it has
            no heights, or an xarray.DataArray, which brings its own transform, crs and nodata where it has them. More than
            2049 a side are fitted as tiles that match, and joined.
        error: in the unit of the heights; it holds at all points of the array that have a height, rounding included. Or an
            array, one for each point of up to 2049 a side, infinite where the mesh may be off by anything.
        triangles: the most, 2 or more.
        transform: (a, b, c, d, e, f), from column and row of a point: x = a column + b row + c, y = d column + e row + f;
            without it points are `cell` apart, x to the right, y up, and (0, 0) is the first point of the last row.
        crs: the coordinate system of x and y, as EPSG:32632 or WKT.
        nodata: the number that stands for no height, beside NaN.
        fill: the height of points without one, or "smooth", from their edges. Without it they have no error, and a triangle
            with no others is left out.
        unit: heights are rounded to multiples of it; without it the finest that their range allows.
        globe: the error is to hold on the globe, where triangles are chords below the sea; it wants a crs, and heights in
            metres.

    Raises:
        TypeError, ValueError: they name the argument, its value and its range.

    Of all meshes of right triangles by halving, it has the fewest, or the least error, for a square of 2^n + 1 points a side
    with all heights; other shapes are padded and cut, and keep the error.

    >>> import numpy, calfrewin
    >>> y, x = numpy.mgrid[-3:3:200j, -3:3:300j]
    >>> mesh = calfrewin.fit(100 * numpy.exp(-x * x - y * y), error=1.5)
    >>> mesh.error <= 1.5, mesh.vertices.shape[1], bool(mesh.triangles.max() < len(mesh.vertices))
    (True, 3, True)
    """
    array = array_of(heights, nodata=nodata, fill=fill, cell=cell, transform=transform, crs=crs,
                     is_any_size=not globe)
    if max(array.heights.shape) <= MOST_POINTS:
        return mesh_of(array, error=error, triangles=triangles, unit=unit, globe=globe)
    from .join import mesh_of_array
    asked = _looked_through(array, error, triangles)
    if isinstance(asked, np.ndarray):
        raise ValueError(f"error is an array, which is for {MOST_POINTS} points a side: give one for all")
    return mesh_of_array(array, error=asked, triangles=triangles, unit=unit)


def _looked_through(array: Array, error: Optional[Tolerances], triangles: Optional[int]) -> Union[float, Floats, None]:
    """The error, or one for each point, of which some may be infinite; one of it and `triangles` is there."""
    if (error is None) == (triangles is None):
        raise ValueError("one of error and triangles is wanted")
    if triangles is not None:
        whole("triangles", triangles, 2, MOST_BUDGET)
    if error is None:
        return None
    found = np.asarray(error)
    if found.dtype.kind not in "iuf":
        raise TypeError(f"error is {error!r}, and has to be a number, or an array of numbers")
    if found.ndim == 0:
        if not 0 <= found < math.inf:
            raise ValueError(f"error is {error!r}, and has to be 0 or more, in the unit of the heights")
        return float(found)
    if found.shape != array.heights.shape:
        raise ValueError(f"error has the shape {found.shape}, and the heights have {array.heights.shape}")
    if not (found >= 0).all():
        raise ValueError(f"error has {found[~(found >= 0)][0]} among its numbers, and all have to be 0 or more")
    return found.astype(np.float64)


Count = Callable[[Numbers, bool], int]  #: of triangles that are given, and whether they are a rectangle, what is counted


def mesh_of(array: Array, *, error: Optional[Tolerances], triangles: Optional[int], unit: Optional[float],
            globe: bool = False, clip: Optional[Clip] = None, count: Optional[Count] = None) -> Mesh:
    """`fit`, of an array that is looked through.

    Args:
        clip: cuts off what of the mesh is not wanted.
        count: of triangles, how many are told as such; without it as many as there are.
    """
    asked = _looked_through(array, error, triangles)
    job = _Job(array, asked, triangles, unit, clip, count)
    if not globe:
        return job.fitted(array.heights, asked)
    if array.crs is None:
        raise ValueError("globe: the heights have no coordinate system, so their place on the globe is not known")
    return _curved(job, array)


def _curved(job: _Job, array: Array) -> Mesh:
    """A mesh whose error holds on the globe: of heights less the drop of the earth below a plane, which is added again.

    An error straight up or down is the same for heights that differ by a plane, so of the drop the curvature alone
    counts. What it leaves out, as the curvature differs from place to place, is looked for at the longest edges.
    """
    from .systems import Curvature, left_out
    assert array.crs is not None
    rows, columns = array.heights.shape
    middle = (columns - 1) / 2, (rows - 1) / 2
    earth = Curvature(array.crs, array.transform, *middle, reach=max(middle))
    at_column, at_row = np.arange(columns) - middle[0], np.arange(rows)[:, None] - middle[1]
    heights = array.heights + earth.drop(at_column, at_row)
    error = wanted = job.error
    for _ in range(4):
        found = job.fitted(heights, wanted)
        drop = earth.drop(found.column - middle[0], found.row - middle[1])
        found = replace(found, height=found.height - drop, is_curved=True, grid=None, rises=None)
        rest = left_out(found, earth, middle)
        off: Any = found.error if isinstance(error, float) else wanted
        if error is None or np.all(off + rest <= error):
            break
        wanted = max(0.0, error - 1.01 * rest) if isinstance(error, float) else np.maximum(0.0, error - 1.01 * rest)
    return replace(found, error=found.error + rest)


@dataclass(frozen=True)
class _Job:
    """What a mesh is to be made of, and how."""
    array: Array
    error: Union[float, Floats, None]
    triangles: Optional[int]
    unit: Optional[float]
    clip: Optional[Clip] = None
    count: Optional[Count] = None

    def fitted(self, heights: npt.NDArray[Any], error: Union[float, Floats, None]) -> Mesh:
        """The mesh of these heights at the places of the array, for an error, or for the job's triangles."""
        frame = _Frame(self.array, rounded(heights, self.unit), self.clip)
        if isinstance(error, np.ndarray) or error is not None and frame.counts is not None:
            return frame.placed(fit_with(frame.grid, frame.tolerances(error)).triangles)
        with Engine(frame.grid, 2) as engine:
            if error is not None:
                found = engine.fit(_tolerance(error, frame.steps))
            elif self.count is None and frame.is_whole:
                found = engine.fit(0, self.triangles)
            else:
                found = _within(engine, whole("triangles", self.triangles or 0, 2, MOST_BUDGET), self._counted(frame))
        return frame.placed(found.triangles, float(found.deviation))

    def _counted(self, frame: _Frame) -> Callable[[Numbers], int]:
        """Of an engine's triangles, how many are told."""
        def count(indices: Numbers) -> int:
            part = frame.part(indices)
            if self.count is None or not len(part.triangles):
                return len(part.triangles)
            return self.count(part.triangles, not frame.is_cut(part))
        return count


class _Frame:
    """The square grid of an array, and what of its meshes is shown.

    Attributes:
        grid: side x side numbers.
        counts: of the same shape: where there are heights; None where all points of the array have one.
    """

    def __init__(self, array: Array, steps: Rounded, clip: Optional[Clip] = None) -> None:
        self.array, self.steps, self.clip = array, steps, clip
        self.grid = padded(steps.numbers, side_of(array.heights.shape))
        self.counts: Optional[Flags] = None
        if array.holes is not None:
            rows, columns = array.heights.shape
            self.counts = np.zeros(self.grid.shape, bool)
            self.counts[:rows, :columns] = ~array.holes
        self.is_whole = clip is None and self.counts is None and self.grid.shape == array.heights.shape

    def tolerances(self, error: Union[float, Floats]) -> Numbers:
        """The engine's tolerance at each point, in thousandths; none where there is no height, and beyond the array."""
        rows, columns = self.array.heights.shape
        found = np.full(self.grid.shape, ANY, np.uint32)
        each = np.broadcast_to(_thousandths_of(error, self.steps), (rows, columns))
        found[:rows, :columns] = each if self.array.holes is None else np.where(self.array.holes, np.uint32(ANY), each)
        return found

    def shown(self, indices: Numbers) -> Numbers:
        """The triangles that have a point with a height."""
        return indices if self.counts is None else indices[have_any(indices, self.counts)]

    def part(self, indices: Numbers) -> GridMesh:
        """What of an engine's mesh is wanted."""
        rows, columns = self.array.heights.shape
        found = grid_mesh(self.shown(indices), self.grid, columns - 1, rows - 1)
        return self.clip(found) if self.clip else found

    def is_cut(self, part: GridMesh) -> bool:
        """Whether something within the array is left out."""
        rows, columns = self.array.heights.shape
        return self.clip is not None or self.counts is not None and area(part) < (rows - 1) * (columns - 1) - LITTLE

    def placed(self, indices: Numbers, off: Optional[float] = None) -> Mesh:
        """The mesh of an engine's triangles with heights for numbers, where the array lies.

        Args:
            off: how far it is off at all points of the grid, in units; without it, and where some have no height, those of the
                array that have one are measured.
        """
        array, steps, (rows, columns) = self.array, self.steps, self.array.heights.shape
        places, _ = compact(indices, self.grid.size)
        bare, side = None, self.grid.shape[0]
        if off is None or self.counts is not None:
            is_vertex = np.zeros(self.grid.size, bool)
            is_vertex[places] = True
            ground = surface(self.grid, is_vertex.reshape(self.grid.shape))
            each = np.abs(ground - self.grid)[:rows, :columns]
            off = float(each.max() if array.holes is None else each.max(where=~array.holes, initial=0.0))
        if self.counts is not None:
            bare = self._bare(indices)
        column, row, height, triangles = part = self.part(indices)
        at = np.rint(row).astype(np.int64), np.rint(column).astype(np.int64)
        slopes = np.column_stack(rises(steps.numbers, *at, steps.unit)).astype(np.float32)
        height *= steps.unit
        height += steps.base
        holes = 0 if array.holes is None else int(array.holes.sum())
        return Mesh(column, row, height, triangles[:, ::-1] if _turns(array.transform) else triangles,
                    off * steps.unit + steps.rounding, steps.rounding, steps.unit, (rows, columns), array.transform, array.crs,
                    array.filled, holes, alone(array.holes) if array.holes is not None else 0, is_clipped=self.is_cut(part),
                    grid=Grid(side, places, self.grid.reshape(-1)[places], steps.unit, steps.base, bare), rises=slopes)

    def _bare(self, indices: Numbers) -> Optional[npt.NDArray[np.uint8]]:
        """Points of the array on no triangle that is shown."""
        rows, columns = self.array.heights.shape
        is_bare = np.ones(self.grid.size, bool)
        for shape in shapes(self.shown(indices), self.grid.shape[0]):
            is_bare[shape.points] = False
        found = is_bare.reshape(self.grid.shape)[:rows, :columns]
        return np.packbits(found) if found.any() else None


def _tolerance(error: float, steps: Rounded) -> float:
    """The engine's tolerance, in units to thousandths, that with the rounding of the heights is within the error."""
    # By the decimals that floats print as, so that 0.3 is three tenths.
    exact = math.floor((Fraction(str(error)) - Fraction(steps.rounding)) / Fraction(str(steps.unit)) * 1000)
    if exact < 0:
        raise ValueError(f"error is {error:g}, and has to be at least {steps.rounding:.3g}, by which heights are rounded: "
                         "give a finer unit, or a smaller window")
    return min(exact, MOST_TOLERANCE) / 1000


def _thousandths_of(error: Union[float, Floats], steps: Rounded) -> Numbers:
    """The same in thousandths, of one error or of many, of which some may be infinite."""
    each, back = np.unique(np.atleast_1d(error), return_inverse=True)
    if each[0] < math.inf:
        _tolerance(float(each[0]), steps)  # or it is refused
    if len(each) > MOST_EXACT:
        found = np.floor((each - steps.rounding) / steps.unit * 1000 * (1 - 1e-12))
    else:
        found = np.array([round(1000 * _tolerance(it, steps)) if it < math.inf else ANY for it in each.tolist()], np.float64)
    thousandths = np.where(each < math.inf, np.minimum(found, MOST_TOLERANCE), ANY).astype(np.uint32)
    return thousandths[back].reshape(np.shape(error))


def _within(engine: Engine, triangles: int, count_of: Any) -> Fit:
    """The fit for a budget, where only a part of its mesh is wanted: that of the budget for the whole which leaves the
    part most of its own triangles, found by a few tries. The count of the part grows with the budget, but for a few."""
    finest = 2 * (engine.state().side - 1) ** 2
    low, high, budget, best = 1, finest + 1, min(triangles, finest), None
    for _ in range(10):
        found = engine.fit(0, budget)
        count = count_of(found.triangles)
        if count <= triangles:
            low, best = budget, found
            if count > 0.98 * triangles or budget == finest:
                break
        else:
            high = budget
        budget = max(low + 1, min(high - 1, int(budget * triangles / max(1, count))))
        if not low < budget < high:
            break
    if best is not None:
        return best
    least = engine.fit(0, 2)
    count = count_of(least.triangles)
    if count > triangles:
        raise ValueError(f"triangles is {triangles}, and has to be at least {count} for this shape")
    return least


def view(heights: Any, camera: tuple[float, float, float], triangles: int, *, cell: float = 1.0,
         transform: Optional[Transform] = None, crs: Optional[str] = None, nodata: Optional[float] = None,
         fill: Fill = None, unit: Optional[float] = None) -> Mesh:
    """The best mesh of at most `triangles` for a viewer: fine near the camera, coarse far from it.

    Args:
        heights, cell, transform, crs, nodata, fill, unit: as for `fit`. Where cells are not square, distances are taken
            as if they were squares of the same area.
        camera: x, y and height, as `transform` has them.
        triangles: the most, from 2 to 1,048,576.

    The error told is that of the whole mesh, and most of it is far away.

    >>> mesh = view(np.add.outer(np.arange(65.0) ** 2, np.arange(65.0)), (0, 0, 100), 200)
    >>> len(mesh.triangles) <= 200
    True
    """
    array = array_of(heights, nodata=nodata, fill=fill, cell=cell, transform=transform, crs=crs)
    return view_of(array, camera, triangles, unit=unit)


class Gridded(NamedTuple):
    """A square grid of whole heights for an engine with a camera."""
    numbers: npt.NDArray[np.uint16]  #: side x side; a height is base + unit * number, but for the rounding
    unit: float
    base: float
    rounding: float
    spacing: int  #: the length of a cell in units of height


def gridded(array: Array, step: Optional[float] = None, unit: Optional[float] = None) -> Gridded:
    """The grid of an array; `step` is the length of a cell in the unit of the heights, by `transform` without it."""
    if step is None:
        a, b, _, d, e, _ = array.transform
        step = math.sqrt(abs(a * e - b * d))
    if unit is None:
        unit = coarser_unit(rounded(array.heights).unit, step)
    steps = rounded(array.heights, unit)
    return Gridded(padded(steps.numbers, side_of(array.heights.shape)), unit, steps.base, steps.rounding, spacing_of(step, unit))


def coarser_unit(unit: float, step: float) -> float:
    """The unit, or where it is too fine for that, a coarser one of which a grid step has at most 1024."""
    return max(unit, next((it for it in UNITS if step / it <= MOST_SPACING), 1.0))


def spacing_of(step: float, unit: float) -> int:
    """The length of a grid step in units of height."""
    return whole("cell / unit", round(step / unit), 1, MOST_SPACING)


def view_of(array: Array, camera: tuple[float, float, float], triangles: int, *, step: Optional[float] = None,
            unit: Optional[float] = None) -> Mesh:
    """`view`, of an array that is looked through; `step` is the length of a cell in the unit of the heights."""
    whole("triangles", triangles, 2, MOST_TRIANGLES)
    rows, columns = array.heights.shape
    a, b, c, d, e, f = array.transform
    steps = gridded(array, step, unit)
    spacing, unit = steps.spacing, steps.unit
    frame = _Frame(array, rounded(array.heights, unit))
    grid = frame.grid
    below = grid.shape[0] - rows  # rows of the padding, which lie between y = 0 and the array
    column, row = np.linalg.solve([[a, b], [d, e]], [camera[0] - c, camera[1] - f])
    with Engine(grid, triangles, spacing) as engine:
        engine.camera(column * spacing, (rows - 1 - row + below) * spacing, (camera[2] - steps.base) / unit)
        # Nothing beyond the array is looked at.
        if columns < grid.shape[1]:
            engine.add_plane(-1, 0, 0, (columns - 1) * spacing)
        if below:
            engine.add_plane(0, 1, 0, -below * spacing)
        budget, part = triangles, None
        while part is None or len(part.triangles) > triangles:
            if part is not None:
                budget -= len(part.triangles) - triangles
            if budget < 2:
                raise ValueError(f"triangles is {triangles}, and has to be more for {rows} x {columns} points")
            engine.budget(budget)
            engine.frame()
            indices = engine.indices()
            part = frame.part(indices)
        return frame.placed(indices, float(engine.deviation()))

"""Heights by windows of what rasterio reads, from a file or a URL, and of .npy, PGM and .hgt; and meshes of them.

A raster is meshed in its own grid: nothing is resampled, whatever its coordinate system; the vertices alone are brought to
another one. `transform` is that of points: the middle of the first cell is column 0, row 0.
"""
from __future__ import annotations

import functools
import math
import os
import threading
import warnings
from dataclasses import dataclass, replace
from typing import Any, Callable, Iterator, NamedTuple, Optional, Sequence

import numpy as np
import numpy.typing as npt

from . import formats, systems
from ._types import Fill, Flags, Floats, Path, Transform
from .formats import Unreadable
from .heights import MOST_POINTS, NOTHING, fill_of, filled, is_none, suspect
from .mesh import Array, Count, Mesh, mesh_of, view_of, with_holes

REACH = 64  # points, over which holes are filled from their edges, where a raster is read by windows
APART = 1025  # heights a side, between which wider holes are filled
HIGHEST = 1e9  # metres: above it, and below its negative, is no height
EDGE = 64  # points of the first and of the last column that are looked at, for heights that stand for none
FEET = {"ft": 0.3048, "foot": 0.3048, "feet": 0.3048, "us-ft": 1200 / 3937, "ftus": 1200 / 3937,
        "us survey foot": 1200 / 3937, "cm": 0.01, "dm": 0.1, "mm": 0.001, "km": 1000.0}
ENCODED = " or ".join(formats.ENCODINGS)
METRES = ("", "m", "metre", "meter", "metres", "meters")
AT_ONCE = 1 << 24  # heights that are in memory at a time, where a raster is read by strips
MOST_OPEN = 64  # datasets
Progress = Callable[[int, int], None]  #: how much is done, of how much


class Window(NamedTuple):
    """A part of a raster."""
    row: int
    column: int
    rows: int
    columns: int


@dataclass(frozen=True)
class Raster:
    """Where heights lie, and how they are meant; picklable: each process and thread opens the file anew."""
    path: str
    form: str  #: gdal, npy, pgm or hgt
    band: int
    shape: tuple[int, int]  #: rows and columns
    transform: Transform  #: from column and row of a point to x and y
    crs: Optional[str]  #: WKT or EPSG:code
    nodata: Optional[float]
    factor: float  #: heights in metres are numbers times factor plus offset
    offset: float
    dtype: str
    encoding: Optional[str] = None  #: terrain-rgb or terrarium, where colours are heights
    corner: tuple[int, int] = (0, 0)  #: row and column of the file's points that are (0, 0) here
    fill: Fill = None  #: the height of points without one; "smooth": from their edges
    within: Optional[str] = None  #: polygons by the file's columns and rows, without which there are no heights: WKB
    mask: Optional[int] = None  #: the band that is 0 where there is no height; 0: the file's mask; None: there is none

    @property
    def is_whole(self) -> bool:
        """Whether all heights are whole metres."""
        are_whole = np.dtype(self.dtype).kind in "iu" and (self.factor, self.offset) == (1, 0) and self.encoding is None
        return are_whole and (not isinstance(self.fill, float) or self.fill.is_integer())

    def filled(self, fill: Fill) -> Raster:
        """The same with heights where it has none."""
        return replace(self, fill=fill_of(fill))

    def masked(self, polygons: Any) -> Raster:
        """The same without heights beyond polygons that are in its system."""
        from shapely import wkb

        from .mask import by_points
        a, b, c, d, e, f = self.transform
        row, column = self.corner
        whole = a, b, c - a * column - b * row, d, e, f - d * column - e * row
        return replace(self, within=wkb.dumps(by_points(polygons, whole), hex=True))

    def heights(self, row: int, column: int, rows: int, columns: int) -> npt.NDArray[Any]:
        """Shape (rows, columns): metres, float32 (float64 from wide types), NaN where there is none."""
        found = self._heights(row, column, rows, columns)
        if self.fill is None or not np.isnan(found.min()):
            return found
        holes = np.isnan(found)
        found[holes] = self.fill if isinstance(self.fill, float) else self._smooth(row, column, rows, columns)[holes]
        return found

    def _smooth(self, row: int, column: int, rows: int, columns: int) -> npt.NDArray[Any]:
        """What fills the holes of a window: from their edges, as far as REACH; beyond that between heights that lie apart.

        GDAL's filling looks no farther than its distance, so with a rim of that width two windows fill a hole alike.
        """
        from rasterio.fill import fillnodata
        coarse, every = _coarse(replace(self, fill=None), self.stamps())
        up, left = min(REACH, row), min(REACH, column)
        height, width = (min(count + before + REACH, all_ - at + before) for count, before, all_, at in
                         ((rows, up, self.shape[0], row), (columns, left, self.shape[1], column)))
        wide = self._heights(row - up, column - left, height, width).astype(np.float32)
        is_there, nothing = ~np.isnan(wide), np.float32(-1e30)
        near = fillnodata(np.where(is_there, wide, nothing), mask=is_there.astype(np.uint8), max_search_distance=REACH)
        near = near[up:up + rows, left:left + columns]
        far = _bilinear(coarse, (row + np.arange(rows)) / every, (column + np.arange(columns)) / every)
        found = np.where(near > nothing / 10, near, far)
        return np.asarray(np.rint(found) if self.is_whole else found)

    def _heights(self, row: int, column: int, rows: int, columns: int) -> npt.NDArray[Any]:
        numbers = self._numbers(self.corner[0] + row, self.corner[1] + column, rows, columns)
        is_wide = numbers.dtype.itemsize > (4 if numbers.dtype.kind == "f" else 2)
        kind = np.float64 if is_wide else np.float32
        holes = is_none(numbers, self.nodata)
        if self.within is not None:
            holes |= _beyond(self.within, self.corner[0] + row, self.corner[1] + column, rows, columns)
        if self.mask is not None:
            holes |= self._mask(self.corner[0] + row, self.corner[1] + column, rows, columns) == 0
        heights = numbers.astype(kind, copy=False)
        heights[holes] = np.nan
        self._refuse_high(heights, row, column)
        if (self.factor, self.offset) != (1, 0):
            heights = heights * kind(self.factor) + kind(self.offset)
        return heights

    def _numbers(self, row: int, column: int, rows: int, columns: int) -> npt.NDArray[Any]:
        if self.form != "gdal":
            return np.array(formats.array_of_file(self.path, self.form)[row:row + rows, column:column + columns])
        bands = [1, 2, 3] if self.encoding else self.band
        found = self._read("read", bands, row, column, rows, columns)
        return formats.decoded(self.encoding, found) if self.encoding else found

    def _refuse_high(self, heights: npt.NDArray[Any], row: int, column: int) -> None:
        """Refuses what is no height, so that it goes into no mesh."""
        is_high = np.abs(heights) > HIGHEST if heights.dtype.kind == "f" else np.zeros(0, bool)
        if is_high.any():
            i, j = np.argwhere(is_high)[0].tolist()
            raise Unreadable(f"{self.path} has the height {heights[i, j]:g} at column {column + j}, row {row + i}, and heights "
                             f"have to be finite, {HIGHEST:g} at most: give --nodata {heights[i, j]:g} if it stands for none")

    def _mask(self, row: int, column: int, rows: int, columns: int) -> npt.NDArray[Any]:
        """0 where the file's mask, or its alpha band, says that there is no height."""
        call, band = ("read", self.mask) if self.mask else ("read_masks", self.band)
        return self._read(call, band, row, column, rows, columns)

    def _read(self, call: str, bands: Any, row: int, column: int, rows: int, columns: int) -> npt.NDArray[Any]:
        from rasterio.errors import RasterioError, RasterioIOError
        try:
            window = (row, row + rows), (column, column + columns)
            return np.asarray(getattr(_dataset(self.path), call)(bands, window=window))
        except (RasterioError, RasterioIOError) as why:
            raise Unreadable(f"{self.path} cannot be read to its end: {why}") from None

    def suspect(self) -> Optional[str]:
        """A warning, where most of the edge has a number that may stand for no height and the file does not say so."""
        rows, columns = self.shape
        if self.nodata is not None or self.mask is not None:
            return None
        is_far = "://" in self.path or self.path.startswith("/vsi")
        some = [] if is_far else np.unique(np.linspace(0, rows - 1, min(rows, EDGE)).astype(int)).tolist()
        lines = [self.heights(row, 0, 1, columns)[0] for row in (0, rows - 1)]
        lines += [self.heights(row, column, 1, 1)[0] for row in some for column in (0, columns - 1)]
        found = np.concatenate(lines), self.heights(rows // 2, 0, 1, columns)
        edge, within = ((it - self.offset) / self.factor for it in found)
        return suspect(edge, within, (0.0, *NOTHING))

    def part(self, window: Optional[Sequence[int]]) -> Raster:
        """A window of it as a raster of its own."""
        row, column, rows, columns = self.window(window)
        a, b, c, d, e, f = self.transform
        return replace(self, shape=(rows, columns), corner=(self.corner[0] + row, self.corner[1] + column),
                       transform=(a, b, a * column + b * row + c, d, e, d * column + e * row + f))

    def absolute(self) -> Raster:
        """The same under a name that holds in any folder."""
        return self if "://" in self.path else replace(self, path=os.path.abspath(self.path))

    def stamps(self) -> tuple[tuple[str, int, int], ...]:
        """The files that the heights come from, each with when it was written and its size; of a URL nothing is known."""
        paths = _dataset(self.path).files if self.form == "gdal" else [self.path]
        return tuple((path, *formats.stamp(path)) for path in sorted(paths))

    def strips(self, window: Window, every: int = 1,
               progress: Optional[Progress] = None) -> Iterator[tuple[int, npt.NDArray[Any]]]:
        """First row, counted from the window's, and heights of some rows at a time."""
        row, column, rows, columns = window
        at_once = max(1, AT_ONCE // columns // every) * every
        for begin in range(0, rows, at_once):
            yield begin, self.heights(row + begin, column, min(at_once, rows - begin), columns)
            if progress:
                progress(min(begin + at_once, rows), rows)

    def points(self, window: Window, every: int = 1, progress: Optional[Progress] = None) -> npt.NDArray[Any]:
        """The heights of each `every`-th point of a window along rows and along columns."""
        return np.concatenate([heights[::every, ::every] for _, heights in self.strips(window, every, progress)])

    def window(self, window: Optional[Sequence[int]] = None) -> Window:
        """The window, if it is within the raster; without one all of it."""
        if window is None:
            return Window(0, 0, *self.shape)
        row, column, rows, columns = found = Window(*window)
        if min(row, column) < 0 or min(rows, columns) < 2 or row + rows > self.shape[0] or column + columns > self.shape[1]:
            raise ValueError(f"window is {columns} columns from {column} and {rows} rows from {row}, and has to be 2 or more of "
                             f"each within {self.shape[1]} columns and {self.shape[0]} rows")
        return found

    def window_about(self, polygons: Any, window: Optional[Sequence[int]] = None) -> Window:
        """As much of a window as polygons lie over, which are in the raster's own system."""
        from .mask import by_points
        row, column, rows, columns = self.window(window)
        left, top, right, bottom = by_points(polygons, self.transform).bounds
        first_row, first_column = max(row, math.floor(top)), max(column, math.floor(left))
        last_row, last_column = min(row + rows - 1, math.ceil(bottom)), min(column + columns - 1, math.ceil(right))
        if last_row <= first_row or last_column <= first_column:
            raise ValueError("mask: no polygon lies over the heights that were read")
        return Window(first_row, first_column, last_row - first_row + 1, last_column - first_column + 1)

    def window_of(self, bounds: tuple[float, float, float, float]) -> Window:
        """The points within bounds: least x, least y, greatest x, greatest y, in the raster's own system."""
        a, b, c, d, e, f = self.transform
        if b or d:
            raise ValueError("bounds are for rasters whose rows lie along x: give a window")
        low, high = bounds[:2], bounds[2:]
        places = []
        for step, first, count, least, most in ((e, f, self.shape[0], low[1], high[1]), (a, c, self.shape[1], low[0], high[0])):
            ends = sorted(((least - first) / step, (most - first) / step))
            begin, end = max(0, math.ceil(ends[0] - 1e-6)), min(count - 1, math.floor(ends[1] + 1e-6))
            places.append((begin, end - begin + 1))
        (row, rows), (column, columns) = places
        if rows < 2 or columns < 2:
            x, y = sorted((c, c + a * (self.shape[1] - 1))), sorted((f, f + e * (self.shape[0] - 1)))
            raise ValueError(f"bounds are {','.join(f'{it:g}' for it in bounds)}, and have to hold 2 or more columns and rows "
                             f"of {x[0]:.9g},{y[0]:.9g},{x[1]:.9g},{y[1]:.9g}, the points of the file")
        return Window(row, column, rows, columns)


def _beyond(within: str, row: int, column: int, rows: int, columns: int) -> Flags:
    """Which points of a window lie beyond polygons."""
    from rasterio.features import rasterize
    from rasterio.transform import Affine
    found = rasterize([_polygons(within)], (rows, columns), transform=Affine.translation(column - 0.5, row - 0.5), dtype=np.uint8)
    return np.asarray(found == 0)


@functools.lru_cache(maxsize=4)
def _polygons(within: str) -> Any:
    from shapely import wkb
    return wkb.loads(within, hex=True)


@functools.lru_cache(maxsize=4)
def _coarse(raster: Raster, stamps: tuple[tuple[str, int, int], ...]) -> tuple[Floats, int]:
    """Heights that lie apart, with one at each point, and how many points they do."""
    every = max(1, -(-(max(raster.shape) - 1) // (APART - 1)))
    heights = raster.points(raster.window(), every).astype(np.float64)
    return filled(heights, np.isnan(heights)).heights, every


def _bilinear(heights: Floats, row: Floats, column: Floats) -> Floats:
    """Between the heights at rows and columns, and beyond the last ones what these have."""
    i, j = (np.clip(at.astype(np.int64), 0, max(0, count - 2)) for at, count in zip((row, column), heights.shape))
    down, right = np.clip(row - i, 0, 1)[:, None], np.clip(column - j, 0, 1)
    below, after = np.minimum(i + 1, heights.shape[0] - 1), np.minimum(j + 1, heights.shape[1] - 1)
    upper, lower = (heights[it][:, j] * (1 - right) + heights[it][:, after] * right for it in (i, below))
    found: Floats = upper * (1 - down) + lower * down
    return found


_open: dict[tuple[int, str, tuple[int, int]], Any] = {}


def _dataset(path: str) -> Any:
    """An open dataset, one for each thread: GDAL's are not for two threads at once."""
    key = threading.get_ident(), path, formats.stamp(path)
    if key not in _open:
        if len(_open) >= MOST_OPEN:
            _open.clear()
        _open[key] = opened(path)
    return _open[key]


def opened(path: str) -> Any:
    """A dataset of rasterio, without its warning that a file has no place."""
    import rasterio
    with warnings.catch_warnings():
        warnings.simplefilter("ignore", rasterio.errors.NotGeoreferencedWarning)
        return rasterio.open(path)


def open_raster(path: Path, *, band: Optional[int] = None, nodata: Optional[float] = None, spacing: Optional[float] = None,
                crs: Optional[str] = None, vertical: Optional[str] = None, encoding: Optional[str] = None,
                scale: Optional[float] = None, offset: Optional[float] = None) -> Raster:
    """What a file holds, without reading its heights.

    Args:
        path: a file, or whatever else rasterio opens.
        band: counted from 1; without it the first one.
        nodata: the number that stands for no height, where the file does not say.
        spacing: metres from point to point, where the file does not say.
        crs: the coordinate system, where the file does not say.
        vertical: what heights are over, as EPSG:5773 (EGM96) or EPSG:3855 (EGM2008).
        encoding: terrain-rgb or terrarium, for pictures whose colours are heights.
        scale, offset: heights in metres are numbers times scale plus offset, whatever the file says.

    Raises:
        Unreadable: the file is none that can be read, or none of heights, and what mends it.

    >>> import tempfile
    >>> with tempfile.TemporaryDirectory() as folder:
    ...     np.save(folder + "/a.npy", np.zeros((40, 50)))
    ...     raster = open_raster(folder + "/a.npy", spacing=30)
    ...     found = fit_raster(raster, error=1, window=(10, 0, 30, 50))
    >>> raster.shape, found.mesh.shape, found.every, len(found.mesh.triangles) < 9
    ((40, 50), (30, 50), 1, True)
    """
    path = os.fspath(path)
    if encoding is not None and encoding not in formats.ENCODINGS:
        raise ValueError(f"encoding is {encoding!r}, and has to be one of {', '.join(formats.ENCODINGS)}")
    form = formats.form_of(path)
    if form == "gdal":
        found = _by_gdal(path, band, crs, encoding)
    elif form == "hgt":
        side, west, south = formats.tile_of_name(path)
        step = 1 / (side - 1)
        found = Raster(path, form, 1, (side, side), (step, 0.0, west, 0.0, -step, south + 1.0), "EPSG:4326", -32768.0,
                       1.0, 0.0, "int16")
    else:
        array = formats.array_of_file(path, form)
        found = Raster(path, form, 1, (array.shape[0], array.shape[1]), (0.0,) * 6, crs, None, 1.0, 0.0, str(array.dtype))
    if spacing:
        found = replace(found, transform=(spacing, 0.0, 0.0, 0.0, -spacing, spacing * (found.shape[0] - 1)), crs=crs)
    elif found.transform[0] == 0 == found.transform[1]:
        raise Unreadable(f"{path} does not say how far apart its points are: give --spacing METRES")
    if scale is not None or offset is not None:
        found = replace(found, factor=1.0 if scale is None else scale, offset=offset or 0.0)
    if nodata is not None:
        found = replace(found, nodata=nodata)
    if crs is not None:
        found = replace(found, crs=systems.in_metres(crs))
    if vertical is not None:
        found = replace(found, crs=systems.with_heights(found.crs, vertical))
    systems.refuse_beyond(found.crs, found.transform, found.shape)
    return found


def _by_gdal(path: str, chosen: Optional[int], crs: Optional[str], encoding: Optional[str]) -> Raster:
    import rasterio
    from rasterio.enums import ColorInterp, MaskFlags
    band = chosen or 1
    try:
        with opened(path) as it:
            if chosen is None and encoding is None:
                _refuse_picture(path, it)
            bands = 3 if encoding else band
            if not 1 <= bands <= it.count:
                what = f"encoding {encoding} wants 3 bands" if encoding else f"band is {band}"
                raise ValueError(f"{what}, and {path} has {it.count}")
            k = band - 1
            alpha = [place for place, what in enumerate(it.colorinterp, 1) if what == ColorInterp.alpha and place != band]
            mask = alpha[0] if alpha else 0 if MaskFlags.per_dataset in it.mask_flag_enums[k] else None
            rows, columns, a, wkt = it.height, it.width, it.transform, it.crs.to_wkt() if it.crs else None
            nodata, scale, offset, dtype = it.nodatavals[k], it.scales[k], it.offsets[k], it.dtypes[k]
            unit = (it.units[k] or "").strip().lower()
    except rasterio.errors.RasterioIOError as why:
        raise Unreadable(f"{path}: {why}" if path not in str(why) else str(why)) from None
    if "complex" in dtype:
        raise Unreadable(f"{path}: band {band} has complex numbers, and has to have heights")
    if unit not in METRES and unit not in FEET:
        raise Unreadable(f"{path} says that its heights are in {unit!r}, which is not known here")
    factor = FEET.get(unit, 1.0) if unit not in METRES else systems.metres_of_height(crs or wkt)
    if wkt is not None:
        wkt = systems.in_metres(wkt)  # as the heights are
    transform: Transform = (0.0,) * 6 if a.is_identity else (
        a.a, a.b, a.c + (a.a + a.b) / 2, a.d, a.e, a.f + (a.d + a.e) / 2)
    local = systems.metres_of_local(wkt) if wkt is not None else None
    if local is not None:  # a grid of a site, which is nowhere on the earth: metres without a system
        a, b, c, d, e, f = (local * it for it in transform)
        transform, wkt = (a, b, c, d, e, f), None
    return Raster(path, "gdal", band, (rows, columns), transform, wkt, None if encoding else nodata,
                  1.0 if encoding else scale * factor, 0.0 if encoding else offset * factor, dtype, encoding,
                  mask=mask)


def _refuse_picture(path: str, dataset: Any) -> None:
    """Refuses a photograph and a map of classes, whose bytes are no heights."""
    from rasterio.enums import ColorInterp
    names = [it.name for it in dataset.colorinterp]
    if dataset.count >= 3 and set(dataset.dtypes[:3]) == {"uint8"}:
        what = "three bands of bytes, as a photograph has"
    elif dataset.colorinterp[0] == ColorInterp.palette and dataset.dtypes[0] == "uint8":
        what = "a palette, whose numbers are names of colours"
    else:
        return
    raise Unreadable(f"{path} has {what} ({', '.join(names)}), and has to have heights: give --encoding {ENCODED} where its "
                     "colours are heights, or --band 1 where the first band has them")


class RasterArray(NamedTuple):
    """Heights of a raster in memory, and of which points."""
    array: Array
    window: Window
    every: int  #: one of so many points was taken, along rows and along columns


def array_of_raster(raster: Raster, *, window: Optional[Sequence[int]] = None, every: Optional[int] = None,
                    fill: Fill = None, progress: Optional[Progress] = None) -> RasterArray:
    """The points of a window (row, column, rows, columns), as few left out as 2049 a side need."""
    part = raster.window(window)
    step = every or max(1, math.ceil((max(part.rows, part.columns) - 1) / 2048))
    heights = raster.points(part, step, progress)
    holes = np.isnan(heights)
    if raster.is_whole:
        heights = np.where(holes, 0, heights).astype(np.int64)
    a, b, c, d, e, f = raster.transform
    column, row = part.column, part.row
    transform: Transform = (a * step, b * step, a * column + b * row + c, d * step, e * step, d * column + e * row + f)
    return RasterArray(with_holes(heights, holes, fill, transform, raster.crs), part, step)


class RasterMesh(NamedTuple):
    """A mesh of a raster, and of which points."""
    mesh: Mesh
    window: Window
    every: int  #: one of so many points was taken, along rows and along columns


def fit_raster(raster: Raster, *, error: Optional[float] = None, triangles: Optional[int] = None,
               window: Optional[Sequence[int]] = None, every: Optional[int] = None, fill: Fill = None,
               unit: Optional[float] = None, camera: Optional[tuple[float, float, float]] = None, globe: bool = False,
               polygons: Any = None, count: Optional[Count] = None, progress: Optional[Progress] = None) -> RasterMesh:
    """The mesh of a raster, or of a window (row, column, rows, columns) of it.

    Where there are more than 2049 points along a side, each second one is taken, or each third, ..; `error` holds at those
    taken, and `measured` tells how far the others are off.

    Args:
        camera: for `triangles`: x, y and height of a viewer, in the raster's system.
        globe: the error is to hold on the globe.
        polygons: a shapely geometry in the raster's system, along whose outline the mesh is cut; nothing else is read.
        count: of triangles, how many are told as such: for solids.
        error, triangles, fill, unit: as for `calfrewin.fit`.
    """
    if polygons is not None:
        window = raster.window_about(polygons, window)
    array, part, step = array_of_raster(raster, window=window, every=every, fill=fill, progress=progress)
    if camera is None:
        clip = None
        if polygons is not None:
            from .mask import clip_to
            clip = clip_to(polygons, array.transform, (array.heights.shape[0], array.heights.shape[1]))
        return RasterMesh(mesh_of(array, error=error, triangles=triangles, unit=unit, globe=globe, clip=clip, count=count), part,
                          step)
    if polygons is not None:
        raise ValueError("camera and polygons are not for one mesh")
    if triangles is None:
        raise ValueError("camera is for triangles, and no number of these is given")
    cell = systems.metres_of_cell(raster.crs, array.transform, array.heights.shape)
    return RasterMesh(view_of(array, camera, triangles, step=cell, unit=unit), part, step)


def fit_file(path: Path, *, error: Optional[float] = None, triangles: Optional[int] = None,
             window: Optional[Sequence[int]] = None, bounds: Optional[tuple[float, float, float, float]] = None,
             mask: Optional[Path] = None, every: Optional[int] = None, fill: Fill = None, unit: Optional[float] = None,
             globe: bool = False, band: Optional[int] = None, nodata: Optional[float] = None, spacing: Optional[float] = None,
             crs: Optional[str] = None, vertical: Optional[str] = None, encoding: Optional[str] = None,
             scale: Optional[float] = None, offset: Optional[float] = None) -> Mesh:
    """The mesh of what a file holds, as `fit` makes it.

    Args:
        window: row, column, rows, columns of a part.
        bounds: a part by the file's system: least x, least y, greatest x, greatest y.
        mask: a file of polygons; of more than 2049 points a side those within count, otherwise the mesh is cut along them.
        every: takes every nth point along rows and along columns; without it all, above 2049 a side as tiles that are joined.
        error, triangles, fill, unit, globe: as for `fit`.
        band, nodata, spacing, crs, vertical, encoding, scale, offset: as for `raster.open_raster`.

    >>> import tempfile
    >>> with tempfile.TemporaryDirectory() as folder:
    ...     np.save(folder + "/a.npy", np.zeros((40, 50)))
    ...     fit_file(folder + "/a.npy", error=1, spacing=30).vertices.max(0).tolist()
    [1470.0, 1170.0, 0.0]
    """
    raster = open_raster(path, band=band, nodata=nodata, spacing=spacing, crs=crs, vertical=vertical, encoding=encoding,
                         scale=scale, offset=offset)
    told = raster.suspect()
    if told is not None:
        warnings.warn(told, stacklevel=2)
    if window is not None and bounds is not None:
        raise ValueError("one of window and bounds is wanted")
    part = raster.window_of(bounds) if bounds is not None else raster.window(window)
    polygons = None
    if mask is not None:
        from .mask import mask_of
        polygons = mask_of(os.fspath(mask), raster.crs)
        part = raster.window_about(polygons, part)
    if max(part.rows, part.columns) <= MOST_POINTS or every is not None or globe:
        return fit_raster(raster, error=error, triangles=triangles, window=part, every=every, fill=fill, unit=unit, globe=globe,
                          polygons=polygons).mesh
    from .join import mesh_of_tiles
    source = (raster if polygons is None else raster.masked(polygons)).part(part)
    return mesh_of_tiles(source, error=error, triangles=triangles, unit=unit, fill=fill)


def measured(raster: Raster, found: RasterMesh, progress: Optional[Progress] = None) -> float:
    """How far the file's points, also those that were left out, are from the mesh at most, straight up or down."""
    ground, every, worst = found.mesh.surface(), found.every, 0.0
    last_row, last_column = ground.shape[0] - 2, ground.shape[1] - 2
    for begin, heights in raster.strips(found.window, every, progress):
        column = np.arange(heights.shape[1])
        j = np.minimum(column // every, last_column)
        right = column / every - j
        for k in range(len(heights)):
            i = min((begin + k) // every, last_row)
            down = (begin + k) / every - i
            if down > 1:  # beyond the last row that was taken
                continue
            off = np.abs(_between(ground[i], ground[i + 1], i, j, right, down) - heights[k])
            worst = max(worst, float(np.nanmax(off[right <= 1], initial=0.0)))
    return worst


def _between(north: Floats, south: Floats, i: int, j: npt.NDArray[np.int64], right: Floats, down: float) -> Floats:
    """Heights within the cells (i, j), each of two triangles whose diagonal turns from cell to cell."""
    nw, ne, sw, se = north[j], north[j + 1], south[j], south[j + 1]
    falls = np.where(right >= down, nw + right * (ne - nw) + down * (se - ne), nw + down * (sw - nw) + right * (se - sw))
    rises = np.where(right + down <= 1, nw + right * (ne - nw) + down * (sw - nw),
                     se + (1 - right) * (sw - se) + (1 - down) * (ne - se))
    return np.where((i + j) % 2 == 0, falls, rises)

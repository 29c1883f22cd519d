"""One tile: its mesh in the raster's own grid, and its vertices on the earth, as a GLB about the tile's middle.

The mesh is of heights less the drop of the earth below the plane that touches it in the tile's middle, so that flat sea
is cut as often as the earth is round. Vertices are brought to the earth exactly (PROJ).
"""
from __future__ import annotations

import hashlib
import os
import time
from typing import NamedTuple, Optional

import numpy as np
import numpy.typing as npt

from . import files
from ._types import Flags, Floats, Numbers
from .blocks import Multiples, Points
from .clip import GridMesh, as_far_as, points_mesh, with_triangles
from .engine import MOST_TOLERANCE
from .fitter import ANY, Fitter
from .glb import glb, y_up
from .ground import Ground, ground_of
from .heights import rises
from .mesh import surface
from .shapes import have_any
from .sides import Sides, required_of, sides_of, with_fans
from .systems import GEODETIC, Curvature, geocentric, transformer
from .tileset import Plan, Tile, name

MARGIN = 1e-8  # radians, around a region
WHOLE = 1e-6  # of a unit: what is off by less is a multiple, but for the last bits of a float
Y_UP = np.array([[1, 0, 0, 0], [0, 0, 1, 0], [0, -1, 0, 0], [0, 0, 0, 1]], float)  # takes axes with z up to those of glTF


class Place(NamedTuple):
    """Where a tile lies in the raster."""
    level: int
    row: int
    column: int
    last_row: float  #: where the raster ends, in steps of the level from the tile's first point; at most its side
    last_column: float
    middle: tuple[float, float]  #: column and row of the raster's points
    earth: Curvature


class TileMesh(NamedTuple):
    """A mesh of a tile of level 0."""
    indices: Numbers
    border: Numbers  #: its vertices on the border
    error: float  #: how far the tile's points are from it at most, in metres, with the rounding


class Part(NamedTuple):
    """What a tile is made of."""
    points: Points  #: side x side of its level
    away: float = 0.0  #: how far points of the raster that the level leaves out are from the finest mesh of its own, at most
    shows: Optional[Flags] = None  #: near which of its points the raster has heights; None: all
    sides: Optional[Sides] = None  #: above level 0: which vertices its borders get
    mesh: Optional[TileMesh] = None  #: at level 0: its mesh, where that is made already


class Fitted(NamedTuple):
    """A tile's mesh over its own grid."""
    row: Floats  #: of each vertex, in steps of the level from the tile's first point
    column: Floats
    height: Floats  #: over the sea, in metres
    triangles: Numbers
    error: float  #: how far points of the raster are from it at most, in metres


class Placed(NamedTuple):
    """Vertices in a tile's own frame."""
    points: Floats
    feet: Floats  #: straight below each vertex, where its skirt ends
    over: Floats  #: heights over the ellipsoid
    region: tuple[float, float, float, float]


def place_of(plan: Plan, level: int, row: int, column: int) -> Place:
    """Where the tile (row, column) of a level lies."""
    step = float(1 << level)
    last_row, last_column = (min(float(plan.steps), (points - 1) / step - at * plan.steps)
                             for points, at in zip(plan.raster.shape, (row, column)))
    middle = (column * plan.steps + last_column / 2) * step, (row * plan.steps + last_row / 2) * step
    return Place(level, row, column, last_row, last_column, middle, plan.curvature(*middle, level))


class Written(NamedTuple):
    """What a tile hands to the one above."""
    tile: Optional[Tile]  #: None where there was nothing to write
    sides: Optional[Sides]  #: its border, where tiles match


def write_tile(plan: Plan, level: int, row: int, column: int, part: Part, seconds: dict[str, float]) -> Written:
    """Meshes and writes the tile of these points; where no triangle has a point of the raster's, there is no file.

    Args:
        seconds: by stage, to which this tile's are added.
    """
    place, began = place_of(plan, level, row, column), time.perf_counter()
    mesh, sides = _fitted(plan, place, part)
    met = time.perf_counter()
    if not len(mesh.triangles):
        return Written(None, sides)
    skirt = 2 * (plan.error * 2 ** level + part.away) if plan.skirts else 0.0
    placed = _on_earth(plan, place, mesh, skirt)
    pieces = _glb(plan, place, mesh, placed, part.points.numbers, mesh.error)
    done = time.perf_counter()
    path = os.path.join(plan.out, name(plan, level, row, column))
    os.makedirs(os.path.dirname(path), exist_ok=True)
    digest = hashlib.blake2b(digest_size=32)
    for piece in pieces.data:
        digest.update(piece)
    files.write_bytes(path, *pieces.data)
    for stage, spent in (("mesh", met - began), ("place", done - met), ("write", time.perf_counter() - done)):
        seconds[stage] = seconds.get(stage, 0.0) + spent
    return Written(Tile(level, row, column, mesh.error, float(placed.over.min()) - skirt, float(placed.over.max()), placed.region,
                        pieces.triangles, sum(memoryview(piece).nbytes for piece in pieces.data), digest.hexdigest()), sides)


def _fitted(plan: Plan, place: Place, part: Part) -> tuple[Fitted, Optional[Sides]]:
    points, sides = part.points, part.sides
    if part.mesh is not None:
        indices, error = part.mesh.indices, part.mesh.error
        sides = sides_of(part.mesh.border, points.numbers)
    else:
        ground = ground_of(plan, place.level, place.row, place.column, points)
        with Fitter(ground.grid) as fitter:
            if sides is None:
                fitter.fit(ground.tolerances(plan.error * 2 ** place.level, points))
            else:
                _fit_within(fitter, plan, place, part, ground)
            indices = fitter.indices()
            error = off_by(fitter, indices, ground, points) + part.away
            rounding = ground.rounding
    mesh = shown(indices, points, part.shows)
    if part.sides is not None:
        mesh, count = with_fans(mesh, part.sides, place.level, plan.steps), len(mesh.column)
        # A fan is off its triangle by no more than points left out may be, and so is the triangle off these.
        error = max(error, rounding + 2 * part.away if len(mesh.column) > count else 0.0)
    column, row, height, triangles = cut(plan, place, with_triangles(mesh, mesh.triangles))
    if np.linalg.det(place.earth.jacobian) > 0:  # columns and rows as east and north turn the other way
        triangles = triangles[:, ::-1]
    return Fitted(row, column, height, triangles, error), sides


def off_by(fitter: Fitter, indices: Optional[Numbers], ground: Ground, points: Points) -> float:
    """How far the points of a tile that count are from its mesh at most, in metres, with the rounding."""
    if points.counts is None:
        off = float(fitter.deviation())
    else:
        is_vertex = np.zeros(ground.grid.shape, bool)
        is_vertex.reshape(-1)[fitter.indices() if indices is None else indices] = True
        off = float(np.abs(surface(ground.grid, is_vertex) - ground.grid).max(where=points.counts, initial=0.0))
    return off * ground.unit + ground.rounding


def shown(indices: Numbers, points: Points, shows: Optional[Flags]) -> GridMesh:
    """The triangles of a fitter's mesh that have a point near which there are heights; numbers are the plan's multiples."""
    return points_mesh(indices if shows is None else indices[have_any(indices, shows)], points.numbers)


def _fit_within(fitter: Fitter, plan: Plan, place: Place, part: Part, ground: Ground) -> None:
    """Fits a tile of a coarser level, whose borders have the finest level's vertices and no others.

    They never get others where all tiles have one form of curvature and the plan's unit; where not, a greater error helps.
    """
    assert part.sides is not None
    required = required_of(part.sides, place.level, plan.steps)
    error, counts = plan.error * 2 ** place.level, part.points.counts
    while True:
        one = ground.tolerance(max(error, ground.rounding))
        fitter.fit(one / 1000 if counts is None else np.where(counts, np.uint32(one), np.uint32(ANY)), required)
        more = np.setdiff1d(fitter.border(), required, assume_unique=True)
        # Beyond the last tiles of the finest level nothing is shown, and borders may have what the rest asks for.
        row, column = (it * (1 << place.level) for it in np.divmod(more, plan.steps + 1))
        rows, columns = (plan.steps * (count - (at << place.level)) for count, at in
                         zip(plan.count(0), (place.row, place.column)))
        if not ((row <= rows) & (column <= columns)).any():
            return
        if one == MOST_TOLERANCE:
            raise RuntimeError("the finest tiles have other borders than each other: begin anew with --overwrite")
        error *= 1.5


def cut(plan: Plan, place: Place, mesh: GridMesh) -> GridMesh:
    """A mesh of multiples as far as the raster goes, with heights in metres for numbers; edges are straight on the round
    earth."""
    if min(place.last_column, place.last_row) >= plan.steps:
        return mesh._replace(number=mesh.number * plan.unit)
    step = float(1 << place.level)

    def drop(it: GridMesh) -> Floats:
        return place.earth.drop(step * (it.column - place.last_column / 2), step * (it.row - place.last_row / 2)) / plan.unit

    found = as_far_as(mesh._replace(number=mesh.number + drop(mesh)), place.last_column, place.last_row, plan.steps)
    number = found.number - drop(found)
    # At the raster's points heights are those of all tiles, to the last bit, so that equal border vertices are equal.
    nearest = np.rint(number)
    return found._replace(number=np.where(np.abs(number - nearest) < WHOLE, nearest, number) * plan.unit)


def _on_earth(plan: Plan, place: Place, mesh: Fitted, skirt: float) -> Placed:
    frame = place.earth.frame
    step, (a, b, c, d, e, f) = float(1 << place.level), plan.raster.transform
    column, row = (place.column * plan.steps + mesh.column) * step, (place.row * plan.steps + mesh.row) * step
    x, y = a * column + b * row + c, d * column + e * row + f
    if plan.crs is None:
        points = np.column_stack((x, y, mesh.height)) - frame[:3, 3]
        west, south, _ = (points + frame[:3, 3] - plan.root_frame[:3, 3]).min(0)
        east, north, _ = (points + frame[:3, 3] - plan.root_frame[:3, 3]).max(0)
        return Placed(points, points - (0, 0, skirt), mesh.height, (west, south, east, north))
    longitude, latitude, over = transformer(plan.crs, GEODETIC).transform(x, y, mesh.height)
    points = (geocentric(longitude, latitude, over) - frame[:3, 3]) @ frame[:3, :3]
    # Straight down where each vertex is, and not where the tile's middle is.
    feet = (geocentric(longitude, latitude, over - skirt) - frame[:3, 3]) @ frame[:3, :3] if skirt else points
    east_of, north_of = np.radians(longitude), np.radians(latitude)
    return Placed(points, feet, over, (east_of.min() - MARGIN, north_of.min() - MARGIN,
                                       east_of.max() + MARGIN, north_of.max() + MARGIN))


class Pieces(NamedTuple):
    data: list[bytes]
    triangles: int


def _glb(plan: Plan, place: Place, mesh: Fitted, placed: Placed, numbers: Multiples, error: float) -> Pieces:
    points, triangles = placed.points, mesh.triangles
    normals = _normals(plan, place, mesh, numbers) if plan.normals else None
    if plan.skirts:
        loop = border(mesh.row, mesh.column, place.last_row, place.last_column)
        triangles = np.concatenate((triangles, _walls(loop, len(points))))
        points = np.concatenate((points, placed.feet[loop]))
        normals = None if normals is None else np.concatenate((normals, normals[loop]))
    within = Y_UP @ np.linalg.inv(plan.root_frame) @ place.earth.frame @ Y_UP.T
    data = glb(y_up(points).astype("<f4"), triangles, normals=None if normals is None else y_up(normals),
               matrix=within.T.reshape(-1).tolist(), extras={"error": error})
    return Pieces(data, len(triangles))


def _normals(plan: Plan, place: Place, mesh: Fitted, numbers: Multiples) -> Floats:
    """Of the ground at each vertex, east, north and up."""
    slope = np.column_stack(rises(numbers, np.rint(mesh.row).astype(np.int64), np.rint(mesh.column).astype(np.int64), plan.unit))
    slope = slope @ np.linalg.inv(place.earth.jacobian * (1 << place.level))
    normals: Floats = np.column_stack((-slope, np.ones(len(slope))))
    normals /= np.linalg.norm(normals, axis=1, keepdims=True)
    return normals


def border(row: Floats, column: Floats, last_row: float, last_column: float) -> npt.NDArray[np.int64]:
    """The vertices on the border, down the first column, along the last row, up the last column, along the first row.

    >>> border(np.array([0, 0, 2, 2]), np.array([0, 2, 0, 2]), 2, 2).tolist()
    [0, 2, 3, 1]
    """
    sides: list[tuple[Flags, Floats]] = [(column == 0, row), (row == last_row, column),
                                         (column == last_column, -row), (row == 0, -column)]
    loop = []
    for is_on, along in sides:
        places = np.flatnonzero(is_on)
        loop.append(places[np.argsort(along[places])][:-1])
    return np.concatenate(loop)


def _walls(loop: npt.NDArray[np.int64], count: int) -> Numbers:
    """Walls down from the border, which hide what is open between tiles whose borders do not match: the feet of the
    vertices of `loop` are added behind `count` others."""
    feet = count + np.arange(len(loop))
    next_top, next_feet = np.roll(loop, -1), np.roll(feet, -1)
    walls: Numbers = np.concatenate((np.column_stack((loop, feet, next_feet)),
                                     np.column_stack((loop, next_feet, next_top)))).astype(np.uint32)
    return walls

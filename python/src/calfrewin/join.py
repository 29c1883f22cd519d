"""One GLB of a raster of any size: the tiles of its finest level, fitted until their borders match, with shared vertices.

The file is written piece by piece: where each block's vertices and triangles lie in it is known once all are counted, so
tasks write into it side by side, and no mesh is ever whole in memory. Vertices on the borders of tiles come first, each once.
"""
from __future__ import annotations

import os
import shutil
import tempfile
import time
from dataclasses import dataclass, replace
from typing import Any, Callable, NamedTuple, Optional

import numpy as np
import numpy.typing as npt

from . import _library, files, formats, systems
from ._types import Fill, Floats, Numbers
from .blocks import BlockPoints, Points, refuse_changed
from .clip import GridMesh, area
from .export import _places, origin_of
from .glb import Layout, layout, y_up
from .heights import alone, rises
from .mesh import LITTLE, Array, Mesh, _turns
from .normals import normals_by_rises
from .raster import Raster
from .rounds import Block, BlockMeshes, Tell, settle, tiles_of
from .run import locked
from .search import least_error
from .tile import Place, cut, place_of, shown
from .tileset import Plan, plan_of
from .workers import workers_of

Keys = npt.NDArray[np.int64]  #: places of the raster: row * its columns + column
NO_HEIGHT = -(1 << 31)  # stands for none among whole heights
MOST_VERTICES = (1 << 32) - 2  # the last index restarts a primitive


@dataclass(frozen=True)
class Look:
    """How vertices are placed; picklable."""
    crs: Optional[str]
    origin: tuple[float, float, float]
    normals: bool
    exaggerate: float


class Piece(NamedTuple):
    """What a tile shows: a mesh by the raster's columns and rows, and heights."""
    mesh: GridMesh
    keys: Keys  #: of each vertex on the border of the tile; -1 within
    right: Floats  #: how much the ground rises by a step along columns, and along rows
    down: Floats
    holes: int  #: points of the raster without a height


class Counted(NamedTuple):
    """What a block has."""
    keys: Keys  #: of the vertices on borders of tiles, each once
    border: Floats  #: shape (keys, 5): column, row, height, and how much the ground rises
    inner: list[int]  #: of each tile, how many vertices are within
    triangles: list[int]
    error: float
    cells: float  #: of the raster that are covered
    holes: int  #: points of the raster without a height


def _pieces(plan: Plan, block: Block, state: str) -> tuple[list[Piece], float]:
    """What the tiles of a block show, and how far they are off at most."""
    whole, meshes, error = BlockPoints(plan, *block), BlockMeshes(plan, block, state), 0.0
    found, numbers = [], whole.numbers()
    last = plan.raster.shape[1]
    for row, column in np.ndindex(*tiles_of(plan, block)):
        own, it = whole.tile(row, column), meshes.tile(row, column)
        lies = place_of(plan, 0, (block[0] << plan.depth) + row, (block[1] << plan.depth) + column)
        error = max(error, it.error)
        mesh = cut(plan, lies, shown(it.indices, own, own.counts))
        is_border = (mesh.column % plan.steps == 0) | (mesh.row % plan.steps == 0)
        at = (np.rint(mesh.row).astype(np.int64) + row * plan.steps, np.rint(mesh.column).astype(np.int64) + column * plan.steps)
        mesh = mesh._replace(column=mesh.column + lies.column * plan.steps, row=mesh.row + lies.row * plan.steps)
        keys = np.where(is_border, np.rint(mesh.row * last + mesh.column), -1).astype(np.int64)
        found.append(Piece(mesh, keys, *rises(numbers, *at, plan.unit), _holes(plan, lies, own)))
    return found, error


def _holes(plan: Plan, lies: Place, own: Points) -> int:
    """How many points of a tile have no height; those that it shares with the next tile are of that one."""
    if own.counts is None:
        return 0
    rows, columns = (int(last) + (last < plan.steps or points - 1 == (at + 1) * plan.steps) for last, points, at in zip(
        (lies.last_row, lies.last_column), plan.raster.shape, (lies.row, lies.column)))
    return int((~own.counts[:rows, :columns]).sum())


def count(plan: Plan, block: Block, state: str) -> Counted:
    """Counts the vertices and triangles of a block, and tells those on borders of tiles."""
    pieces, error = _pieces(plan, block, state)
    border = [(it.keys >= 0, it) for it in pieces]
    keys = np.concatenate([it.keys[is_on] for is_on, it in border])
    rows = np.concatenate([np.column_stack((it.mesh.column, it.mesh.row, it.mesh.number, it.right, it.down))[is_on]
                           for is_on, it in border])
    keys, first = np.unique(keys, return_index=True)
    cells = 0.0
    for it in pieces:
        cells += area(it.mesh)
    return Counted(keys, rows[first], [int((~is_on).sum()) for is_on, _ in border], [len(it.mesh.triangles) for it in pieces],
                   error, cells, sum(it.holes for it in pieces))


def write(plan: Plan, block: Block, state: str, look: Look, path: str, at: Layout, keys: Keys, ids: Numbers, vertex: int,
          triangle: int) -> tuple[Floats, Floats]:
    """Writes the vertices within the tiles of a block, and all its triangles; the least and the greatest coordinates.

    Args:
        keys, ids: the vertices on borders, in rising order, and their numbers in the file.
        vertex, triangle: the numbers of the first of the block within tiles.
    """
    low, high = np.full(3, np.inf), np.full(3, -np.inf)
    pieces, _ = _pieces(plan, block, state)
    with open(path, "r+b") as file:
        for it in pieces:
            is_inner = it.keys < 0
            number = np.empty(len(it.keys), np.uint32)
            number[is_inner] = vertex + np.arange(is_inner.sum())
            number[~is_inner] = ids[np.searchsorted(keys, it.keys[~is_inner])]
            inner = np.column_stack((it.mesh.column, it.mesh.row, it.mesh.number, it.right, it.down))[is_inner]
            ends = put_vertices(plan, look, file, at, vertex, inner)
            low, high = np.minimum(low, ends[0]), np.maximum(high, ends[1])
            triangles = number[it.mesh.triangles]
            file.seek(at.indices + 12 * triangle)
            file.write(np.ascontiguousarray(triangles[:, ::-1] if _turns(plan.raster.transform) else triangles, "<u4").data)
            vertex, triangle = vertex + len(inner), triangle + len(triangles)
    return low, high


def put_vertices(plan: Plan, look: Look, file: Any, at: Layout, first: int, rows: Floats) -> tuple[Floats, Floats]:
    """Writes vertices from number `first` on, of rows as `Counted.border` has them; their least and greatest coordinates."""
    if not len(rows):
        return np.full(3, np.inf), np.full(3, -np.inf)
    raster = plan.raster
    mesh = Mesh(rows[:, 0], rows[:, 1], rows[:, 2], np.empty((0, 3), np.uint32), plan.error, plan.rounding, plan.unit,
                raster.shape, raster.transform, raster.crs)
    x, y, z, _ = _places(mesh, look.crs, look.exaggerate)
    places = y_up(np.column_stack((x, y, z)) - look.origin).astype("<f4")
    file.seek(at.positions + 12 * first)
    file.write(np.ascontiguousarray(places).data)
    if look.normals:
        up = normals_by_rises(mesh, rows[:, 3].astype(np.float32), rows[:, 4].astype(np.float32), look.crs, look.exaggerate)
        file.seek(at.normals + 12 * first)
        file.write(np.ascontiguousarray(y_up(up), "<f4").data)
    return places.min(0).astype(np.float64), places.max(0).astype(np.float64)


def join(raster: Raster, out: str, *, error: Optional[float] = None, triangles: Optional[int] = None, crs: Optional[str] = None,
         origin: Optional[tuple[float, float, float]] = None, normals: bool = True, exaggerate: float = 1.0,
         unit: Optional[float] = None, fill: Fill = None, tile: int = 513, client: Any = None, workers: int = 1,
         overwrite: bool = False, progress: Optional[Callable[..., None]] = None) -> dict[str, Any]:
    """Writes one GLB of the whole raster, within an error at each of its points, of the fewest triangles of all meshes of right
    triangles that are as fine as tiles of `tile` points a side; and OUT.json beside it. What that says comes back.

    What is done stands in a folder OUT.run until all is, so that the same call goes on after a stop.

    Args:
        triangles: in the place of `error`: the least error at which there are at most so many.
        crs: the system to write in; without it the raster's.
        origin, normals, exaggerate: as for `export.save`.
        unit, fill, tile, client, workers, overwrite, progress: as for `tiles.plan_of` and `tiles.build`.
    """
    began = time.perf_counter()
    plan = plan_of(raster, out + ".run", error=error, tile=tile, unit=unit, fill=fill, flat=True)
    _library.load()  # before anything is written, and for all processes
    with locked(plan, overwrite, triangles), workers_of(client, workers) as hands:
        found: dict[str, Any] = {}
        half = progress and third(progress)
        if triangles is not None:
            plan, searched = least_error(plan, hands, triangles, half)
            found |= searched
        rounds = settle(plan, hands, half)
        blocks = sorted(rounds.states)
        counts: dict[Block, Counted] = {}
        tasks: dict[Any, Any] = {it: (count, (plan, it, rounds.states[it])) for it in blocks}
        for block, counted in hands.do(tasks):
            counts[block] = counted
            if progress:
                progress(len(blocks) + len(counts), 3 * len(blocks), "counting")
        found |= {"rounds": rounds.told, "error": max(it.error for it in counts.values()),
                  "cells": sum(it.cells for it in counts.values()), "holes": sum(it.holes for it in counts.values())}
        look = Look(crs or raster.crs, origin or _origin(raster, crs), normals, exaggerate)
        found |= _file(plan, hands, out, look, rounds.states, counts, found["error"], progress)
        shutil.rmtree(plan.run)
    shutil.rmtree(plan.out, ignore_errors=True)
    return found | {"rounding": plan.rounding, "unit": plan.unit, "seconds": round(time.perf_counter() - began, 3)}


def mesh_of_array(array: Array, *, error: Optional[float], triangles: Optional[int], unit: Optional[float]) -> Mesh:
    """`fit` of an array of any size, as tiles that match and are joined."""
    heights, holes, nodata = array.heights, array.holes, None
    if holes is not None:
        nodata = float(NO_HEIGHT)
        heights = np.where(holes, NO_HEIGHT, heights.astype(np.int64)) if heights.dtype.kind in "iu" else np.where(
            holes, np.nan, heights)
    with formats.in_memory(heights) as path:
        rows, columns = heights.shape
        raster = Raster(path, "memory", 1, (rows, columns), array.transform, None, nodata, 1.0, 0.0, heights.dtype.str)
        found = mesh_of_tiles(raster, error=error, triangles=triangles, unit=unit)
    return replace(found, crs=array.crs, filled=array.filled, alone=0 if holes is None else alone(holes))


def mesh_of_tiles(raster: Raster, *, error: Optional[float] = None, triangles: Optional[int] = None,
                  unit: Optional[float] = None, fill: Fill = None, tile: int = 513,
                  progress: Optional[Callable[..., None]] = None) -> Mesh:
    """The mesh of a raster of any size in memory, of which `join` writes a file."""
    with tempfile.TemporaryDirectory(prefix="calfrewin") as folder:
        plan = plan_of(raster, os.path.join(folder, "run"), error=error, tile=tile, unit=unit, fill=fill, flat=True)
        with locked(plan, False, triangles), workers_of() as hands:
            if triangles is not None:
                plan, _ = least_error(plan, hands, triangles, progress)
            states = settle(plan, hands, progress).states
            return _gathered(plan, [_pieces(plan, block, states[block]) for block in sorted(states)])


def _gathered(plan: Plan, blocks: list[tuple[list[Piece], float]]) -> Mesh:
    """The mesh of all pieces, with each vertex once."""
    pieces = [it for found, _ in blocks for it in found]
    if not sum(len(it.mesh.triangles) for it in pieces):
        raise ValueError("heights: no point has one")
    keys, count = np.concatenate([it.keys for it in pieces]), np.cumsum([0] + [len(it.keys) for it in pieces])
    rows = np.concatenate([np.column_stack((it.mesh.column, it.mesh.row, it.mesh.number, it.right, it.down)) for it in pieces])
    triangles = np.concatenate([it.mesh.triangles.astype(np.int64) + first for it, first in zip(pieces, count)])
    is_border = keys >= 0
    _, first, back = np.unique(keys[is_border], return_index=True, return_inverse=True)
    on_border, within = np.flatnonzero(is_border), np.flatnonzero(~is_border)
    number = np.empty(len(keys), np.uint32)
    number[on_border], number[within] = back, len(first) + np.arange(len(within))
    rows = rows[np.concatenate((on_border[first], within))]
    triangles = number[triangles]
    raster, (high, wide) = plan.raster, plan.raster.shape
    cells = sum(area(it.mesh) for it in pieces)
    return Mesh(rows[:, 0].copy(), rows[:, 1].copy(), rows[:, 2].copy(),
                triangles[:, ::-1] if _turns(raster.transform) else triangles, max(error for _, error in blocks), plan.rounding,
                plan.unit, raster.shape, raster.transform, raster.crs, holes=sum(it.holes for it in pieces),
                is_clipped=cells < (high - 1) * (wide - 1) - LITTLE, rises=rows[:, 3:].astype(np.float32))


def third(progress: Callable[..., None]) -> Tell:
    """Of the way to a file, the rounds."""
    return lambda done, total, text: progress(done, 3 * total, text)


def _origin(raster: Raster, crs: Optional[str]) -> tuple[float, float, float]:
    """A whole place in the middle of a raster's corners."""
    rows, columns = (points - 1.0 for points in raster.shape)
    a, b, c, d, e, f = raster.transform
    column, row = np.array([0, columns, 0, columns]), np.array([0, 0, rows, rows])
    x, y = a * column + b * row + c, d * column + e * row + f
    if crs is not None and raster.crs is not None and crs != raster.crs:
        x, y = systems.flat_transformer(raster.crs, crs).transform(x, y)
    found = origin_of(np.asarray(x), np.asarray(y)).tolist()
    return found[0], found[1], found[2]


def _file(plan: Plan, hands: Any, out: str, look: Look, states: dict[Block, str], counts: dict[Block, Counted], error: float,
          progress: Optional[Callable[..., None]]) -> dict[str, Any]:
    """Writes the file beside its name, and renames it."""
    keys, first = np.unique(np.concatenate([it.keys for it in counts.values()]), return_index=True)
    border = np.concatenate([it.border for it in counts.values()])[first]
    vertices = len(keys) + sum(sum(it.inner) for it in counts.values())
    triangles = sum(sum(it.triangles) for it in counts.values())
    if not triangles:
        raise ValueError("the raster has no heights, so there is nothing to write")
    if vertices > MOST_VERTICES:
        raise ValueError(f"there are {vertices} vertices, more than 32 bits count: give a greater error, or make tiles")
    told: dict[str, Any] = {"origin": list(look.origin), "crs": look.crs, "error": error, "triangles": triangles,
                            "vertices": vertices, "exaggerate": look.exaggerate}
    at = layout(vertices, triangles, look.normals, np.zeros((2, 3)), told)
    path = os.path.join(os.path.abspath(plan.run), "joined.glb")
    with open(path, "wb") as file:
        file.truncate(at.size)
        ends = [put_vertices(plan, look, file, at, 0, border)]
    tasks: dict[Any, Any] = {}
    vertex, triangle = len(keys), 0
    for block in sorted(counts):
        it = counts[block]
        ids = np.searchsorted(keys, it.keys).astype(np.uint32)
        tasks[block] = write, (plan, block, states[block], look, path, at._replace(head=b""), it.keys, ids, vertex, triangle)
        vertex, triangle = vertex + sum(it.inner), triangle + sum(it.triangles)
    for done, (_, bounds) in enumerate(hands.do(tasks), 1):
        ends.append(bounds)
        if progress:
            progress(2 * len(tasks) + done, 3 * len(tasks), "writing")
    bounds = np.stack((np.min([low for low, _ in ends], 0), np.max([high for _, high in ends], 0)))
    with open(path, "r+b") as file:
        file.write(layout(vertices, triangles, look.normals, bounds, told).head)
        os.fsync(file.fileno())
    refuse_changed(plan)
    files.move(path, out)
    files.write_bytes(out + ".json", files.json_of(told))
    return told

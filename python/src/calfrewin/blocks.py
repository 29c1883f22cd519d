"""The points of a block of tiles: read once, as whole multiples of the plan's unit, and kept in the run's folder.

A block is a tile of a level above 0 and all below it. Its points are those of level 0, (steps << level) + 1 a side; beyond
the end of the raster they repeat its edge. Where a point has no height, or lies beyond the end, it does not count.
"""
from __future__ import annotations

import hashlib
import json
import math
import os
import zlib
from typing import Any, NamedTuple, Optional

import numpy as np
import numpy.typing as npt

from . import files, formats
from ._types import Flags
from .engine import MOST_HEIGHT
from .tileset import Plan

Multiples = npt.NDArray[np.int32]  #: heights as whole multiples of the plan's unit
REACH = 64  # points, over which holes are filled from their edges
AT_ONCE = 64  # rows, which stay in a processor's cache


class Changed(ValueError):
    """A raster that was written to since the plan was made."""


class Points(NamedTuple):
    """The points of a block, or of one tile."""
    numbers: Multiples
    counts: Optional[Flags]  #: which of them have a height of the raster; None: all

    def tile(self, row: int, column: int, steps: int) -> Points:
        """Those of the tile (row, column) of the block."""
        at = np.s_[row * steps:(row + 1) * steps + 1, column * steps:(column + 1) * steps + 1]
        counts = None if self.counts is None or self.counts[at].all() else self.counts[at]
        return Points(self.numbers[at], counts)

    def turned(self) -> Points:
        """Rows for columns."""
        return Points(self.numbers.T, None if self.counts is None else self.counts.T)


def refuse_changed(plan: Plan) -> None:
    """Refuses a raster whose files are not what they were when the plan was made."""
    for path, *then in plan.stamps:
        if formats.stamp(path) != tuple(then):
            raise Changed(f"{path} has changed since this run began: begin anew with --overwrite")


def read(plan: Plan, level: int, row: int, column: int, right: Optional[Points] = None, below: Optional[Points] = None) -> Points:
    """The points of all that a tile of a level covers, from the raster.

    Args:
        right, below: the first column of what lies to the right, and the first row of what lies below, where these are known:
            they are the last ones here, and are not read again.
    """
    refuse_changed(plan)
    span = plan.steps << level
    top, left = row * span, column * span
    ends = plan.raster.shape[0] - top, plan.raster.shape[1] - left
    height, width = min(span + (below is None), ends[0]), min(span + (right is None), ends[1])
    heights = plan.raster.heights(top, left, height, width)
    is_there: Any = True
    if np.isnan(heights.min()):  # nothing is said to fill them, so they take no triangles; those at their edge meet them
        holes = np.isnan(heights)
        heights = np.where(holes, _filled(plan, top, left, height, width), heights)
        is_there = ~holes
    numbers = np.empty((span + 1, span + 1), np.int32)
    for begin in range(0, height, AT_ONCE):
        exact = heights[begin:begin + AT_ONCE] / plan.unit
        numbers[begin:min(begin + AT_ONCE, height), :width] = np.rint(exact, exact)
    numbers[:height, width:] = numbers[:height, width - 1:width]
    numbers[height:] = numbers[height - 1]
    shared = [(at, it) for at, it in ((np.s_[:, span], right), (np.s_[span], below)) if it is not None]
    counts = None
    if is_there is not True or min(ends) <= span or any(it.counts is not None for _, it in shared):
        counts = np.zeros(numbers.shape, bool)
        counts[:height, :width] = is_there
    for at, it in shared:
        numbers[at] = it.numbers
        if counts is not None:
            counts[at] = True if it.counts is None else it.counts
    refuse_changed(plan)
    return Points(numbers, counts)


def _filled(plan: Plan, row: int, column: int, rows: int, columns: int) -> npt.NDArray[Any]:
    """A window whose holes are filled from their edges as far as REACH, the rest with 0.

    GDAL's filling looks no farther than its distance, so with a rim of that width two tiles fill a hole between them alike,
    to the last bit.
    """
    from rasterio.fill import fillnodata
    up, left = min(REACH, row), min(REACH, column)
    height, width = (min(count + before + REACH, all_ - at + before) for count, before, all_, at in
                     ((rows, up, plan.raster.shape[0], row), (columns, left, plan.raster.shape[1], column)))
    wide = plan.raster.heights(row - up, column - left, height, width).astype(np.float32)
    is_there, nothing = ~np.isnan(wide), np.float32(-1e30)
    if not is_there.any():
        return np.zeros((rows, columns), np.float32)
    found = fillnodata(np.where(is_there, wide, nothing), mask=is_there.astype(np.uint8), max_search_distance=REACH)
    found = found[up:up + rows, left:left + columns]
    return np.where(found < nothing / 10, np.float32(0), found)


class BlockPoints:
    """The points of a block, tile by tile: as an earlier task of this run has kept them, else from the raster, and kept. What
    was kept and is damaged is read again."""

    def __init__(self, plan: Plan, row: int, column: int) -> None:
        self._plan, self._at = plan, (row, column)
        self._path = _path(plan, row, column)
        self._whole: Optional[Points] = None
        if not os.path.exists(self._path):
            self._read()

    def _read(self) -> Points:
        """All of them from the raster, but for what neighbours have kept that were read before."""
        row, column = self._at
        rows, columns = self._plan.count(self._plan.depth)
        right = self._kept(row, column + 1, "first_column") if column + 1 < columns else None
        below = self._kept(row + 1, column, "first_row") if row + 1 < rows else None
        whole = read(self._plan, self._plan.depth, row, column, right, below)
        arrays = {}
        for place in np.ndindex(1 << self._plan.depth, 1 << self._plan.depth):
            own = whole.tile(place[0], place[1], self._plan.steps)
            low, high = own.numbers.min(), own.numbers.max()
            kind = np.uint16 if int(high) - int(low) <= MOST_HEIGHT else np.int32
            name = "_".join(map(str, place))
            arrays["low" + name] = np.array(low)
            arrays["numbers" + name] = np.subtract(own.numbers, low, dtype=kind, casting="unsafe")
            if own.counts is not None:
                arrays["counts" + name] = np.packbits(own.counts)
        for name, turned in (("first_row", whole), ("first_column", whole.turned())):
            arrays["numbers" + name] = turned.numbers[0]
            if turned.counts is not None:
                arrays["counts" + name] = turned.counts[0]
        keep(self._path, arrays)
        self._whole = whole
        return whole

    def _kept(self, row: int, column: int, line: str) -> Optional[Points]:
        """A line of another block, where that has been read."""
        kept = load(_path(self._plan, row, column), line)
        return Points(kept["numbers" + line], kept.get("counts" + line)) if kept else None

    def tile(self, row: int, column: int) -> Points:
        """Those of the tile (row, column) of the block: nothing else is read."""
        steps = self._plan.steps
        name = f"{row}_{column}"
        kept = load(self._path, name) if self._whole is None else None
        if kept is None:
            return (self._whole or self._read()).tile(row, column, steps)
        counts = None if "counts" + name not in kept else _bits(kept["counts" + name], (steps + 1, steps + 1))
        return Points(np.add(kept["numbers" + name], kept["low" + name], dtype=np.int32), counts)

    def numbers(self) -> Multiples:
        """Those of all tiles together."""
        if self._whole is not None:
            return self._whole.numbers
        steps, count = self._plan.steps, 1 << self._plan.depth
        found = np.empty((steps * count + 1, steps * count + 1), np.int32)
        for row, column in np.ndindex(count, count):
            own = self.tile(row, column).numbers
            found[row * steps:(row + 1) * steps + 1, column * steps:(column + 1) * steps + 1] = own
        return found


def _path(plan: Plan, row: int, column: int) -> str:
    return os.path.join(plan.run, "points", f"{row}_{column}")


def _bits(packed: npt.NDArray[np.uint8], shape: tuple[int, ...]) -> Flags:
    return np.unpackbits(packed, count=shape[0] * shape[1]).astype(bool).reshape(shape)


def packed(arrays: dict[str, Any]) -> list[Any]:
    """Arrays as the bytes of a file, in pieces.

    It begins with a digest of its head, and with the length of that in eight bytes. The head is JSON: of each array its name, its
    type, its shape and its CRC-32, which tells damage in a fifth of a digest's time. The arrays follow, one behind the other.
    """
    parts = {name: np.ascontiguousarray(array) for name, array in arrays.items()}
    head = json.dumps({name: [it.dtype.str, it.shape, _sum(it)] for name, it in parts.items()}).encode()
    return [hashlib.blake2b(head, digest_size=32).digest(), len(head).to_bytes(8, "little"), head,
            *(it.data for it in parts.values())]


def _sum(array: npt.NDArray[Any]) -> int:
    return zlib.crc32(array.data)


def keep(path: str, arrays: dict[str, Any]) -> None:
    """Writes arrays as a whole file or none."""
    os.makedirs(os.path.dirname(path), exist_ok=True)
    files.write_bytes(path, *packed(arrays))


def load(path: str, ending: str = "") -> Optional[dict[str, Any]]:
    """What `keep` wrote, of arrays whose names have an ending; not to be written to. None where there is no such file, or it is
    not as it was written."""
    found = {}
    try:
        with open(path, "rb") as file:
            digest, length = file.read(32), int.from_bytes(file.read(8), "little")
            if length > os.path.getsize(path):
                return None
            head = file.read(length)
            if hashlib.blake2b(head, digest_size=32).digest() != digest:
                return None
            for name, (kind, shape, own) in json.loads(head).items():
                size = math.prod(shape) * np.dtype(kind).itemsize
                if not name.endswith(ending):
                    file.seek(size, os.SEEK_CUR)
                    continue
                body = file.read(size)
                if len(body) != size:
                    return None
                found[name] = np.frombuffer(body, kind).reshape(shape)
                if _sum(found[name]) != own:
                    return None
    except FileNotFoundError:
        return None
    return found

"""The borders of tiles: which vertices the finest level has there, and tiles of coarser levels that get all of them.

A tile of a coarser level has the finest level's border points that lie on its own grid as required points; what lies
between two of its points is put into the triangle at that edge as a fan. So all levels have the same vertices wherever two
tiles may meet, and whatever mixture of levels a viewer shows, there are no cracks.
"""
from __future__ import annotations

from typing import NamedTuple, Optional

import numpy as np
import numpy.typing as npt

from ._types import Numbers
from .blocks import Multiples
from .clip import GridMesh

TOP, RIGHT, BOTTOM, LEFT = range(4)  # along columns, or along rows; from the left or from the top


class Side(NamedTuple):
    """The vertices strictly within a side, in rising order."""
    at: npt.NDArray[np.int64]  #: in steps of level 0, from the left or from the top
    number: Multiples  #: their heights


Sides = tuple[Side, Side, Side, Side]
NONE = Side(np.empty(0, np.int64), np.empty(0, np.int32))


def sides_of(border: Numbers, numbers: Multiples) -> Sides:
    """Those of a tile of level 0, from the border of its fitter."""
    last = numbers.shape[0] - 1
    row, column = np.divmod(border.astype(np.int64), last + 1)
    found = []
    for is_on, at in ((row == 0, column), (column == last, row), (row == last, column), (column == 0, row)):
        found.append(Side(at[is_on], numbers[row[is_on], column[is_on]]))
    return found[0], found[1], found[2], found[3]


def joined_sides(below: list[Optional[Sides]], numbers: Multiples, half: int) -> Sides:
    """Those of a tile, from those of its quarters, row by row.

    Args:
        numbers: of the tile, side x side of its level.
        half: of its side, in steps of level 0.
    """
    last = numbers.shape[0] - 1
    middle = last // 2
    corners = numbers[0, middle], numbers[middle, last], numbers[last, middle], numbers[middle, 0]
    quarters = (0, 1), (1, 3), (2, 3), (0, 2)
    found = []
    for side, (one, two) in enumerate(quarters):
        first, second = ((below[it] or (NONE,) * 4)[side] for it in (one, two))
        found.append(Side(np.concatenate((first.at, np.array([half]), second.at + half)),
                          np.concatenate((first.number, np.array([corners[side]], np.int32), second.number))))
    return found[0], found[1], found[2], found[3]


def required_of(sides: Sides, level: int, steps: int) -> Numbers:
    """The required points of a tile of a level: its centre, and those of its sides that lie on its grid."""
    last, side = steps, steps + 1
    found = [np.array([steps // 2 * (side + 1)])]
    for which, it in enumerate(sides):
        at = it.at[it.at & ((1 << level) - 1) == 0] >> level
        found.append((at, at * side + last, last * side + at, at * side)[which])
    places: Numbers = np.unique(np.concatenate(found)).astype(np.uint32)
    return places


def with_fans(mesh: GridMesh, sides: Sides, level: int, steps: int) -> GridMesh:
    """The mesh of a tile with the vertices of its sides that lie between points of its grid."""
    for which, it in enumerate(sides):
        is_between = it.at & ((1 << level) - 1) != 0
        if not is_between.any():
            continue
        at, number = it.at[is_between] / (1 << level), it.number[is_between].astype(np.float64)
        across, down = (mesh.column, mesh.row) if which in (TOP, BOTTOM) else (mesh.row, mesh.column)
        end = float(steps if which in (RIGHT, BOTTOM) else 0)
        first, fixed = len(mesh.column), np.full(len(at), end)
        triangles = _fanned(mesh.triangles, np.where(down == end, across, np.nan), at, first)
        column, row = (at, fixed) if which in (TOP, BOTTOM) else (fixed, at)
        mesh = GridMesh(np.concatenate((mesh.column, column)), np.concatenate((mesh.row, row)),
                        np.concatenate((mesh.number, number)), triangles)
    return mesh


def _fanned(triangles: Numbers, along: npt.NDArray[np.float64], at: npt.NDArray[np.float64], first: int) -> Numbers:
    """Triangles with an edge on a side cut into fans about their third corner.

    Args:
        along: of each vertex, its place along the side, or NaN.
        at: places of new vertices, which are `first` and so on.
    """
    may_be = (~np.isnan(along))[triangles].sum(1) >= 2
    found = [triangles[~may_be]]
    triangles = triangles[may_be]
    left = np.ones(len(triangles), bool)
    for turn in range(3):
        a, b, c = (triangles[:, (turn + k) % 3] for k in range(3))
        begin, end = along[a], along[b]
        low = np.searchsorted(at, np.fmin(begin, end), "right")
        count = np.where(np.isnan(begin) | np.isnan(end), 0, np.searchsorted(at, np.fmax(begin, end), "left") - low)
        which = np.flatnonzero(count > 0)
        left[which] = False
        each = np.repeat(which, count[which] + 1)
        ends = np.cumsum(count[which] + 1)
        nth = np.arange(len(each)) - np.repeat(ends - count[which] - 1, count[which] + 1)
        new = first + low[each] + np.where(begin[each] < end[each], nth, count[each] - 1 - nth)
        # The nth piece goes from the vertex before its new one to that; the last one to the edge's end.
        back = np.where(begin[each] < end[each], -1, 1)
        one = np.where(nth == 0, a[each], new + back)
        two = np.where(nth == count[each], b[each], new)
        found.append(np.column_stack((one, two, c[each])).astype(np.uint32))
    return np.concatenate((triangles[left], *found))

"""The grid points of triangles of a fitter's mesh, all triangles of one shape at a time."""
from __future__ import annotations

import functools
from typing import Any, Iterator, NamedTuple

import numpy as np
import numpy.typing as npt

from ._types import Flags, Numbers

AT_ONCE = 1 << 22  # points


class Shape(NamedTuple):
    """Some triangles that are alike but for their place."""
    which: npt.NDArray[np.int64]  #: their places among the triangles
    points: npt.NDArray[np.int64]  #: shape (triangles, points): the places of the grid points of each, its border's too
    weights: npt.NDArray[np.float64]  #: shape (points, 3): of the heights of the corners, in the plane through them; exact


def shapes(indices: Numbers, side: int) -> Iterator[Shape]:
    """The triangles, shape by shape, and no more than some millions of points at a time.

    >>> [(it.which.tolist(), it.points.shape) for it in shapes(np.array([[6, 8, 0], [2, 0, 8]], np.uint32), 3)]
    [([1], (1, 6)), ([0], (1, 6))]
    """
    corners = indices.astype(np.int64)
    apex = corners[:, 0]
    key = (corners[:, 1] - apex) * 4 * side * side + corners[:, 2] - apex
    kinds, back = np.unique(key, return_inverse=True)
    order = np.argsort(back, kind="stable")
    ends = np.searchsorted(back[order], np.arange(len(kinds) + 1))
    for begin, end in zip(ends[:-1], ends[1:]):
        first = corners[order[begin]]
        row, column = first // side, first % side
        down, across, weights = _within(*(row - row[0]).tolist(), *(column - column[0]).tolist())
        steps = down * side + across
        at_once = max(1, AT_ONCE // len(steps))
        for at in range(begin, end, at_once):
            which = order[at:min(at + at_once, end)]
            yield Shape(which, apex[which, None] + steps, weights)


@functools.lru_cache(maxsize=256)
def _within(*corners: int) -> tuple[Any, Any, npt.NDArray[np.float64]]:
    """The points within a triangle, by rows and columns from its apex, and the weights of its corners there; of three rows and
    three columns."""
    row, column = corners[:3], corners[3:]
    down, across = (it.reshape(-1) for it in np.mgrid[min(row):max(row) + 1, min(column):max(column) + 1])
    area = column[1] * row[2] - row[1] * column[2]
    one, two = (across * row[2] - down * column[2]) / area, (column[1] * down - row[1] * across) / area
    is_in = (one >= 0) & (two >= 0) & (one + two <= 1)
    weights = np.column_stack((1 - one - two, one, two))
    return down[is_in], across[is_in], weights[is_in]


def have_any(indices: Numbers, flags: Flags) -> Flags:
    """Which triangles have a point at which a flag is set.

    >>> have_any(np.array([[6, 8, 0], [2, 0, 8]], np.uint32), np.array([[0, 0, 0], [0, 0, 1], [0, 0, 0]], bool)).tolist()
    [False, True]
    """
    found = np.zeros(len(indices), bool)
    for shape in shapes(indices, flags.shape[0]):
        found[shape.which] = flags.reshape(-1)[shape.points].any(1)
    return found

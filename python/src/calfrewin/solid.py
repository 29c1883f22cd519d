"""Borders, and the closed solid of a mesh: for prints."""
from __future__ import annotations

import numpy as np
import numpy.typing as npt

from ._types import Floats, Numbers


def border_edges(triangles: Numbers) -> npt.NDArray[np.int64]:
    """Shape (count, 2): the edges of one triangle alone, from and to, as it goes around: the mesh is to the left.

    >>> border_edges(np.array([[0, 1, 2], [2, 1, 3]], np.uint32)).tolist()
    [[0, 1], [1, 3], [2, 0], [3, 2]]
    """
    wide = triangles.astype(np.int64)
    edges = np.concatenate((wide[:, [0, 1]], wide[:, [1, 2]], wide[:, [2, 0]]))
    count = int(edges.max()) + 1
    alone = np.setdiff1d(edges[:, 0] * count + edges[:, 1], edges[:, 1] * count + edges[:, 0], assume_unique=True)
    return np.column_stack((alone // count, alone % count))


def solid_count(triangles: Numbers, is_rectangle: bool) -> int:
    """How many triangles the solid of some has, with its walls and its floor.

    >>> solid_count(np.array([[0, 1, 2], [2, 1, 3]], np.uint32), True)
    14
    """
    border = len(border_edges(triangles))
    return len(triangles) + 3 * border if is_rectangle else 2 * len(triangles) + 2 * border


def unpinched(points: Floats, triangles: Numbers) -> tuple[Floats, Numbers]:
    """A mesh with a vertex of its own for each of the parts that meet at a point of the border only: their walls are apart.

    >>> points, triangles = unpinched(np.zeros((5, 3)), np.array([[0, 1, 2], [2, 3, 4]], np.uint32))
    >>> len(points), triangles.tolist()
    (6, [[0, 1, 2], [5, 3, 4]])
    """
    starts = np.bincount(border_edges(triangles)[:, 0], minlength=len(points))
    pinched = starts > 1
    if not pinched.any():
        return points, triangles
    triangles = triangles.copy()
    copies: list[int] = []
    which, corner = np.nonzero(pinched[triangles])
    around: dict[int, list[tuple[int, int]]] = {}
    for place in zip(which.tolist(), corner.tolist()):
        around.setdefault(int(triangles[place]), []).append(place)
    for vertex, places in around.items():
        after = {int(triangles[row, (at + 1) % 3]): (row, at) for row, at in places}
        before = {int(triangles[row, (at + 2) % 3]) for row, at in places}
        for begin in sorted(set(after) - before)[1:]:  # the first part keeps the vertex
            while begin in after:
                row, at = after.pop(begin)
                begin = int(triangles[row, (at + 2) % 3])
                triangles[row, at] = len(points) + len(copies)
            copies.append(vertex)
    return np.concatenate((points, points[copies])), triangles


def solid(points: Floats, triangles: Numbers, base: float, is_rectangle: bool) -> tuple[Floats, Numbers]:
    """The closed solid between a mesh and a floor at the height `base`: points and triangles.

    The floor of a rectangle is a fan about its middle; any other one has the triangles of the mesh, the other way round.
    """
    low = float(points[:, 2].min())
    if not base < low:
        raise ValueError(f"base is {base:g}, and has to be below the lowest height, {low:g}")
    if not is_rectangle:
        points, triangles = unpinched(points, triangles)
    count = len(points)
    one, two = border_edges(triangles).T
    if is_rectangle:
        border, at = np.unique(np.concatenate((one, two)), return_inverse=True)
        below = np.append(points[border], [points[border].mean(0)], axis=0)
        one_below, two_below = np.split(at + count, 2)
        floor = np.column_stack((two_below, one_below, np.full(len(one), count + len(border))))
    else:
        below, one_below, two_below = points.copy(), one + count, two + count
        floor = triangles[:, ::-1].astype(np.int64) + count
    below[:, 2] = base
    walls = np.concatenate((np.column_stack((one, one_below, two_below)), np.column_stack((one, two_below, two))))
    return np.concatenate((points, below)), np.concatenate((triangles, floor.astype(np.uint32), walls.astype(np.uint32)))

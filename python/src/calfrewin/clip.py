"""The vertices and triangles of an engine's mesh as far as a rectangle goes: what a padded grid has beyond is cut off.

Edges of such meshes are level, upright or diagonal, so a cut along a column or a row of points meets them at points. A cut
edge gets one new vertex, whichever of its triangles is asked, so no cracks come.
"""
from __future__ import annotations

from typing import Any, Callable, NamedTuple, Optional

import numpy as np
import numpy.typing as npt

from ._types import Flags, Floats, Numbers


class GridMesh(NamedTuple):
    """A mesh by columns and rows of a grid, and numbers or heights."""
    column: Floats  #: of each vertex
    row: Floats
    number: Floats
    triangles: Numbers  #: of shape (count, 3): places among the vertices


def area(mesh: GridMesh) -> float:
    """Of all triangles together, in cells of the grid.

    >>> area(GridMesh(np.array([0.0, 2, 0]), np.array([0.0, 0, 2]), np.zeros(3), np.array([[0, 1, 2]], np.uint32)))
    2.0
    """
    a, b, c = mesh.triangles.T
    across, down = ([values[end] - values[a] for end in (b, c)] for values in (mesh.column, mesh.row))
    return float(np.abs(across[0] * down[1] - across[1] * down[0]).sum() / 2)


BEYOND_COLUMN, BEYOND_ROW, BEFORE_COLUMN, BEFORE_ROW = 1, 2, 4, 8
Clip = Callable[[GridMesh], GridMesh]  #: what of a mesh is wanted


def compact(indices: Numbers, size: int) -> tuple[npt.NDArray[np.int64], Numbers]:
    """Which of `size` places the triangles use, in order, and the triangles by these.

    >>> places, triangles = compact(np.array([[7, 2, 5]], np.uint32), 9)
    >>> places.tolist(), triangles.tolist()
    ([2, 5, 7], [[2, 0, 1]])
    """
    is_used = np.zeros(size, bool)
    is_used[indices.reshape(-1)] = True
    places, number = np.flatnonzero(is_used), np.empty(size, np.uint32)
    number[places] = np.arange(len(places), dtype=np.uint32)
    return places, number[indices]


def with_triangles(mesh: GridMesh, triangles: Numbers) -> GridMesh:
    """These triangles, and the vertices that they use."""
    places, triangles = compact(triangles, len(mesh.column))
    return GridMesh(mesh.column[places], mesh.row[places], mesh.number[places], triangles)


def grid_mesh(indices: Numbers, numbers: npt.NDArray[Any], last_column: float, last_row: float) -> GridMesh:
    """The mesh of an engine's indices, as far as the last column and row go.

    Args:
        indices: shape (count, 3): places in the grid, as `Engine.indices` and `Engine.fit` give them.
        numbers: side x side numbers, the grid.
        last_column, last_row: where the mesh is to end, above 0; it may be between two points.
    """
    return as_far_as(points_mesh(indices, numbers), last_column, last_row, numbers.shape[0] - 1)


def points_mesh(indices: Numbers, numbers: npt.NDArray[Any]) -> GridMesh:
    """The mesh of an engine's indices: its vertices by columns and rows of the grid, in the order of their places."""
    side = numbers.shape[0]
    places, triangles = compact(indices, side * side)
    row, column = np.divmod(places, side)
    return GridMesh(column.astype(np.float64), row.astype(np.float64), numbers[row, column].astype(np.float64), triangles)


def as_far_as(found: GridMesh, last_column: float, last_row: float, steps: int) -> GridMesh:
    """A mesh over `steps` x `steps` cells as far as the last column and row go."""
    if last_column >= steps and last_row >= steps:
        return found
    triangles = found.triangles
    # Of each triangle, by its corners: whether one is beyond an end, and whether one is before it, along both ways.
    flags = ((found.column > last_column) * BEYOND_COLUMN + (found.row > last_row) * BEYOND_ROW
             + (found.column < last_column) * BEFORE_COLUMN + (found.row < last_row) * BEFORE_ROW).astype(np.uint8)
    of = flags[triangles[:, 0]] | flags[triangles[:, 1]] | flags[triangles[:, 2]]
    is_in = of & (BEFORE_COLUMN + BEFORE_ROW) == BEFORE_COLUMN + BEFORE_ROW
    is_cut = is_in & (of & (BEYOND_COLUMN + BEYOND_ROW) > 0)
    cut = _cut(found._replace(triangles=triangles[is_cut]), last_column)
    cut = _turned(_cut(_turned(cut), last_row))
    return with_triangles(cut, np.concatenate((triangles[is_in & ~is_cut], cut.triangles)))


def _turned(mesh: GridMesh) -> GridMesh:
    """Columns for rows."""
    return GridMesh(mesh.row, mesh.column, mesh.number, mesh.triangles)


def _cut(mesh: GridMesh, end: float) -> GridMesh:
    """The triangles with column <= end, and all vertices, those that these do not use, too."""
    count = len(mesh.column)
    mesh, pieces = split(mesh, mesh.triangles, mesh.column - end)
    mesh.column[count:] = end
    column = mesh.column[pieces]
    return mesh._replace(triangles=pieces[(column <= end).all(1) & (column < end).any(1)])


def split(mesh: GridMesh, triangles: Numbers, value: Floats, along: Optional[Floats] = None) -> tuple[GridMesh, Numbers]:
    """Triangles split along a straight line: the mesh with the new vertices at its end, and the pieces.

    Args:
        triangles: some of the mesh, of which each edge that crosses the line gets one new vertex.
        value: of each vertex, linear over the plane, and 0 on the line.
        along: of each vertex, linear over the plane: only what crosses the line where this is from 0 to 1 is split, so
            where it is 0 and 1 the line has to meet a vertex.
    """
    corners = [triangles, np.roll(triangles, -1, axis=1)]
    low, high = np.minimum(*corners).astype(np.int64), np.maximum(*corners).astype(np.int64)
    edges = low * np.int64(len(mesh.column)) + high  # both triangles of an edge name it alike
    edge = np.unique(edges[value[low] * value[high] < 0])
    i, j = edge // len(mesh.column), edge % len(mesh.column)
    part = value[i] / (value[i] - value[j])
    if along is not None:
        at = along[i] + part * (along[j] - along[i])
        is_asked = (at > 0) & (at < 1)
        edge, i, j, part = edge[is_asked], i[is_asked], j[is_asked], part[is_asked]
    column, row, number = (np.concatenate((values, values[i] + part * (values[j] - values[i]))) for values in mesh[:3])
    return GridMesh(column, row, number, mesh.triangles), _pieces(triangles, edges, edge, len(mesh.column))


def _pieces(triangles: Numbers, edges: npt.NDArray[np.int64], split_edges: npt.NDArray[np.int64], first: int) -> Numbers:
    """The triangles with a vertex more on some edges: `first` and so on, in the order of these."""
    if not len(split_edges):
        return triangles
    at = np.minimum(np.searchsorted(split_edges, edges), len(split_edges) - 1)
    is_split = split_edges[at] == edges
    new = (at + first).astype(np.uint32)
    count = is_split.sum(1)
    found = [triangles[count == 0]]
    # One edge: it is turned to be the first, and its vertex is joined to the opposite corner.
    (a, b, c), (ab, _, _) = _turned_by(is_split.argmax(1), count == 1, triangles, new)
    found += [np.column_stack((a, ab, c)), np.column_stack((ab, b, c))]
    # Two edges: the one that is whole is turned to be the last; the corner between the two is cut off.
    (a, b, c), (ab, bc, _) = _turned_by((is_split.argmin(1) + 1) % 3, count == 2, triangles, new)
    found += [np.column_stack((ab, b, bc)), np.column_stack((a, ab, bc)), np.column_stack((a, bc, c))]
    return np.concatenate(found)


def _turned_by(first: npt.NDArray[np.int64], which: Flags, triangles: Numbers, new: Numbers) -> tuple[Numbers, Numbers]:
    """Some triangles and the new vertices of their edges, turned so that corner `first` comes first, by columns."""
    turn = (first[which, None] + np.arange(3)) % 3
    return np.take_along_axis(triangles[which], turn, 1).T, np.take_along_axis(new[which], turn, 1).T

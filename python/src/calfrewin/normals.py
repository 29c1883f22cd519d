"""Normals at the vertices of a mesh: of the ground, or of the triangles."""
from __future__ import annotations

from typing import Optional

import numpy as np
import numpy.typing as npt

from ._types import Floats, Numbers
from .mesh import Mesh

Normals = npt.NDArray[np.float32]
LATTICE = 17  # points a side, between which what a map makes of a step is taken in proportion
AT_ONCE = 1 << 20


def normals_of(points: Floats, triangles: Numbers) -> Normals:
    """Shape (vertices, 3): a normal of length 1 at each vertex, the mean of those of its triangles by their areas.

    >>> normals_of(np.array([[0., 0, 5], [1, 0, 5], [0, 1, 5]]), np.array([[0, 1, 2]], np.uint32))[0].tolist()
    [0.0, 0.0, 1.0]
    """
    found = np.zeros((3, len(points)))
    for begin in range(0, len(triangles), AT_ONCE):
        corners = triangles[begin:begin + AT_ONCE].T.astype(np.int64)
        a, b, c = (points[corner] for corner in corners)
        each = np.cross(b - a, c - a).T
        for axis in range(3):
            for corner in corners:
                found[axis] += np.bincount(corner, each[axis], len(points))
    found /= np.maximum(np.sqrt((found * found).sum(0)), 1e-300)
    return found.T.astype(np.float32)


def ground_normals(mesh: Mesh, crs: Optional[str] = None, exaggerate: float = 1.0) -> Normals:
    """Shape (vertices, 3): a normal of length 1 of the ground at each vertex, from the array's points around it.

    So a coarse mesh is shaded as the ground is, and equal points of two meshes alike.

    >>> from calfrewin import fit
    >>> (10 * ground_normals(fit([[0, 3], [0, 3]], error=0, cell=4))[0]).tolist()
    [-6.0, 0.0, 8.0]
    """
    if mesh.rises is None:
        raise ValueError("the mesh does not say how the ground rises: it was made for the globe")
    return normals_by_rises(mesh, mesh.rises[:, 0], mesh.rises[:, 1], crs, exaggerate)


def normals_by_rises(mesh: Mesh, right: Normals, down: Normals, crs: Optional[str] = None, exaggerate: float = 1.0) -> Normals:
    """The same, from how much the ground rises by a step along columns and along rows at each vertex."""
    right, down = (rise * np.float32(exaggerate) for rise in (right, down))
    level, by_right, by_down = (part.astype(np.float32) for part in _steps(mesh, crs))
    found = [level[axis] + right * by_right[axis] + down * by_down[axis] for axis in range(3)]
    length = np.sqrt(found[0] * found[0] + found[1] * found[1] + found[2] * found[2])
    return np.stack([part / length for part in found], axis=1)


def _steps(mesh: Mesh, crs: Optional[str]) -> tuple[Floats, Floats, Floats]:
    """What a normal is made of: its part of level ground, and those for a rise of 1 along columns and along rows.

    Each has three rows, for x, y and z, and a number or one a vertex in them: the products of the steps along columns,
    along rows and up, of which the first two differ from place to place where a map bends.
    """
    if crs is None or crs == mesh.crs or mesh.crs is None:
        a, b, _, d, e, _ = mesh.transform
        along, down = np.array([[a], [d]]), np.array([[b], [e]])
    else:
        along, down = _steps_of_map(mesh, crs)
    area = along[0] * down[1] - along[1] * down[0]
    sign = np.where(area < 0, -1.0, 1.0)
    nothing = np.zeros_like(area)
    return (np.stack((nothing, nothing, area * sign)), np.stack((-down[1] * sign, down[0] * sign, nothing)),
            np.stack((along[1] * sign, -along[0] * sign, nothing)))


def _steps_of_map(mesh: Mesh, crs: str) -> tuple[Floats, Floats]:
    """x and y of a step along columns and of one along rows at each vertex, in another system."""
    from .systems import transformer
    assert mesh.crs is not None
    rows, columns = mesh.shape
    a, b, c, d, e, f = mesh.transform
    wide, high = (columns - 1) / (LATTICE - 1), (rows - 1) / (LATTICE - 1)
    column, row = np.meshgrid(np.arange(LATTICE) * wide, np.arange(LATTICE) * high)
    places = np.stack(transformer(mesh.crs, crs).transform(a * column + b * row + c, d * column + e * row + f))
    steps = np.concatenate((np.gradient(places, wide, axis=2), np.gradient(places, high, axis=1)))
    at_column, at_row = mesh.column / wide, mesh.row / high
    j, i = (np.minimum(at.astype(np.int64), LATTICE - 2) for at in (at_column, at_row))
    u, v = at_column - j, at_row - i
    found = ((1 - v) * ((1 - u) * steps[:, i, j] + u * steps[:, i, j + 1])
             + v * ((1 - u) * steps[:, i + 1, j] + u * steps[:, i + 1, j + 1]))
    return found[:2], found[2:]

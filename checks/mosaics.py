#!/usr/bin/env python3
"""The least mesh of a terrain of tiles, over one large grid: the mesh of the fewest triangles for an error of those
that are as fine as the tiles. From the definitions, with heights as an array; a triangle's corners and its mate are
found when they are asked for.

usage: checks/mosaics.py LEVEL P SEED THOUSANDTHS MESH.obj    of the generated grid of that level, cut into 2^P x 2^P
       tiles: writes the mesh, with vertices by y and then by x and faces tile by tile, and prints its counts and how far
       it is off
"""
import functools
import sys

import numpy as np

from fitting import marks
from frames import leaves_of
from terrain import level


class Corners(dict):
    """By address: apex and two ends of the base."""

    def __missing__(self, a):
        apex, v0, v1 = self[a // 2]
        middle = (v0[0] + v1[0]) // 2, (v0[1] + v1[1]) // 2
        self[a] = (middle, v1, apex) if a % 2 else (middle, apex, v0)
        return self[a]


class Mates(dict):
    """By address: the other triangle of the level that has the same base, or None. It is the one in which the point
    lies that is as far beyond the base as the apex is before it."""

    def __init__(self, corners, m):
        super().__init__()
        self.corners, self.m = corners, m

    def __missing__(self, a):
        apex, v0, v1 = self.corners[a]
        far = v0[0] + v1[0] - apex[0], v0[1] + v1[1] - apex[1]
        if not (0 <= far[0] <= self.m and 0 <= far[1] <= self.m):
            self[a] = None
            return None
        amid = tuple(far[axis] + v0[axis] + v1[axis] for axis in (0, 1))  # three times a point inside
        b = 2 if sum(amid) < 3 * self.m else 3
        while level(b) < level(a):
            b = 2 * b if holds(self.corners[2 * b], amid) else 2 * b + 1
        assert set(self.corners[b]) == {far, v0, v1}
        self[a] = b
        return b


def holds(corners, amid):
    """Whether a triangle has three times this point inside."""
    for (ax, ay), (bx, by) in zip(corners, corners[1:] + corners[:1]):
        if (bx - ax) * (amid[1] - 3 * ay) - (amid[0] - 3 * ax) * (by - ay) <= 0:
            return False
    return True


class Large:
    """A grid of side 2^n by its heights, an array by y and x; what `forced` asks of a terrain."""

    def __init__(self, n, heights):
        self.n, self.m, self.heights = n, 2 ** n, heights
        m = self.m
        self.corners = Corners({2: ((0, 0), (m, 0), (0, m)), 3: ((m, m), (0, m), (m, 0))})
        self.mate = Mates(self.corners, m)


@functools.cache
def held_points(bx, by, cx, cy):
    """The points (x, y) of a triangle of the corners (0, 0), (bx, by) and (cx, cy), and for each corner its part at each of
    them; the three parts of a point make the doubled area."""
    x, y = np.arange(min(0, bx, cx), max(0, bx, cx) + 1), np.arange(min(0, by, cy), max(0, by, cy) + 1)[:, None]
    parts = np.array([(cx - bx) * (y - by) - (x - bx) * (cy - by), x * cy - cx * y, bx * y - x * by])
    is_held = (parts >= 0).all(axis=0)
    y, x = is_held.nonzero()
    return x + min(0, bx, cx), y + min(0, by, cy), parts[:, is_held]


class LargeErrors(dict):
    """The errors of triangles by address: how far the heights are from the plane at a point that the triangle holds, at
    most, times m.

    With tolerances, thousandths by y and x and below 0 where a point does not count, by how much a point is off by more
    than its own one, in thousandths, times m. With tiles, (p, columns, rows), triangles in others of the 2^p x 2^p
    tiles have no error."""

    def __init__(self, large, tolerances=None, tiles=None):
        super().__init__()
        self.large, self.tolerances, self.tiles = large, tolerances, tiles

    def of(self, a):
        return self[a]

    def is_beside(self, a):
        """Whether a triangle lies in a tile that the terrain does not have."""
        if self.tiles is None:
            return False
        p, columns, rows = self.tiles
        if level(a) <= 2 * p:
            return False
        (column, row), _ = tile_and_local(self.large, p, a)
        return column >= columns or row >= rows

    def __missing__(self, a):
        self[a] = 0 if self.is_beside(a) else self.greatest(a)
        return self[a]

    def greatest(self, a):
        (ax, ay), (bx, by), (cx, cy) = corners = self.large.corners[a]
        heights, m = self.large.heights, self.large.m
        x, y, parts = held_points(bx - ax, by - ay, cx - ax, cy - ay)
        there = y + ay, x + ax
        plane, rest = np.divmod(m * (np.array([heights[y, x] for x, y in corners]) @ parts), parts[:, 0].sum())
        assert not rest.any()
        off = np.abs(heights[there] * m - plane)
        if self.tolerances is None:
            return int(off.max())
        own = self.tolerances[there]
        return int(np.max((1000 * off - own * m)[own >= 0], initial=0))


def least_mosaic(large, errors, p, tolerance):
    """The split triangles of the least mesh with no error above the tolerance that is as fine as 2^p x 2^p tiles: all
    above the quarters of tiles, which are of level 2p + 1, are split."""
    return next(split for worst, split in marks(large, errors, range(2, 2 ** (2 * p + 2))) if worst <= tolerance)


def tile_and_local(large, p, a):
    """Which tile a triangle is in, by column and row, and its address there. It lies in a quarter of the tile, by whose
    corners both are told; below its quarter the address goes on in the same way."""
    deeper = level(a) - 2 * p - 1
    apex, v0, v1 = large.corners[a >> deeper]  # the apex is the centre of the tile
    side = large.m >> p
    way = (v0[0] + v1[0]) // 2 - apex[0], (v0[1] + v1[1]) // 2 - apex[1]
    quarter = {(0, -1): 4, (-1, 0): 5, (0, 1): 6, (1, 0): 7}[way[0] // (side // 2), way[1] // (side // 2)]
    return (apex[0] // side, apex[1] // side), quarter << deeper | a & (2 ** deeper - 1)


def in_order(large, p, split):
    """The leaves tile by tile, row by row from the near left one, and depth first in each."""
    def place(a):
        tile, local = tile_and_local(large, p, a)
        return tile[::-1], local / 2 ** level(local)
    return sorted(leaves_of(split), key=place)


def by_tiles(large, p, split):
    """By tile: the addresses of its leaves there, depth first."""
    found = {}
    for a in in_order(large, p, split):
        tile, local = tile_and_local(large, p, a)
        found.setdefault(tile, []).append(local)
    return found


def generated(n, seed):
    """The heights of docs/REFERENCE.md's generated grid, by y and x, all lattice points of an octave at once."""
    def q(z):
        return (z * np.uint64(6364136223846793005) + (z >> np.uint64(32)) * (z & np.uint64(0xFFFFFFFF))
                + np.uint64(1442695040888963407))
    heights = np.zeros((2 ** n + 1, 2 ** n + 1), np.int64)
    at = np.arange(2 ** n + 1)
    for k in range(n + 1):
        w, count = 2 ** k, 2 ** (n - k) + 2
        with np.errstate(over="ignore"):
            first = q(np.array([seed], np.uint64))
            points = np.arange(count, dtype=np.uint64)
            of_column = q(q(first + np.uint64(k)) + points)
            values = (q(q(of_column[None, :] + points[:, None])) >> np.uint64(48)).astype(np.int64)
        i, part = at // w, at % w
        rows = values[:, i] * (w - part) + values[:, i + 1] * part
        heights += (rows[i] * (w - part)[:, None] + rows[i + 1] * part[:, None]) // w ** 2 >> (n - k + 1)
    return heights


def main(words):
    n, p, seed, thousandths = map(int, words[:4])
    large = Large(n, generated(n, seed))
    errors = LargeErrors(large)
    split = least_mosaic(large, errors, p, thousandths * large.m // 1000)
    leaves = in_order(large, p, split)
    vertices = sorted({point for a in leaves for point in large.corners[a]}, key=lambda point: point[::-1])
    number = {point: place for place, point in enumerate(vertices, start=1)}
    with open(words[4], "w", encoding="ascii") as file:
        file.writelines(f"v {x} {y} {large.heights[y, x]}\n" for x, y in vertices)
        file.writelines("f {} {} {}\n".format(*(number[point] for point in large.corners[a])) for a in leaves)
    print(f"{len(leaves)} triangles, {len(vertices)} vertices, off by at most {max(map(errors.of, leaves))}/{large.m}")


if __name__ == "__main__":
    main(sys.argv[1:])

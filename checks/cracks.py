#!/usr/bin/env python3
"""Whether a mesh over a rectangle of grid points is one mesh without cracks, by its whole coordinates alone: it shares
nothing with what made the mesh, and knows of no tiles.

usage: checks/cracks.py WIDTH HEIGHT MESH.obj    a rectangle of so many grid steps; a vertex is `v X Y Z` with X and Y
       in grid steps. Prints `no cracks: T triangles`, or `cracks: WHY` and ends with status 1

A mesh has no cracks where all of this holds:
- no two vertices stand at one point;
- each triangle turns counterclockwise, and its edges go along rows, columns or diagonals, so that it has each quarter
  of a cell (by the cell's two diagonals) as a whole or not at all;
- the areas add up to that of the rectangle, and each quarter of each cell is covered once;
- each edge is had once in its direction and once in the other one, but for the rim, where it is had once;
- no vertex lies inside an edge."""
import functools
import sys

import numpy as np


def doubled_area(p, q, r):
    return (q[0] - p[0]) * (r[1] - p[1]) - (r[0] - p[0]) * (q[1] - p[1])


RIGHT, UP = np.array([2, 3, 2, 1])[:, None, None], np.array([1, 2, 3, 2])[:, None, None]  # of each quarter a point amid it


@functools.cache
def quarters_of(qx, qy, rx, ry):
    """Which quarters of cells a triangle of the corners (0, 0), (qx, qy) and (rx, ry) covers, in the columns and the rows that it
    has: of each by a point amid it, in quarters of a grid step."""
    corners = (0, 0), (qx, qy), (rx, ry)
    (left, *_, right), (near, *_, far) = (sorted(ends) for ends in zip(*corners))
    x, y = 4 * np.arange(left, right) + RIGHT, 4 * np.arange(near, far)[:, None] + UP
    inside = True
    for a, b in zip(corners, corners[1:] + corners[:1]):
        inside = inside & ((b[0] - a[0]) * (y - 4 * a[1]) > (x - 4 * a[0]) * (b[1] - a[1]))
    return left, right, near, far, inside


def add_covered(covered, p, q, r):
    """Counts a triangle in the quarters that it covers."""
    left, right, near, far, inside = quarters_of(q[0] - p[0], q[1] - p[1], r[0] - p[0], r[1] - p[1])
    covered[:, p[1] + near:p[1] + far, p[0] + left:p[0] + right] += inside


def crack_in(triangles, width, height):
    """What is wrong with a mesh of triangles of three points (x, y), in words; None where it has no cracks."""
    edges, vertices = set(), {point for triangle in triangles for point in triangle}
    covered = np.zeros((4, height, width), np.uint16)
    if any(not (0 <= x <= width and 0 <= y <= height) for x, y in vertices):
        return "a vertex is outside the rectangle"
    for p, q, r in triangles:
        if doubled_area(p, q, r) <= 0:
            return f"the triangle {p} {q} {r} does not turn counterclockwise"
        for a, b in ((p, q), (q, r), (r, p)):
            if a[0] != b[0] and a[1] != b[1] and abs(a[0] - b[0]) != abs(a[1] - b[1]):
                return f"the edge from {a} to {b} goes along no row, column or diagonal"
            if (a, b) in edges:
                return f"two triangles have the edge from {a} to {b}"
            edges.add((a, b))
        add_covered(covered, p, q, r)
    if sum(doubled_area(*triangle) for triangle in triangles) != 2 * width * height:
        return "the areas do not add up to that of the rectangle"
    if (covered != 1).any():
        part, y, x = (int(at[0]) for at in np.nonzero(covered != 1))
        return f"a quarter of the cell at ({x}, {y}) is covered {covered[part, y, x]} times"
    for a, b in edges:
        is_rim = (a[0] == b[0] and a[0] in (0, width)) or (a[1] == b[1] and a[1] in (0, height))
        if (b, a) not in edges and not is_rim:
            return f"the edge from {a} to {b} has nothing on its other side"
        steps = max(abs(a[0] - b[0]), abs(a[1] - b[1]))
        way = (b[0] - a[0]) // steps, (b[1] - a[1]) // steps
        for step in range(1, steps):
            point = a[0] + way[0] * step, a[1] + way[1] * step
            if point in vertices:
                return f"the vertex {point} lies inside the edge from {a} to {b}"
    return None


def read_mesh(name):
    """The triangles of an OBJ file, by the points of their vertices; None where two vertices stand at one point."""
    points, triangles = [None], []
    with open(name, encoding="ascii") as file:
        for line in file:
            kind, *numbers = line.split()
            if kind == "v":
                points.append((int(numbers[0]), int(numbers[1])))
            elif kind == "f":
                triangles.append(tuple(points[int(number)] for number in numbers))
    return triangles if len(set(points)) == len(points) else None


def main(words):
    width, height = int(words[0]), int(words[1])
    triangles = read_mesh(words[2])
    why = "two vertices stand at one point" if triangles is None else crack_in(triangles, width, height)
    print(f"cracks: {why}" if why else f"no cracks: {len(triangles)} triangles")
    return 1 if why else 0


if __name__ == "__main__":
    sys.exit(main(sys.argv[1:]))

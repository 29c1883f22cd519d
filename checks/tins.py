#!/usr/bin/env python3
"""Judges a mesh of triangles of any shape over a rectangle of grid points, in fractions, and with nothing of the library.

A mesh is a list of triangles of three points (column, row), counterclockwise, whose vertices have the heights of their points.
It is right where each triangle turns left, each edge has just one neighbour, which runs the other way, or lies on a side of the
rectangle, each grid point lies in exactly one triangle by the half-open rule, and so do the areas add up; and no grid point is
farther from a triangle that holds it than the error.

usage: tins.py GRID.pgm MESH.obj ERROR SPACING    of a mesh that has x and y in world units, from the lower left corner
"""
from __future__ import annotations

import sys
from collections import Counter
from collections.abc import Mapping, Sequence
from fractions import Fraction
from typing import Optional

Point = tuple[int, int]
Triangle = tuple[Point, Point, Point]


def turn(p: Point, q: Point, r: Point) -> int:
    """Twice the area of three points; above 0 where they turn left."""
    return (q[0] - p[0]) * (r[1] - p[1]) - (q[1] - p[1]) * (r[0] - p[0])


def edges_of(triangle: Triangle) -> list[tuple[Point, Point]]:
    a, b, c = triangle
    return [(a, b), (b, c), (c, a)]


def crossing(p: Point, q: Point, o: Point) -> int:
    """1 where a ray to the right from o meets the edge going up, -1 where going down, an edge's upper end left out."""
    if p[1] <= o[1] < q[1]:
        return int(turn(p, q, o) > 0)
    return -int(turn(q, p, o) > 0) if q[1] <= o[1] < p[1] else 0


def held(triangle: Triangle) -> list[Point]:
    """The grid points of a closed triangle."""
    xs, ys = zip(*triangle)
    box = ((x, y) for x in range(min(xs), max(xs) + 1) for y in range(min(ys), max(ys) + 1))
    return [o for o in box if all(turn(p, q, o) >= 0 for p, q in edges_of(triangle))]


def off(triangle: Triangle, heights: Mapping[Point, int], o: Point) -> Fraction:
    """How far the height at a point is from the plane of a triangle that holds it."""
    a, b, c = triangle
    plane = turn(o, b, c) * heights[a] + turn(o, c, a) * heights[b] + turn(o, a, b) * heights[c]
    return abs(heights[o] - Fraction(plane, turn(a, b, c)))


def deviation(triangles: Sequence[Triangle], heights: Mapping[Point, int]) -> Fraction:
    """The greatest distance over all triangles and the grid points of each."""
    return max(off(triangle, heights, o) for triangle in triangles for o in held(triangle))


def fault_in(triangles: Sequence[Triangle], right: int, top: int) -> Optional[str]:
    """What is wrong with the triangles as a tiling of the rectangle, or None."""
    for triangle in triangles:
        if not all(0 <= x <= right and 0 <= y <= top for x, y in triangle):
            return f"{triangle} leaves the rectangle"
        if turn(*triangle) <= 0:
            return f"{triangle} does not turn left"
    edges = Counter(edge for triangle in triangles for edge in edges_of(triangle))
    for (p, q), count in edges.items():
        on_side = any(p[k] == q[k] == end for k, end in ((0, 0), (0, right), (1, 0), (1, top)))
        if count > 1:
            return f"two triangles have the edge from {p} to {q}"
        if (q, p) not in edges and not on_side:
            return f"the edge from {p} to {q} has no neighbour"
    if sum(turn(*triangle) for triangle in triangles) != 2 * right * top:
        return "the areas do not add up"
    covered = Counter(o for triangle in triangles for o in held(triangle)
                      if sum(crossing(p, q, o) for p, q in edges_of(triangle)))
    inside = [(x, y) for x in range(right) for y in range(top)]
    return next((f"{o} is covered {covered[o]} times" for o in inside if covered[o] != 1), None)


def main(grid: str, mesh: str, error: str, spacing: str) -> int:
    from terrain import read_grid
    n, _, heights = read_grid(grid)
    vertices: list[Point] = []
    triangles: list[Triangle] = []
    with open(mesh, encoding="ascii") as lines:
        for word, *rest in (line.split() for line in lines if line.strip()):
            if word == "v":
                x, y, z = (Fraction(it) for it in rest)
                vertices.append((int(x / int(spacing)), int(y / int(spacing))))
                if heights[vertices[-1]] != z:
                    print(f"the vertex {vertices[-1]} is not at its height")
                    return 1
            elif word == "f":
                a, b, c = (vertices[int(it.split("/")[0]) - 1] for it in rest)
                triangles.append((a, b, c))
    fault = fault_in(triangles, 2 ** n, 2 ** n)
    found = None if fault else deviation(triangles, heights)
    is_right = found is not None and found <= Fraction(error)
    print(fault or f"{len(triangles)} triangles, off by {found}, for {error}")
    return 0 if is_right else 1


if __name__ == "__main__":
    if len(sys.argv) != 5:
        sys.exit(__doc__)
    sys.exit(main(*sys.argv[1:]))

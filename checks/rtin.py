"""RTIN (Evans, Kirkpatrick, Townsend 2001) with the map of errors of MARTINI, over the triangles of this program: for a figure beside it.

usage: python3 checks/rtin.py GRID.pgm error E.. budget B.. map T..    a line for each, as 'error 100 rtin 4231 error 89 map 57'

RTIN keeps a number for each grid point: how far the point is from the middle of the edge that it splits, or a point below it
from its own, at most. The mesh of a tolerance splits each triangle whose point has a greater number. That is no bound of how
far the ground is from the mesh, so the tolerance is tuned: from the greatest of the map down, each mesh is measured at all
grid points. For an error the first mesh that keeps it is taken, which is the smallest; for a budget the best of all within. `map` takes a tolerance as it is.
"""
import sys

from terrain import read_grid


def map_of(heights, m):
    """By point: the number of RTIN, in half units."""
    numbers = {}

    def put(x, y, a, b, below):
        own = abs(2 * heights[x, y] - heights[a] - heights[b])
        numbers[x, y] = max([own] + [numbers.get(it, 0) for it in below])

    s = 1
    while s < m:
        for x in range(0, m + 1, s):
            for y in range(0, m + 1, s):
                odd = x // s % 2, y // s % 2
                around = [(x + i, y + j) for i in (-s // 2, s // 2) for j in (-s // 2, s // 2)] if s > 1 else []
                if odd == (1, 0):
                    put(x, y, (x - s, y), (x + s, y), around)
                elif odd == (0, 1):
                    put(x, y, (x, y - s), (x, y + s), around)
        for x in range(s, m, 2 * s):
            for y in range(s, m, 2 * s):
                # The edge goes through the middle of the square that holds this one; that of the whole square falls.
                rising = (x - s) // (2 * s) % 2 == (y - s) // (2 * s) % 2 and 2 * s < m
                ends = ((x - s, y - s), (x + s, y + s)) if rising else ((x - s, y + s), (x + s, y - s))
                put(x, y, *ends, [(x - s, y), (x + s, y), (x, y - s), (x, y + s)])
        s *= 2
    return numbers


def mesh_of(numbers, m, tolerance):
    """The triangles (apex and two ends of the base) of a tolerance in half units."""
    found, todo = [], [((0, 0), (m, 0), (0, m)), ((m, m), (0, m), (m, 0))]
    while todo:
        apex, v, w = todo.pop()
        middle = (v[0] + w[0]) // 2, (v[1] + w[1]) // 2
        if abs(v[0] - apex[0]) + abs(v[1] - apex[1]) > 1 and numbers[middle] > tolerance or \
                max(abs(v[0] - w[0]), abs(v[1] - w[1])) > 1 and numbers[middle] > tolerance:
            todo += [(middle, apex, v), (middle, w, apex)]
        else:
            found.append((apex, v, w))
    return found


class Errors:
    """How far the ground is from a triangle at most, over the grid points in it, each asked once."""

    def __init__(self, heights):
        self.heights, self.known = heights, {}

    def of(self, triangle):
        if triangle not in self.known:
            self.known[triangle] = self.look(triangle)
        return self.known[triangle]

    def look(self, triangle):
        (ax, ay), (bx, by), (cx, cy) = triangle
        h, (za, zb, zc) = self.heights, (self.heights[it] for it in triangle)
        twice = (bx - ax) * (cy - ay) - (by - ay) * (cx - ax)
        worst = 0
        for y in range(min(ay, by, cy), max(ay, by, cy) + 1):
            for x in range(min(ax, bx, cx), max(ax, bx, cx) + 1):
                u = (bx - x) * (cy - y) - (by - y) * (cx - x)
                v = (cx - x) * (ay - y) - (cy - y) * (ax - x)
                if u >= 0 and v >= 0 and u + v <= twice:
                    worst = max(worst, abs(twice * h[x, y] - u * za - v * zb - (twice - u - v) * zc))
        return worst / twice


def main(grid, *words):
    n, _, heights = read_grid(grid)
    m, asked = 2 ** n, {'error': {}, 'budget': {}, 'map': {}}
    for word in words:
        if word in asked:
            into = asked[word]
        else:
            into[float(word)] = None
    errors, budgets, maps = asked.values()
    numbers, measured = map_of(heights, m), Errors(heights)
    for tolerance in maps:
        mesh = mesh_of(numbers, m, 2 * tolerance)
        maps[tolerance] = len(mesh), max(map(measured.of, mesh)), 2 * tolerance
    for tolerance in sorted({*numbers.values(), 0}, reverse=True):
        mesh = mesh_of(numbers, m, tolerance)
        worst = max(map(measured.of, mesh))
        for error, found in errors.items():
            if found is None and worst <= error:
                errors[error] = len(mesh), worst, tolerance
        for budget, found in budgets.items():
            if len(mesh) <= budget and (found is None or worst < found[1]):
                budgets[budget] = len(mesh), worst, tolerance
        if None not in errors.values() and all(len(mesh) > budget for budget in budgets):
            break
    for name, found in asked.items():
        for value, (count, worst, tolerance) in found.items():
            print(f'{name} {value:g} rtin {count} error {worst:g} map {tolerance / 2:g}')


if __name__ == '__main__':
    main(*sys.argv[1:])

"""Engines of up to 8,193 points a side against plain greedy splitting: flat ground but for a window of rough heights, so
that a triangle which does not meet the window needs no look."""
import contextlib
import functools
import heapq
import math

import numpy as np
import pytest

from calfrewin import Engine, Fitter
from fitters import lying
from frames import leaves_of
from terrain import level

WINDOW = 24  # points a side


class Plain:
    """The triangles of such ground, each looked at when it is asked for, by what the words mean."""

    def __init__(self, exponent, rough, at, spacing):
        self.n, self.rough, self.at, self.spacing, self.camera = exponent, rough, at, spacing, (0, 0, 0)
        self.wedge = functools.cache(self._wedge)
        self.corners = functools.cache(self._corners)

    def height(self, point):
        x, y = point[0] - self.at[0], point[1] - self.at[1]
        return int(self.rough[x][y]) if 0 <= x < WINDOW and 0 <= y < WINDOW else 0

    def _corners(self, a):
        m = 2 ** self.n
        if a < 4:
            return [((0, 0), (m, 0), (0, m)), ((m, m), (0, m), (m, 0))][a - 2]
        apex, v0, v1 = self.corners(a // 2)
        middle = ((v0[0] + v1[0]) // 2, (v0[1] + v1[1]) // 2)
        return (middle, v1, apex) if a % 2 else (middle, apex, v0)

    def mate(self, a):
        """The triangle of the level that holds what lies beyond the base: counted in eighths of a step."""
        apex, v0, v1 = self.corners(a)
        ways = [v0[i] + v1[i] - 2 * apex[i] for i in (0, 1)]
        beyond = [4 * (v0[i] + v1[i]) + (ways[i] > 0) - (ways[i] < 0) for i in (0, 1)]
        if not all(0 <= it <= 8 * 2 ** self.n for it in beyond):
            return None
        b = 2 if sum(beyond) < 8 * 2 ** self.n else 3
        while level(b) < level(a):
            b = next(child for child in (2 * b, 2 * b + 1) if self.holds(child, beyond))
        return b

    def holds(self, a, point):
        corners = [[8 * part for part in corner] for corner in self.corners(a)]
        return all((q[0] - p[0]) * (point[1] - p[1]) - (q[1] - p[1]) * (point[0] - p[0]) >= 0
                   for p, q in zip(corners, corners[1:] + corners[:1]))

    def _wedge(self, a):
        """Thickness, least and greatest height."""
        corners = self.corners(a)
        sides = list(zip(*corners))
        if any(max(side) < low or min(side) >= low + WINDOW for side, low in zip(sides, self.at)):
            return 0, 0, 0
        if level(a) == 2 * self.n:
            own = [self.height(corner) for corner in corners]
            return 0, min(own), max(own)
        (e, low, high), (f, low2, high2) = self.wedge(2 * a), self.wedge(2 * a + 1)
        _, v0, v1 = corners
        middle = self.corners(2 * a)[0]
        return (max(e, f) + abs(2 * self.height(middle) - self.height(v0) - self.height(v1)), min(low, low2), max(high, high2))

    def priority(self, a):
        thickness, low, high = self.wedge(a)
        box = [(self.spacing * min(side), self.spacing * max(side)) for side in zip(*self.corners(a))] + [(low, high)]
        gaps = [max(least - at, at - most, 0) for (least, most), at in zip(box, self.camera)]
        return 65536 * thickness // (math.isqrt(sum(gap * gap for gap in gaps)) + 1)

    def leaves(self, budget):
        """Those of the mesh for a budget, and the greatest priority of one."""
        split, queue = set(), [(-self.priority(a), a) for a in (2, 3)]
        while queue:
            below, a = heapq.heappop(queue)
            if below == 0:
                break
            more, left = set(), [a]
            while left:
                b = left.pop()
                if b is not None and b not in split and b not in more:
                    more.add(b)
                    left += [self.mate(b)] + [b // 2] * (b >= 4)
            if len(split) + len(more) + 2 > budget:
                break
            split |= more
            if level(a) + 1 < 2 * self.n:
                for child in (2 * a, 2 * a + 1):
                    heapq.heappush(queue, (-self.priority(child), child))
        leaves = leaves_of(split)
        return leaves, max(map(self.priority, leaves))


def check_frames(exponent, at, spacing, views, kind=Engine):
    """Frames of a deep grid for these budgets and cameras, beside the plain loop."""
    side = 2 ** exponent + 1
    rough = np.random.default_rng(exponent).integers(0, 65536, (WINDOW, WINDOW))
    heights = np.zeros((side, side), np.uint16)
    for x in range(WINDOW):
        for y in range(WINDOW):
            heights[side - 1 - (at[1] + y), at[0] + x] = rough[x][y]
    plain = Plain(exponent, rough, at, spacing)
    with kind(heights, 2000, spacing) as engine:
        del heights
        for budget, camera in views:
            plain.camera = camera
            engine.camera(*camera)
            engine.budget(budget)
            note = engine.frame()
            leaves, worst = plain.leaves(budget)
            assert engine.leaves().tolist() == leaves, "the mesh is another"
            assert (note.triangles, note.worst) == (len(leaves), worst), "the worst is another"
            corners = [plain.corners(a) for a in leaves]
            places = [[(side - 1 - y) * side + x for x, y in triangle] for triangle in corners]
            assert engine.indices().tolist() == places, "the indices are others"


@pytest.mark.parametrize("exponent, at, spacing", [(12, (2048, 1000), 30), (13, (8150, 3), 90), (13, (4085, 4090), 1024)])
def test_frames_of_deep_grids_are_those_of_greedy_splitting(exponent, at, spacing):
    near = spacing * at[0], spacing * at[1], 200
    check_frames(exponent, at, spacing, [
        (2000, (0, 0, 100_000)), (2000, near), (300, (2 ** 23, 5, 2 ** 20)), (1999, (2 ** 30, -2 ** 30, 2 ** 30)),
        (2000, (near[0] + 700, 0, 0))])


@pytest.mark.parametrize("method, lie, text", [
    ("leaves", lambda found: found[::-1], "the mesh is another"),
    ("frame", lambda note: note._replace(worst=note.worst + 1), "the worst is another"),
    ("indices", lambda found: found[:, [0, 2, 1]], "the indices are others"),
])
def test_the_comparison_with_greedy_splitting_finds_lies(method, lie, text):
    for kind in (Engine, lying(Engine, method, lie)):
        with contextlib.nullcontext() if kind is Engine else pytest.raises(AssertionError, match=text):
            check_frames(5, (3, 4), 30, [(300, (0, 0, 900))], kind)


def worst_of(heights, triangles):
    """How far the triangles are from the heights at most, point by point, and twice their area."""
    side, worst, area = len(heights), 0.0, 0
    for places in triangles.tolist():
        (ax, ay), (bx, by), (cx, cy) = ((place % side, place // side) for place in places)
        columns, rows = slice(min(ax, bx, cx), max(ax, bx, cx) + 1), slice(min(ay, by, cy), max(ay, by, cy) + 1)
        y, x = np.mgrid[rows, columns]
        twice = (bx - ax) * (cy - ay) - (cx - ax) * (by - ay)
        at_b, at_c = ((x - ax) * (cy - ay) - (cx - ax) * (y - ay)) / twice, ((bx - ax) * (y - ay) - (x - ax) * (by - ay)) / twice
        inside = (at_b >= 0) & (at_c >= 0) & (at_b + at_c <= 1)
        own = float(heights[ay, ax])
        surface = own + at_b * (float(heights[by, bx]) - own) + at_c * (float(heights[cy, cx]) - own)
        worst, area = max(worst, float(np.abs(surface - heights[rows, columns])[inside].max())), area + abs(twice)
    return worst, area


def test_a_fit_of_a_deep_grid_is_as_far_off_as_it_says():
    side = 4097
    y, x = np.mgrid[0:side, 0:side]
    rough = np.random.default_rng(5).integers(0, 60, (side, side))
    heights = (20_000 + 9_000 * np.sin(x / 301) * np.cos(y / 217) + rough).astype(np.uint16)
    with Fitter(heights) as fitter:
        fitter.fit(400)
        off, triangles = fitter.deviation(), fitter.indices()
    assert 2 < len(triangles) and off <= 400
    assert worst_of(heights, triangles) == (float(off), 2 * (side - 1) ** 2)  # exact: all numbers have few binary digits


def test_a_certificate_of_the_largest_grid_has_room():
    """Addresses have up to ten digits there: a leaf's line has up to 16 bytes and a reason's 17. The patch is as fine as can be,
    about the point that always going to the right child leads to, where addresses are greatest."""
    side, patch, budget = 16_385, 100, 19_800
    heights = np.zeros((side, side), np.uint16)
    top, left = side - 3 * side // 5 - patch // 2, 4 * side // 5 - patch // 2
    heights[top:top + patch, left:left + patch] = np.random.default_rng(1).integers(0, 65_536, (patch, patch))
    with Engine(heights, budget) as engine:
        del heights
        text = engine.certificate(0, 0, 0)
    assert text.count("leaf") <= budget and 48 + 30 * budget < len(text) <= 48 + 33 * budget

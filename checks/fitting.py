#!/usr/bin/env python3
"""The mesh of the fewest triangles for an error, or for an error of each point's own, with points as vertices or without, and that of the
least error for a budget, from the definitions.

usage: checks/fitting.py [SEED]    compares the plain loop with all closed sets of small grids, of levels 1 and 2, and says how many

The error of a triangle is how far the surface is from its plane at a grid point that it holds, at most, in units of height, times 2^n.
Slow and plain: the worst leaf is split with what that forces, one after the other, and the set is noted each time its worst error falls
below all before it."""
import heapq
import random
import sys
from fractions import Fraction

from frames import forced, leaves_of, vertices_of
from same import same
from strips import deviation, points_off
from terrain import Terrain


class Errors:
    """The errors of triangles, by address, each looked at once."""

    def __init__(self, terrain):
        self.terrain, self.known = terrain, {}

    def of(self, a):
        if a not in self.known:
            self.known[a] = deviation(self.terrain, [a])
        return self.known[a]

    def worst(self, split):
        return max(self.of(a) for a in leaves_of(split))


class Excesses(Errors):
    """By how much a point that a triangle holds is off by more than its own tolerance, at most, in thousandths of a unit, times 2^n.
    Tolerances are in thousandths, by point; None is that of a point that does not count."""

    def __init__(self, terrain, tolerances):
        super().__init__(terrain)
        self.tolerances = tolerances

    def of(self, a):
        if a not in self.known:
            self.known[a] = max([1000 * distance - self.tolerances[point] * self.terrain.m
                                 for point, distance in points_off(self.terrain, a) if self.tolerances[point] is not None] + [0])
        return self.known[a]


def with_points(terrain, points):
    """The least set whose mesh has these points as vertices: it splits what has one of them halfway along its base."""
    split = set()
    for a in terrain.splittable:
        if terrain.base_midpoint(a) in points:
            split |= forced(terrain, split, a)
    return split


def marks(terrain, errors, start=()):
    """The sets that are noted, each with its worst error: the first is that of the start, and the last has no error."""
    split, low = set(start), None
    leaves = [(-errors.of(a), a) for a in leaves_of(split)]
    heapq.heapify(leaves)
    while True:
        while leaves[0][1] in split:
            heapq.heappop(leaves)
        worst, a = -leaves[0][0], leaves[0][1]
        if low is None or worst < low:
            low = worst
            yield worst, set(split)
        if worst == 0:
            return
        more = forced(terrain, split, a)
        split |= more
        for b in more:
            for child in (2 * b, 2 * b + 1):
                heapq.heappush(leaves, (-errors.of(child), child))


def fit_error(terrain, errors, tolerance, points=()):
    """The set of the fewest triangles with no error above the tolerance, of those whose meshes have these points as vertices."""
    return next(split for worst, split in marks(terrain, errors, with_points(terrain, set(points))) if worst <= tolerance)


def fit_budget(terrain, errors, budget):
    """The set of the least worst error of at most so many triangles, and of the fewest for it."""
    best = set()
    for _, split in marks(terrain, errors):
        if len(split) + 2 > budget:
            break
        best = split
    return best


def decimal(count, over):
    """The decimal text of a fraction over a power of two, by rational numbers."""
    whole, rest = divmod(Fraction(count, over), 1)
    places = next(k for k in range(over.bit_length()) if (rest * 10 ** k).denominator == 1)
    return f"{whole}.{int(rest * 10 ** places):0{places}}" if places else f"{whole}"


def closed_sets(terrain):
    """All closed sets, from the empty one by what each further split forces."""
    found, left = {frozenset()}, [frozenset()]
    while left:
        split = left.pop()
        for a in leaves_of(split):
            if a in terrain.splittable:
                more = frozenset(split | forced(terrain, set(split), a))
                if more not in found:
                    found.add(more)
                    left.append(more)
    return found


def compare(n, seed):
    """Compares all tolerances and budgets of a small grid with all its closed sets. Answers how many there are."""
    roll = random.Random(seed)
    m = 2 ** n
    maxval = roll.choice([3, 1000, 65535])
    heights = {(x, y): roll.choice([0, roll.randint(0, maxval)]) for x in range(m + 1) for y in range(m + 1)}
    terrain = Terrain((n, maxval, heights), 1, 2)
    errors = Errors(terrain)
    meshes = [(max(errors.of(a) for a in leaves_of(split)), len(split) + 2, split) for split in closed_sets(terrain)]
    for tolerance in {worst + step for worst, _, _ in meshes for step in (-1, 0, 1) if worst + step >= 0}:
        within = [(count, split) for worst, count, split in meshes if worst <= tolerance]
        fewest = min(count for count, _ in within)
        best = [split for count, split in within if count == fewest]
        same(best, [fit_error(terrain, errors, tolerance)], "another set has as few triangles for the error")
        assert all(best[0] <= split for _, split in within), "a set within the error lacks a split of the least one"
    kept = [set(roll.sample(sorted(heights), roll.randint(1, 3))) for _ in range(6)]
    for tolerance, points in zip(roll.choices(sorted({worst for worst, _, _ in meshes}), k=len(kept)), kept):
        within = [(count, split) for worst, count, split in meshes
                  if worst <= tolerance and points <= set(vertices_of(terrain, leaves_of(split)))]
        fewest = min(count for count, _ in within)
        best = [split for count, split in within if count == fewest]
        same(best, [fit_error(terrain, errors, tolerance, points)], "another set with the points has as few triangles for the error")
    for points in kept:
        own = {point: roll.choice([None, 0, 1000 * roll.randint(0, maxval)]) for point in heights}
        excesses = Excesses(terrain, own)
        within = [(count, split) for _, count, split in meshes
                  if excesses.worst(split) == 0 and points <= set(vertices_of(terrain, leaves_of(split)))]
        fewest = min(count for count, _ in within)
        best = [split for count, split in within if count == fewest]
        same(best, [fit_error(terrain, excesses, 0, points)], "another set within the tolerances has as few triangles")
    for budget in range(2, 2 * m * m + 2):
        worst, count = min((worst, count) for worst, count, _ in meshes if count <= budget)
        best = [split for other, size, split in meshes if other == worst and size == count]
        same(best, [fit_budget(terrain, errors, budget)], "another set of the budget is as near with as few triangles")
    return len(meshes)


if __name__ == "__main__":
    start = int(sys.argv[1]) if len(sys.argv) > 1 else 1
    assert decimal(23904, 256) == "93.375" and decimal(3, 2048) == "0.00146484375" and decimal(512, 256) == "2" and decimal(0, 2) == "0"
    counts = {compare(1, seed) for seed in range(start, start + 40)} | {compare(2, seed) for seed in range(start, start + 3)}
    print("closed sets:", *sorted(counts))

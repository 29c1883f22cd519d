"""A grid with the state that a script changes, and what the definitions say of its triangles: corners, mates, thickness,
box, mark and priority. Slow and plain: a triangle is a tuple of corners, and all triangles are listed by address."""
import math


def read_grid(name):
    """Level, maxval and heights by point of a raw PGM file without comments."""
    magic, size, maxval, raster = open(name, "rb").read().split(b"\n", 3)
    width, height = size.split()
    side, maxval = int(width), int(maxval)
    size = 2 if maxval > 255 else 1
    if magic != b"P5" or width != height or not 0 < maxval < 65536 or len(raster) != size * side * side:
        raise ValueError(f"{name}: not a raw grid without comments")
    samples = [int.from_bytes(raster[at:at + size], "big") for at in range(0, len(raster), size)]
    heights = {(x, side - 1 - row): samples[row * side + x] for row in range(side) for x in range(side)}
    return (side - 1).bit_length() - 1, maxval, heights


def level(a):
    return a.bit_length() - 2


class Terrain:
    """Heights, camera, planes, threshold and budget in force, and the triangles of the grid by address."""

    def __init__(self, grid, spacing, budget):
        self.n, self.maxval, self.heights = grid
        self.spacing, self.budget = spacing, budget
        self.m = m = 2 ** self.n
        self.camera, self.planes, self.threshold = (0, 0, 0), [], 0
        self.finest = 2 ** (2 * self.n + 1)  # the least address of the finest level
        self.addresses = range(2, 2 * self.finest)
        self.splittable = range(2, self.finest)
        # By address: apex and two ends of the base.
        self.corners = [None, None, ((0, 0), (m, 0), (0, m)), ((m, m), (0, m), (m, 0))]
        for a in self.splittable:
            apex, v0, v1 = self.corners[a]
            middle = self.base_midpoint(a)
            self.corners += [(middle, apex, v0), (middle, v1, apex)]
        # By address: the least and the greatest x, and the least and the greatest y, in world units.
        self.sides = [points and [(spacing * min(ends), spacing * max(ends)) for ends in zip(*points)] for points in self.corners]
        # By address: the other triangle of the level that has the same base, or None. By level and base: all that have it.
        across = {}
        for a in self.splittable:
            across.setdefault(self.base(a), []).append(a)
        self.mate = {a: next((b for b in across[self.base(a)] if b != a), None) for a in self.splittable}
        self.wedges = None

    def base(self, a):
        _, v0, v1 = self.corners[a]
        return level(a), min(v0, v1), max(v0, v1)

    def base_midpoint(self, a):
        _, v0, v1 = self.corners[a]
        return (v0[0] + v1[0]) // 2, (v0[1] + v1[1]) // 2

    def set_height(self, point, height):
        self.heights[point] = height
        self.wedges = None

    def wedge(self, a):
        """Thickness, least and greatest height of a triangle, on the heights as they are."""
        self.wedges = self.wedges or self.all_wedges()
        return self.wedges[a]

    def corner_wedge(self, a):
        own = [self.heights[point] for point in self.corners[a]]
        return 0, min(own), max(own)

    def joined_wedge(self, a, left, right):
        """By its centre and the wedges of its children."""
        _, v0, v1 = self.corners[a]
        deviation = abs(2 * self.heights[self.base_midpoint(a)] - self.heights[v0] - self.heights[v1])
        return max(left[0], right[0]) + deviation, min(left[1], right[1]), max(left[2], right[2])

    def all_wedges(self):
        """From the finest triangles up."""
        wedges = [None] * len(self.corners)
        for a in reversed(self.addresses):
            wedges[a] = self.corner_wedge(a) if a >= self.finest else self.joined_wedge(a, wedges[2 * a], wedges[2 * a + 1])
        return wedges

    def box(self, a):
        """The least and the greatest value on each axis, in world units."""
        return self.sides[a] + [self.wedge(a)[1:]]

    def mark(self, a):
        xs, ys, zs = self.box(a)
        outside = [[p[0] * x + p[1] * y + p[2] * z + p[3] < 0 for x in xs for y in ys for z in zs] for p in self.planes]
        if any(all(corners) for corners in outside):
            return "outside"
        return "cut" if any(any(corners) for corners in outside) else "inside"

    def priority(self, a):
        thickness = self.wedge(a)[0]
        if thickness == 0 or self.planes and self.mark(a) == "outside":
            return 0
        gaps = [max(low - at, at - high, 0) for (low, high), at in zip(self.box(a), self.camera)]
        ratio = 65536 * thickness // (math.isqrt(sum(gap * gap for gap in gaps)) + 1)
        return ratio if ratio > self.threshold else 0

    def priorities(self):
        """By address; the first two places are those of no triangle."""
        return [0, 0] + [self.priority(a) for a in self.addresses]

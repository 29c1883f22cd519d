#!/usr/bin/env python3
"""Tells whether a fitted mesh is a best one, by a certificate, or makes one. Python 3 alone: nothing of the program or of its checks.

usage: python3 fit_certificates.py GRID MESH CERT error E SPACING      or budget BUDGET in the place of error E
       python3 fit_certificates.py make GRID error E                   or budget BUDGET: prints a certificate
       and, behind an error, keep POINTS: a file of lines X Y, grid points that the mesh has to have as vertices
GRID is a PGM file, MESH the OBJ file of `roam fit`, CERT the certificate (docs/REFERENCE.md). Prints `certified fit ..` and ends with 0, or
`rejected: ..` with the first test that fails and 7; 5 for a file that cannot be read; 1 for other words.

Why no mesh is better. Take any mesh of bintree triangles without cracks that is nowhere off by more than the tolerance. Each reason names
a leaf of what the reasons before it make, and a grid point in it where the surface is farther from its plane than that. If the other mesh
has split all that was split so far, each of its triangles is a leaf or lies in one; that leaf is none of its triangles, for the point's
sake, so it is split there too, and with it its parent and the triangle across its base, else a corner would lie inside an edge. So the
other mesh has all that the reasons before the mesh split, and no fewer triangles. For a budget the reasons behind the mesh say the same of
every mesh that is nowhere off by as much as the tolerance: it has more triangles than the budget. Where points are kept, each mesh that
has them splits the triangles whose longest sides have them in the middle, so these are split first. One height of a plane is looked at
for each reason, and each point of the mesh once."""
import heapq
import re
import sys
from fractions import Fraction

GAP = rb"[ \t\r\n](?:[ \t\r\n]|(?<=[ \t\r\n])#[^\r\n]*(?=[\r\n]))*"
TOLERANCE = re.compile(rb"[ \t]*tolerance[ \t]+([0-9]{1,19})[ \t]*\r?")
OFF = re.compile(rb"[ \t]*off[ \t]+([0-9]{1,19})[ \t]+([0-9]{1,19})[ \t]+([0-9]{1,19})[ \t]*\r?")
MESH = re.compile(rb"[ \t]*mesh[ \t]*\r?")
NEED = re.compile(rb"[ \t]*need[ \t]+([0-9]{1,19})[ \t]+([0-9]{1,19})[ \t]*\r?")
POINT = re.compile(rb"[ \t]*(?:(-?[0-9]{1,18})[ \t]+(-?[0-9]{1,18})[ \t]*|#.*)?\r?")


class Rejected(Exception):
    """The text says which test failed."""


def grid_of(data):
    """n, and the heights as heights[y][x], y upwards."""
    header = re.match(rb"P([25])" + (GAP + rb"([0-9]{1,9})") * 3 + rb"[ \t\r\n]", data)
    if not header:
        raise ValueError("the grid is no PGM file")
    width, height, maxval = map(int, header.groups()[1:])
    raster, size = data[header.end():], 2 if maxval > 255 else 1
    plain, places = header[1] == b"2", range(0, len(raster), size)
    samples = list(map(int, raster.split())) if plain else [int.from_bytes(raster[at:at + size], "big") for at in places]
    n = (width - 1).bit_length() - 1
    if not (width == height == 2 ** n + 1 and 1 <= n <= 11 and len(samples) == width * width and max(samples) <= maxval):
        raise ValueError("the grid has no side of 3, 5, 9, .. or 2049, or other samples than its header says")
    return n, [samples[row * width:(row + 1) * width] for row in reversed(range(width))]


def doubled_area(p, q, r):
    """Twice the area of a triangle, positive where its corners go counterclockwise."""
    return (q[0] - p[0]) * (r[1] - p[1]) - (r[0] - p[0]) * (q[1] - p[1])


class Surface:
    """A grid, its triangles by address, and how far the surface is from their planes, in units of height, times 2^n."""

    def __init__(self, n, heights):
        self.n, self.m, self.heights, self.end = n, 2 ** n, heights, 2 ** (2 * n + 1)
        m = self.m
        self.corners = {2: ((0, 0), (m, 0), (0, m)), 3: ((m, m), (0, m), (m, 0))}

    def corners_of(self, a):
        """The corner of the right angle, and the ends of the longest side, counterclockwise; a child's from its parent's."""
        if a not in self.corners:
            apex, v0, v1 = self.corners_of(a // 2)
            middle = (v0[0] + v1[0]) // 2, (v0[1] + v1[1]) // 2
            self.corners[a] = (middle, v1, apex) if a % 2 else (middle, apex, v0)
        return self.corners[a]

    def weights(self, a, point):
        """The areas across from the corners, none negative where the triangle holds the point."""
        apex, v0, v1 = self.corners_of(a)
        return doubled_area(point, v0, v1), doubled_area(apex, point, v1), doubled_area(apex, v0, point)

    def off(self, a, point):
        """How far the surface is from the plane at a point; None where the triangle does not hold it."""
        areas = self.weights(a, point)
        if min(areas) < 0:
            return None
        plane = sum(area * self.heights[y][x] for area, (x, y) in zip(areas, self.corners_of(a)))
        return abs(self.heights[point[1]][point[0]] * self.m - self.m * plane // sum(areas))

    def farthest(self, a):
        """The greatest such distance in a triangle, and a point where it is."""
        xs, ys = zip(*self.corners_of(a))
        points = ((x, y) for y in range(min(ys), max(ys) + 1) for x in range(min(xs), max(xs) + 1))
        return max((off, point) for point in points for off in [self.off(a, point)] if off is not None)

    def mate(self, a):
        """The triangle across the base, found from above by three times its centre; None at the border."""
        apex, v0, v1 = self.corners_of(a)
        centre = tuple(2 * (p + q) - r for p, q, r in zip(v0, v1, apex))
        if not all(0 < at < 3 * self.m for at in centre):
            return None
        b = 2 if sum(centre) < 3 * self.m else 3
        while b.bit_length() < a.bit_length():
            left = [tuple(3 * at for at in corner) for corner in self.corners_of(2 * b)]
            inside = all(doubled_area(left[i], left[i - 2], centre) > 0 for i in range(3))
            b = 2 * b if inside else 2 * b + 1
        return b

    def force(self, split, a):
        """Splits a triangle, and what it stands on: its parent, its mate and the mate's parent. Tells what was split."""
        left, more = [a], []
        while left:
            b = left.pop()
            if b is not None and b not in split:
                split.add(b)
                more.append(b)
                left += [self.mate(b)] + [b // 2] * (b > 3)
        return more

    def centred(self, point):
        """A triangle whose longest side has this middle: of two, the other is its mate. None for a corner of the square."""
        if set(point) <= {0, self.m}:
            return None
        a = 2 if sum(point) <= self.m else 3
        while True:
            _, v0, v1 = self.corners_of(a)
            if (v0[0] + v1[0], v0[1] + v1[1]) == (2 * point[0], 2 * point[1]):
                return a
            a = 2 * a if min(self.weights(2 * a, point)) >= 0 else 2 * a + 1

    def leaves(self, split):
        """The triangles that are not split and whose parent is, depth first."""
        left, found = [3, 2], []
        while left:
            a = left.pop()
            if a in split:
                left += [2 * a + 1, 2 * a]
            else:
                found.append(a)
        return found


def points_of(text, m):
    """The points of a file of lines X Y, of a grid of m steps a side; blank lines and those that begin with # have none."""
    lines = text.removesuffix(b"\n").split(b"\n") if text else []
    found = [POINT.fullmatch(line) for line in lines]
    points = [tuple(map(int, match.groups())) for match in found if match and match[1]]
    if None in found or len(lines) > (m + 1) ** 2 or not all(0 <= at <= m for point in points for at in point):
        raise ValueError("the points are no lines of two numbers that are a column and a row of the grid")
    return points


def certificate_of(text, n, keeps):
    """The points that are needed, where points are kept; the tolerance; and the reasons before the mesh and behind it as
    (address, column, row)."""
    lines = text.removesuffix(b"\n").split(b"\n") if text else []
    needs, tolerance, parts = [], None, [[]]
    for number, line in enumerate(lines, 1):
        own, off, need = TOLERANCE.fullmatch(line), OFF.fullmatch(line), NEED.fullmatch(line) if keeps else None
        numbers = tuple(map(int, off.groups())) if off else (0, 0, 0)
        point = tuple(map(int, need.groups())) if need else None
        if len(line) <= 200 and tolerance is None and own and int(own[1]) < 2 ** 32:
            tolerance = int(own[1])
        elif len(line) <= 200 and tolerance is None and need and max(point) <= 2 ** n and len(needs) < 8_388_608:
            needs.append(point)
        elif len(line) <= 200 and tolerance is not None and MESH.fullmatch(line) and len(parts) == 1:
            parts.append([])
        elif (len(line) <= 200 and tolerance is not None and 2 <= numbers[0] < 2 ** (2 * n + 1) and max(numbers[1:]) <= 2 ** n
              and len(parts[-1]) < 8_388_608):
            parts[-1].append(numbers)
        else:
            raise Rejected(f"bad line {number}")
    if len(parts) == 1:
        raise Rejected(f"bad line {len(lines) + 1}")
    return needs, tolerance, *parts


def bad_reason(surface, split, reasons, tolerance):
    """Splits each reason's triangle, with what that forces; the place of the first that is none, from 1."""
    for place, (a, x, y) in enumerate(reasons, 1):
        off = surface.off(a, (x, y))
        if a in split or (a > 3 and a // 2 not in split) or off is None or off <= tolerance:
            return place
        surface.force(split, a)
    return None


def goal_of(kind, word, m):
    """The tolerance of an error, and the budget; None of each that the words do not say."""
    if kind == "error" and re.fullmatch(r"[0-9]{1,16}(\.[0-9]{1,3})?", word) and Fraction(word) < 65536:
        return int(Fraction(word) * m), None
    if kind == "budget" and re.fullmatch("[0-9]{1,19}", word) and 2 <= int(word) <= 1_048_576:
        return None, int(word)
    sys.exit(__doc__)


def split_needs(surface, split, needs, kept):
    """Splits each triangle whose longest side has a needed point in the middle."""
    triangles = [surface.centred(point) if point in kept else None for point in needs]
    if None in triangles:
        raise Rejected(f"bad reason {triangles.index(None) + 1}")
    for a in triangles:
        surface.force(split, a)


def check(grid, mesh, certificate, kind, word, spacing, points=None):
    """The line for a certificate that holds; raises Rejected by the first test that fails."""
    surface = Surface(*grid_of(grid))
    wanted, budget = goal_of(kind, word, surface.m)
    kept = set() if points is None else set(points_of(points, surface.m))
    needs, tolerance, needed, beyond = certificate_of(certificate, surface.n, points is not None)
    if wanted not in (None, tolerance):
        raise Rejected("other tolerance")
    split = set()
    split_needs(surface, split, needs, kept)
    place = bad_reason(surface, split, needed, tolerance)
    if place:
        raise Rejected(f"bad reason {len(needs) + place}")
    leaves = surface.leaves(split)
    deviation = max(surface.farthest(a)[0] for a in leaves)
    if deviation > tolerance:
        raise Rejected("over tolerance")
    if budget and len(leaves) > budget:
        raise Rejected("over budget")
    if points is not None and beyond:
        raise Rejected(f"bad reason {len(needs) + len(needed) + 1}")
    place = bad_reason(surface, split, beyond, max(tolerance - 1, 0))
    if place:
        raise Rejected(f"bad reason {len(needed) + place}")
    if not {surface.centred(point) for point in kept} - {None} <= split:
        raise Rejected("too few reasons")
    if budget and tolerance > 0 and len(split) + 2 <= budget:
        raise Rejected("too few reasons")
    points = sorted({(y, x) for a in leaves for x, y in surface.corners_of(a)})
    number = {(x, y): i for i, (y, x) in enumerate(points, 1)}
    text = "".join([f"v {x * spacing} {y * spacing} {surface.heights[y][x]}\n" for y, x in points]
                   + ["f %d %d %d\n" % tuple(number[point] for point in surface.corners_of(a)) for a in leaves]).encode()
    if mesh != text:
        shorter = min(len(mesh), len(text))
        raise Rejected(f"mesh differs at {next((at for at in range(shorter) if mesh[at] != text[at]), shorter)}")
    return f"certified fit triangles {len(leaves)} deviation {deviation} over {surface.m} error {decimal(deviation, surface.m)}"


def decimal(count, over):
    """The decimal text of a fraction over a power of two."""
    whole, rest = divmod(count, over)
    places = over.bit_length() - 1
    digits = f"{rest * 10 ** places // over:0{places}}".rstrip("0") if rest else ""
    return f"{whole}.{digits}" if digits else f"{whole}"


def made(grid, kind, word, points=None):
    """A certificate of the mesh of an error or a budget: what is off is split, the worst first, and each split has its reason.
    The triangles of points that are kept are split before."""
    surface = Surface(*grid_of(grid))
    tolerance, budget = goal_of(kind, word, surface.m)
    known = {}

    def farthest(a):
        if a not in known:
            known[a] = surface.farthest(a)
        return known[a]

    def worst_first(split, leaves):
        """Yields the worst leaf with its distance and its point; what was split in between counts. Ends where none is off."""
        heap = [(-farthest(a)[0], a) for a in leaves]
        heapq.heapify(heap)
        while True:
            while heap[0][1] in split:
                heapq.heappop(heap)
            off, a = -heap[0][0], heap[0][1]
            yield off, (a, *farthest(a)[1])
            for b in surface.force(split, a):
                for child in (2 * b, 2 * b + 1):
                    heapq.heappush(heap, (-farthest(child)[0], child))

    def reasons(split, bound):
        """The reasons for all that is off by more than a bound, which is split."""
        found = []
        for off, reason in worst_first(split, surface.leaves(split)):
            if off <= bound:
                return found
            found.append(reason)

    if budget:
        split = set()
        for off, _ in worst_first(split, [2, 3]):
            if len(split) + 2 > budget:
                break
            tolerance = off if tolerance is None else min(off, tolerance)
            if off == 0:
                break
    split, needs = set(), []
    for point in points_of(points, surface.m) if points is not None else []:
        a = surface.centred(point)
        if a is not None and a not in split:
            needs.append(point)
            surface.force(split, a)
    needed = reasons(split, tolerance)
    beyond = reasons(split, tolerance - 1) if budget and tolerance else []
    lines = ["need %d %d" % point for point in needs] + [f"tolerance {tolerance}"]
    lines += ["off %d %d %d" % reason for reason in needed] + ["mesh"] + ["off %d %d %d" % reason for reason in beyond]
    return "".join(line + "\n" for line in lines)


words, kept = sys.argv[1:], []
try:
    if words[-2:-1] == ["keep"] and words[-4 if words[0] == "make" else -5:][0] == "error":
        kept, words = [open(words[-1], "rb").read()], words[:-2]
    if len(words) == 4 and words[0] == "make":
        print(made(open(words[1], "rb").read(), *words[2:], *kept), end="")
    elif len(words) == 6:
        print(check(*(open(name, "rb").read() for name in words[:3]), *words[3:5], int(words[5]), *kept))
    else:
        sys.exit(__doc__)
except Rejected as why:
    print(f"rejected: {why}")
    sys.exit(7)
except (OSError, ValueError) as fault:
    sys.stderr.write(f"{fault}\n")
    sys.exit(5)

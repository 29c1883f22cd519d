"""Random sessions of the library against the definitions (terrain.py, frames.py), of which it knows nothing: after each
frame the addresses of the mesh, its indices, vertices and strip, how far it is off, and each number of the note; between frames
what changed, and now and then the mesh for a tolerance and a budget, and a certificate.

The definitions are those of checks/, a plain program for the same words."""
import random
from fractions import Fraction

import calfrewin
import certifying
from frames import View, forced, frame_of, least_split, leaves_of, run_of_steps, vertices_of
from scripts import apply_line
from strips import deviation, strip_of
from terrain import Terrain


def flat(found):
    """The numbers of an array or of a list of tuples."""
    return [int(k) for row in found for k in row]


def settled(terrain, tolerance, errors):
    """The least closed set of which no leaf is off by more than the tolerance, times m."""
    split = set()
    while True:
        worse = next((a for a in leaves_of(split) if errors[a] > tolerance), None)
        if worse is None:
            return split
        split |= forced(terrain, split, worse)


def fitted(terrain, thousandths, budget):
    """The leaves of the mesh for a tolerance, or of the mesh of the budget that is off by the least."""
    errors = {a: deviation(terrain, [a]) for a in terrain.addresses}
    for tolerance in [thousandths * terrain.m // 1000] + sorted(set(errors.values())):
        split = settled(terrain, tolerance, errors)
        if len(split) + 2 <= budget:
            return leaves_of(split)


class Session:
    """One engine, and beside it the terrain as the definitions have it."""

    def __init__(self, draw, engine=calfrewin.Engine):
        self.draw, n = draw, draw.choice([1, 1, 2, 2, 3])
        self.side = 2 ** n + 1
        rough = draw.choice([1, 9, 300, 65_535])
        heights = [draw.randint(0, rough) for _ in range(self.side ** 2)]
        most, spacing = draw.choice([2, 3, draw.randint(2, 2 * 4 ** n + 1)]), draw.choice([1, draw.randint(1, 60), 1024])
        points = {(k % self.side, self.side - 1 - k // self.side): height for k, height in enumerate(heights)}
        self.most, self.before, self.leaves = most, set(), []
        self.terrain = Terrain((n, 65_535, points), spacing, most)
        self.engine = engine(heights, most, spacing)
        self.reach = spacing * self.side + 100

    def point(self):
        return [self.draw.randrange(self.side) for _ in range(2)]

    def change(self):
        """One change, of the engine and of the terrain."""
        draw = self.draw
        kind = draw.choice([b"camera", b"camera", b"set", b"raise", b"plane", b"noplanes", b"look", b"budget", b"threshold"])
        if kind == b"camera":
            values = [draw.randint(-self.reach, self.reach) for _ in range(3)]
            if draw.randrange(9) == 0:
                values[draw.randrange(3)] = draw.choice([-2 ** 30, 2 ** 30])
            self.engine.camera(*values)
        elif kind == b"set":
            values = [*self.point(), draw.choice([0, 65_535, draw.randint(0, 400)])]
            self.engine.set(*values)
        elif kind == b"raise":
            (x0, y0), (x1, y1) = self.point(), self.point()
            values = [min(x0, x1), min(y0, y1), max(x0, x1), max(y0, y1), draw.choice([-65_535, 65_535, draw.randint(-90, 90)])]
            self.engine.raise_area(*values)
        elif kind == b"plane" and len(self.terrain.planes) < 6:
            values = [draw.randint(-3, 3) for _ in range(3)] + [draw.randint(-self.reach, self.reach)]
            if draw.randrange(9) == 0:
                values = [draw.choice([-1, 1]) * 2 ** 20 for _ in range(3)] + [draw.choice([-1, 1]) * 2 ** 50]
            self.engine.add_plane(*values)
        elif kind == b"look":
            planes = [[draw.randint(-3, 3) for _ in range(3)] + [draw.randint(-self.reach, self.reach)]
                      for _ in range(draw.randrange(7))]
            self.engine.look(planes)
            apply_line(self.terrain, b"noplanes", [])
            for plane in planes:
                apply_line(self.terrain, b"plane", plane)
            return
        elif kind == b"threshold":
            self.terrain.threshold = 0
            ratio = draw.choice(self.terrain.priorities())
            self.terrain.threshold = draw.choice([0, 2 ** 64 - 1, ratio, max(ratio - 1, 0)])
            self.engine.threshold(self.terrain.threshold)
            return
        elif kind == b"budget":
            values = [draw.randint(2, self.most)]
            self.engine.budget(*values)
        else:
            kind, values = b"noplanes", []
            self.engine.clear_planes()
        apply_line(self.terrain, kind, values)

    def places(self, triangles):
        return [(self.side - 1 - y) * self.side + x for a in triangles for x, y in self.terrain.corners[a]]

    def fit(self):
        """A mesh for a tolerance and a budget, and what is wrong with it."""
        draw, terrain = self.draw, self.terrain
        thousandths = draw.choice([0, 65_535_999, draw.randint(0, 300_000), draw.randint(0, 65_535_999)])
        budget = draw.choice([2, 2 ** 32 - 1, draw.randint(2, 2 * 4 ** terrain.n)])
        leaves = fitted(terrain, thousandths, budget)
        found = self.engine.fit(Fraction(thousandths, 1000), budget)
        assert flat(found.triangles) == self.places(leaves), "the fitted mesh is another"
        assert found.vertices == len(vertices_of(terrain, leaves)), "its vertices are others"
        assert found.deviation == Fraction(deviation(terrain, leaves), terrain.m), "its deviation is another"

    def certify(self):
        """A certificate from some place, and what is wrong with it."""
        terrain = self.terrain
        before = terrain.camera, terrain.planes, terrain.threshold
        place = tuple(self.draw.randint(-self.reach, self.reach) for _ in range(3))
        text = self.engine.certificate(*place)
        terrain.camera, terrain.planes, terrain.threshold = place, [], 0
        told, leaves, reasons = certifying.read(text.encode(), terrain)
        assert told == place, "the certificate is of another place"
        assert leaves == leaves_of(frame_of(terrain, View(terrain))[0]), "the certificate is of another mesh"
        certifying.check(terrain, leaves, reasons)
        terrain.camera, terrain.planes, terrain.threshold = before

    def good_enough(self):
        """The least closed set with all ratios above the threshold."""
        terrain, threshold = self.terrain, self.terrain.threshold
        terrain.threshold = 0
        split = least_split(terrain, View(terrain), threshold)
        terrain.threshold = threshold
        return split

    def frame(self):
        """One frame, and what is wrong with it."""
        terrain, note = self.terrain, self.engine.frame()
        view = View(terrain)
        split, blocked = frame_of(terrain, view)
        reached, splits, merges = run_of_steps(terrain, view, self.before)
        assert reached == split, "the frame steps lead elsewhere than to the frame of the budget"
        leaves = leaves_of(split)
        if note.worst == 0:
            assert split == self.good_enough(), "the mesh has not the fewest triangles for the threshold"
        marks = [terrain.mark(a) for a in leaves]
        counts = (marks.count(kind) for kind in ("inside", "cut", "outside"))
        wanted = calfrewin.Note(view.worst(leaves), len(leaves), len(vertices_of(terrain, leaves)), splits, merges,
                                *(blocked or (0, 0)), *counts)
        assert note == wanted, f"the note is {note}, not {wanted}"
        assert flat(self.engine.indices()) == self.places(leaves), "the indices are others"
        vertices = vertices_of(terrain, leaves)
        positions = [k for x, y in vertices for k in (x * terrain.spacing, y * terrain.spacing, terrain.heights[x, y])]
        assert flat(self.engine.positions()) == positions, "the vertices are others"
        number = {point: k for k, point in enumerate(vertices)}
        compact = [number[point] for a in leaves for point in terrain.corners[a]]
        assert flat(self.engine.compact()) == compact, "their numbers are others"
        assert flat(self.engine.strip()) == self.places(strip_of(split)), "the strip is another"
        assert self.engine.deviation() == Fraction(deviation(terrain, leaves), terrain.m), "the deviation is another"
        found = self.engine.leaves()
        assert [int(a) for a in found] == leaves, f"the mesh is {list(found)}, not {leaves}"
        gone, come = calfrewin.changes(self.leaves if len(self.leaves) else found, found)
        old = set(map(int, self.leaves)) if len(self.leaves) else set(leaves)
        assert [int(a) for a in gone] == sorted_as(self.leaves, old - set(leaves)), "what went is another"
        assert [int(a) for a in come] == sorted_as(leaves, set(leaves) - old), "what came is another"
        last = list(map(int, self.leaves)) if len(self.leaves) else [2, 3]
        told = self.engine.changed()
        assert [int(a) for a in told.gone] == sorted_as(last, set(last) - set(leaves)), "what the frame took out is another"
        assert [int(a) for a in told.come] == sorted_as(leaves, set(leaves) - set(last)), "what the frame put in is another"
        self.before, self.leaves = split, found


def sorted_as(these, wanted):
    return [int(a) for a in these if int(a) in wanted]


def run(seed, number, engine=calfrewin.Engine):
    """One session; an AssertionError, or certifying.Rejected, says what is wrong with it."""
    session = Session(random.Random(f"{seed} {number}"), engine)
    with session.engine:
        for frame in range(8):
            for _ in range(session.draw.randrange(4)):
                session.change()
            session.frame()
            if frame % 4 == 1:
                session.fit()
                session.certify()

"""The strip of a mesh, its turns, and how far a mesh is from the terrain."""
from terrain import level


def strip_of(split):
    """The leaves in the order of the strip: below a split triangle of even level left before right, else right before left."""
    def of(a):
        if a not in split:
            return [a]
        left, right = of(2 * a), of(2 * a + 1)
        return left + right if level(a) % 2 == 0 else right + left
    return of(2) + of(3)


def shared(terrain, a, b):
    """The ends of the edge that two triangles of a strip share."""
    ends = set(terrain.corners[a]) & set(terrain.corners[b])
    assert len(ends) == 2, "two neighbours of the strip do not share a whole edge"
    return ends


def turns_of(terrain, strip):
    """How often the strip turns left, and how often right."""
    turns = {"left": 0, "right": 0}
    for before, a, after in zip(strip, strip[1:], strip[2:]):
        corners, entered, left = terrain.corners[a], shared(terrain, before, a), shared(terrain, a, after)
        i = next(i for i in range(3) if {corners[i], corners[i - 2]} == entered)
        p, q, r = corners[i], corners[i - 2], corners[i - 1]  # counterclockwise
        assert left in ({r, p}, {q, r}), "the strip leaves a triangle where it entered"
        turns["left" if left == {r, p} else "right"] += 1
    shared(terrain, strip[0], strip[-1])
    return turns


def doubled_area(p, q, r):
    """Twice the area of a triangle; below 0 where its corners run clockwise."""
    return (q[0] - p[0]) * (r[1] - p[1]) - (r[0] - p[0]) * (q[1] - p[1])


def off(terrain, a, point):
    """m times the distance in height between the terrain and a triangle's plane at a point; None where the triangle does not hold it."""
    apex, v0, v1 = corners = terrain.corners[a]
    parts = [doubled_area(point, v0, v1), doubled_area(apex, point, v1), doubled_area(apex, v0, point)]
    if min(parts) < 0:
        return None
    area = doubled_area(apex, v0, v1)
    plane = terrain.m * sum(part * terrain.heights[corner] for part, corner in zip(parts, corners))
    assert plane % area == 0
    return abs(terrain.m * terrain.heights[point] - plane // area)


def points_off(terrain, a):
    """The points that a triangle holds, each with that distance."""
    xs, ys = zip(*terrain.corners[a])
    points = ((x, y) for x in range(min(xs), max(xs) + 1) for y in range(min(ys), max(ys) + 1))
    return [(point, distance) for point in points for distance in [off(terrain, a, point)] if distance is not None]


def deviation(terrain, leaves):
    """m times the greatest distance in height between the terrain and the planes of triangles, over all their points."""
    return max(distance for a in leaves for _, distance in points_off(terrain, a))

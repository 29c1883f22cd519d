"""Closed sets, the frame of a budget, the steps that lead to it from the set before, and the text of a mesh, each by
looking at everything. A closed set is a set of addresses; rank is a place in the list of all triangles, the first
in rank first."""
import itertools


class View:
    """The priorities and the ranks of all triangles of a terrain as it stands."""

    def __init__(self, terrain):
        self.priorities = terrain.priorities()
        # Those of one priority stay by address.
        order = sorted(terrain.addresses, key=self.priorities.__getitem__, reverse=True)
        self.rank = [None] * len(self.priorities)
        for place, a in enumerate(order):
            self.rank[a] = place
        self.ranking = [a for a in itertools.takewhile(self.priorities.__getitem__, order) if a in terrain.splittable]

    def worst(self, leaves):
        return max(self.priorities[a] for a in leaves)


def forced(terrain, split, a):
    """What has to be split so that a is: itself, its mate, and their parents, as far as they are not."""
    more, left = set(), [a]
    while left:
        b = left.pop()
        if b is None or b in split or b in more:
            continue
        more.add(b)
        left.append(terrain.mate[b])
        if b >= 4:
            left.append(b // 2)
    return more


def leaves_of(split):
    """The leaves of a closed set, depth first."""
    found, left = [], [3, 2]
    while left:
        a = left.pop()
        if a in split:
            left += [2 * a + 1, 2 * a]
        else:
            found.append(a)
    return found


def frame_of(terrain, view):
    """The set that is split for the budget: what the first triangles in rank force, as many of them as fit. With it
    the triangle that blocks and the number of triangles that it needs, or None."""
    split = set()
    for a in view.ranking:
        more = forced(terrain, split, a)
        need = len(split) + len(more) + 2
        if need > terrain.budget:
            return split, (a, need)
        split |= more
    return split, None


def least_split(terrain, view, tolerance):
    """The least closed set of all triangles with a priority above the tolerance."""
    split = set()
    for a in terrain.splittable:
        if view.priorities[a] > tolerance:
            split |= forced(terrain, split, a)
    return split


def diamond(terrain, a):
    return {a, terrain.mate[a]} - {None}


def last_diamond(terrain, view, split):
    """Of the diamonds whose children are all leaves the one whose better member is last in rank, by this member, or None."""
    rank, mate = view.rank, terrain.mate
    bottom = {a for a in split if 2 * a not in split and 2 * a + 1 not in split}
    leads = (a for a in bottom if mate[a] is None or mate[a] in bottom and rank[a] < rank[mate[a]])
    return max(leads, key=rank.__getitem__, default=None)


def next_set(terrain, view, split, leaves):
    """The set after one frame step, with its leaves, or None where the frame ends."""
    merged = None
    if len(leaves) > terrain.budget:
        merged = last_diamond(terrain, view, split)
    else:
        first = min(leaves, key=view.rank.__getitem__)
        if view.priorities[first] > 0:
            more = forced(terrain, split, first)
            if len(leaves) + len(more) <= terrain.budget:
                children = {b for a in more for b in (2 * a, 2 * a + 1)}
                return split | more, (leaves | children) - more
            last = last_diamond(terrain, view, split)
            if last is not None and view.rank[first] < view.rank[last]:
                merged = last
        else:
            last = last_diamond(terrain, view, split)
            if last is not None and view.priorities[last] == 0:
                merged = last
    if merged is None:
        return None
    gone = diamond(terrain, merged)
    return split - gone, (leaves - {b for a in gone for b in (2 * a, 2 * a + 1)}) | gone


def run_of_steps(terrain, view, before):
    """The last set of the frame steps from the set of the frame before, and how many triangles they split and merged."""
    split, leaves, splits, merges = set(before), set(leaves_of(before)), 0, 0
    while (after := next_set(terrain, view, split, leaves)) is not None:
        change = len(after[0]) - len(split)
        splits, merges = splits + max(change, 0), merges + max(-change, 0)
        split, leaves = after
    return split, splits, merges


def vertices_of(terrain, leaves):
    return sorted({point for a in leaves for point in terrain.corners[a]}, key=lambda point: (point[1], point[0]))


def mesh_text(terrain, leaves):
    """The OBJ text of triangles in this order, with the marks of the planes in force."""
    vertices = vertices_of(terrain, leaves)
    number = {point: i for i, point in enumerate(vertices, 1)}
    lines = [f"v {x * terrain.spacing} {y * terrain.spacing} {terrain.heights[x, y]}" for x, y in vertices]
    group = None
    for a in leaves:
        if terrain.planes and group != (group := terrain.mark(a)):
            lines.append(f"g {group}")
        lines.append("f " + " ".join(str(number[point]) for point in terrain.corners[a]))
    return "".join(line + "\n" for line in lines)

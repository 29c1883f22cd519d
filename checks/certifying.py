"""Certificates that a mesh is the best one within its budget, for greedy.py: a sound one, and what each is rejected for."""
import re
from collections import Counter

from frames import View, frame_of, leaves_of, mesh_text
from scripts import CAMERA, fields_of, is_signed, lines_of
from strips import doubled_area


class Rejected(Exception):
    """A certificate is rejected; the text says why."""


def made(terrain):
    """A certificate of the frame of the budget, as text: why each reason's triangle is split in any mesh of a lower worst."""
    view = View(terrain)
    split, blocked = frame_of(terrain, view)
    leaves, reasons, named = leaves_of(split), [], set()
    wanted = view.ranking[:view.ranking.index(blocked[0]) + 1] if blocked else []
    for a in wanted:
        left = [("want", a)]
        while left:
            kind, b = left.pop()
            if b is None or b in named:
                continue
            named.add(b)
            reasons.append((kind, b))
            left.append(("mate", terrain.mate[b]))
            if b >= 4:
                left.append(("parent", b // 2))
    lines = ["camera %d %d %d" % terrain.camera] + [f"leaf {a}" for a in leaves] + [f"{kind} {a}" for kind, a in reasons]
    return "".join(line + "\n" for line in lines)


def read(text, terrain):
    """Camera, leaves and reasons of a certificate."""
    camera, leaves, reasons = None, [], []
    for number, line in enumerate(lines_of(text), 1):
        fields = fields_of(line)
        if len(line) > 200 or not (is_camera(fields) if number == 1 else is_entry(fields, terrain, leaves, reasons)):
            raise Rejected(f"bad line {number}")
        if number == 1:
            camera = tuple(int(field) for field in fields[1:])
        elif fields[0] == b"leaf":
            leaves.append(int(fields[1]))
        else:
            reasons.append((fields[0], int(fields[1])))
    if camera is None:
        raise Rejected("bad line 1")
    return camera, leaves, reasons


def is_camera(fields):
    return len(fields) == 4 and fields[0] == b"camera" and all(
        is_signed(field) and low <= int(field) <= high for field, (low, high) in zip(fields[1:], CAMERA))


def is_entry(fields, terrain, leaves, reasons):
    """Whether a leaf, or a reason, may stand behind these leaves and reasons."""
    if len(fields) != 2 or not re.fullmatch(rb"[0-9]{1,19}", fields[1]):
        return False
    if fields[0] == b"leaf":
        return not reasons and len(leaves) < 1_048_576 and int(fields[1]) in terrain.addresses
    return fields[0] in (b"want", b"parent", b"mate") and len(reasons) < 1_100_000 and int(fields[1]) in terrain.splittable


def tiles(terrain, leaves):
    """Whether each of four points in each square of the grid lies strictly inside exactly one triangle. Quarter units."""
    found = Counter()
    for a in leaves:
        corners = [(4 * x, 4 * y) for x, y in terrain.corners[a]]
        apex, v0, v1 = corners
        for i in range(min(x for x, _ in corners), max(x for x, _ in corners), 4):
            for j in range(min(y for _, y in corners), max(y for _, y in corners), 4):
                for p in ((i + 2, j + 1), (i + 2, j + 3), (i + 1, j + 2), (i + 3, j + 2)):
                    if min(doubled_area(apex, v0, p), doubled_area(v0, v1, p), doubled_area(v1, apex, p)) > 0:
                        found[p] += 1
    return len(found) == 4 * terrain.m ** 2 and set(found.values()) == {1}


def between(p, q):
    """The grid points strictly between the ends of an edge, which runs along a row, a column or a diagonal."""
    steps = max(abs(q[0] - p[0]), abs(q[1] - p[1]))
    return {(p[0] + (q[0] - p[0]) // steps * k, p[1] + (q[1] - p[1]) // steps * k) for k in range(1, steps)}


def is_conforming(terrain, leaves):
    if not tiles(terrain, leaves):
        return False
    corners = {point for a in leaves for point in terrain.corners[a]}
    edges = [(p, q) for apex, v0, v1 in (terrain.corners[a] for a in leaves) for p, q in ((apex, v0), (v0, v1), (v1, apex))]
    return not any(between(p, q) & corners for p, q in edges)


def has_cause(terrain, kind, a, worst, named):
    """Whether a reason follows from the worst or from the triangles that are named before it."""
    if kind == b"want":
        return terrain.priority(a) >= worst
    return bool(named & ({2 * a, 2 * a + 1} if kind == b"parent" else {terrain.mate[a]}))


def check(terrain, leaves, reasons):
    """The worst of the leaves; raises Rejected by the first test that fails."""
    if not is_conforming(terrain, leaves):
        raise Rejected("not conforming")
    if len(leaves) > terrain.budget:
        raise Rejected("over budget")
    worst, named = max(terrain.priority(a) for a in leaves), set()
    for place, (kind, a) in enumerate(reasons, 1):
        if a in named or not has_cause(terrain, kind, a, worst, named):
            raise Rejected(f"bad reason {place}")
        named.add(a)
    if worst > 0 and len(reasons) < terrain.budget - 1:
        raise Rejected("too few reasons")
    return worst


def compare(terrain, leaves, mesh):
    """Raises Rejected at the first byte in which a mesh differs from the text of the leaves."""
    wanted = mesh_text(terrain, leaves).encode()
    if mesh != wanted:
        shorter = min(len(mesh), len(wanted))
        raise Rejected(f"mesh differs at {next((at for at in range(shorter) if mesh[at] != wanted[at]), shorter)}")

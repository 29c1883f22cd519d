#!/usr/bin/env python3
"""Tells whether a mesh is a best one within its budget, by a certificate. Python 3 alone: nothing of the program or of its checks.

usage: python3 certificates.py GRID MESH CERT BUDGET SPACING
GRID is a PGM file, MESH the OBJ file, CERT the certificate (docs/REFERENCE.md). Prints the line of `roam certify check` and ends with its
status: 0 and `certified ..`, or 7 and `rejected: ..` with the first test that fails; 5 for a file that cannot be read; 1 for other words.

Why no mesh is better. Let w be the greatest priority of the leaves, and take any mesh of bintree triangles without cracks in which all
priorities are below w. A child's thickness is at most its parent's and its box lies in its parent's, so its priority is no greater; hence
a triangle of priority w or more is split in that mesh (`want`). Where a triangle is split, its parent is (`parent`), and so is the triangle
across its base, else a corner would lie inside an edge (`mate`). Each reason names one more triangle that is split. A mesh with k triangles
split has k + 2 leaves: with BUDGET - 1 reasons it has at least BUDGET + 1, more than the budget."""
import math
import re
import sys

GAP = rb"[ \t\r\n](?:[ \t\r\n]|(?<=[ \t\r\n])#[^\r\n]*(?=[\r\n]))*"
CAMERA = re.compile(rb"[ \t]*camera((?:[ \t]+-?[0-9]{1,18}){3})[ \t]*\r?")
ENTRY = re.compile(rb"[ \t]*(leaf|want|parent|mate)[ \t]+([0-9]{1,19})[ \t]*\r?")


class Rejected(Exception):
    """The text says which test failed."""


def grid_of(data):
    """n, and the heights as heights[y][x], y upwards."""
    header = re.match(rb"P([25])" + (GAP + rb"([0-9]{1,9})") * 3 + rb"[ \t\r\n]", data)
    if not header:
        raise ValueError("the grid is no PGM file")
    width, height, maxval = map(int, header.groups()[1:])
    raster, size = data[header.end():], 2 if maxval > 255 else 1
    plain, places = header[1] == b"2", range(0, len(raster), size)
    samples = list(map(int, raster.split())) if plain else [int.from_bytes(raster[at:at + size], "big") for at in places]
    n = (width - 1).bit_length() - 1
    if not (width == height == 2 ** n + 1 and 1 <= n <= 11 and len(samples) == width * width and max(samples) <= maxval):
        raise ValueError("the grid has no side of 3, 5, 9, .. or 2049, or other samples than its header says")
    return n, [samples[row * width:(row + 1) * width] for row in reversed(range(width))]


def children(apex, v0, v1):
    """The two halves of a triangle: the corner of the right angle, and the ends of the longest side, counterclockwise."""
    middle = (v0[0] + v1[0]) // 2, (v0[1] + v1[1]) // 2
    return (middle, apex, v0), (middle, v1, apex)


def corners_of(a, m):
    """The corners of the triangle with address a: its digits in base 2, behind the first one, are the way down to it."""
    first, *rest = bin(a)[3:]
    corners = ((0, 0), (m, 0), (0, m)) if first == "0" else ((m, m), (0, m), (m, 0))
    for digit in rest:
        corners = children(*corners)[int(digit)]
    return corners


def priorities_of(wanted, n, heights, camera, spacing):
    """The priorities of the wanted triangles: 65536 times the thickness over the distance of the box plus 1, rounded down."""
    found = {}

    def wedge(a, *corners):
        """Thickness, least and greatest height of all grid points in the triangle."""
        own = h, h0, h1 = [heights[y][x] for x, y in corners]
        thickness, low, high = 0, min(own), max(own)
        if a < 2 ** (2 * n + 1):
            left, right = children(*corners)
            (e, low, high), (f, low2, high2) = wedge(2 * a, *left), wedge(2 * a + 1, *right)
            thickness = max(e, f) + abs(2 * heights[left[0][1]][left[0][0]] - h0 - h1)
            low, high = min(low, low2), max(high, high2)
        if a in wanted:
            xs, ys = ([spacing * at for at in ends] for ends in zip(*corners))
            gaps = [max(min(ends) - at, at - max(ends), 0) for ends, at in zip((xs, ys, (low, high)), camera)]
            found[a] = 65536 * thickness // (math.isqrt(sum(gap * gap for gap in gaps)) + 1)
        return thickness, low, high

    for a in (2, 3):
        wedge(a, *corners_of(a, 2 ** n))
    return found


def certificate_of(text, n):
    """The camera, the leaves, and the reasons as (kind, triangle)."""
    first, *lines = text.removesuffix(b"\n").split(b"\n")
    found, leaves, reasons = CAMERA.fullmatch(first), [], []
    if not found or len(first) > 200 or max(abs(int(field)) for field in found[1].split()) > 2 ** 30:
        raise Rejected("bad line 1")
    for number, line in enumerate(lines, 2):
        entry = ENTRY.fullmatch(line)
        kind, a = (entry[1], int(entry[2])) if entry and len(line) <= 200 else (b"none", 0)
        if kind == b"leaf" and not reasons and len(leaves) < 1_048_576 and 2 <= a < 2 ** (2 * n + 2):
            leaves.append(a)
        elif kind != b"leaf" and len(reasons) < 1_100_000 and 2 <= a < 2 ** (2 * n + 1):
            reasons.append((kind, a))
        else:
            raise Rejected(f"bad line {number}")
    return tuple(map(int, found[1].split())), leaves, reasons


def is_conforming(leaves, corners, n):
    """Two bintree triangles lie apart, or one in the other. So the leaves cover the square once if none is another one or above it, and
    their areas add up to the square. Then no corner may lie strictly inside an edge, which runs along a row, a column or a diagonal."""
    above = {a >> k for a in leaves for k in range(1, a.bit_length() - 1)}
    area = sum(2 ** (2 * n + 2 - a.bit_length()) for a in leaves)
    if len(set(leaves)) != len(leaves) or above & set(leaves) or area != 2 ** (2 * n + 1):
        return False
    points = {point for a in leaves for point in corners[a]}
    edges = {edge for apex, v0, v1 in map(corners.get, leaves) for edge in ((apex, v0), (v0, v1), (v1, apex))}
    return not any((x + (x2 - x) // length * k, y + (y2 - y) // length * k) in points for (x, y), (x2, y2) in edges
                   for length in [max(abs(x2 - x), abs(y2 - y))] for k in range(1, length))


def check(grid, mesh, certificate, budget, spacing):
    """The line for a certificate that holds; raises Rejected by the first test that fails."""
    n, heights = grid_of(grid)
    camera, leaves, reasons = certificate_of(certificate, n)
    corners = {a: corners_of(a, 2 ** n) for a in leaves + [a for _, a in reasons]}
    priority = priorities_of(corners, n, heights, camera, spacing)
    if not is_conforming(leaves, corners, n):
        raise Rejected("not conforming")
    if len(leaves) > budget:
        raise Rejected("over budget")
    worst, named, bases = max(priority[a] for a in leaves), set(), set()
    for place, (kind, a) in enumerate(reasons, 1):
        base = a.bit_length(), frozenset(corners[a][1:])
        causes = {b"want": priority[a] >= worst, b"parent": bool({2 * a, 2 * a + 1} & named), b"mate": base in bases}
        if a in named or not causes[kind]:
            raise Rejected(f"bad reason {place}")
        named.add(a)
        bases.add(base)
    if worst > 0 and len(reasons) < budget - 1:
        raise Rejected("too few reasons")
    points = sorted({(y, x) for a in leaves for x, y in corners[a]})
    number = {(x, y): i for i, (y, x) in enumerate(points, 1)}
    wanted = "".join([f"v {x * spacing} {y * spacing} {heights[y][x]}\n" for y, x in points]
                     + ["f %d %d %d\n" % tuple(number[point] for point in corners[a]) for a in leaves]).encode()
    if mesh != wanted:
        shorter = min(len(mesh), len(wanted))
        raise Rejected(f"mesh differs at {next((at for at in range(shorter) if mesh[at] != wanted[at]), shorter)}")
    return "certified camera %d %d %d triangles %d worst %d" % (*camera, len(leaves), worst)


if len(sys.argv) != 6:
    sys.exit(__doc__)
try:
    print(check(*(open(name, "rb").read() for name in sys.argv[1:4]), *map(int, sys.argv[4:])))
except Rejected as why:
    print(f"rejected: {why}")
    sys.exit(7)
except (OSError, ValueError) as fault:
    sys.stderr.write(f"{fault}\n")
    sys.exit(5)

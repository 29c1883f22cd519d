#!/usr/bin/env python3
"""The generated grid and script of a level and a seed, from docs/REFERENCE.md and with nothing of the program.

usage: checks/generated.py N SEED GRID SCRIPT     writes both"""
import sys


def q(z):
    return (z * 6364136223846793005 + (z // 2 ** 32) * (z % 2 ** 32) + 1442695040888963407) % 2 ** 64


def lattice(seed, k, i, j):
    z = q(seed)
    for number in (k, i, j):
        z = q((z + number) % 2 ** 64)
    return q(z) // 2 ** 48


def octave(seed, k, x, y, known):
    """The value between the four points of the lattice around (x, y); known has those that were asked for before."""
    w = 2 ** k
    i, a, j, b = x // w, x % w, y // w, y % w
    if (k, i, j) not in known:
        known[k, i, j] = [lattice(seed, k, *point) for point in ((i, j), (i + 1, j), (i, j + 1), (i + 1, j + 1))]
    low, right, above, both = known[k, i, j]
    return (low * (w - a) * (w - b) + right * a * (w - b) + above * (w - a) * b + both * a * b) // w ** 2


def heights(n, seed):
    """The height of each point (x, y)."""
    side, known = 2 ** n + 1, {}
    return {(x, y): sum(octave(seed, k, x, y, known) // 2 ** (n - k + 1) for k in range(n + 1)) for x in range(side) for y in range(side)}


def script(n, seed):
    m, lines = 2 ** n, []
    for f in range(1, 51):
        lines.append(f"camera {m * 30 * f // 51} {m * 30 * (51 - f) // 51} 40000")
        if f % 10 == 0:
            lines.append(f"set {7 * f % (m + 1)} {11 * f % (m + 1)} {lattice(seed, 0, f, f)}")
        lines.append("frame")
    return "".join(line + "\n" for line in lines)


def main(n, seed, grid_name, script_name):
    side, found = 2 ** n + 1, heights(n, seed)
    with open(grid_name, "wb") as out:
        out.write(b"P5\n%d %d\n65535\n" % (side, side))
        for y in reversed(range(side)):
            out.write(b"".join(found[x, y].to_bytes(2, "big") for x in range(side)))
    with open(script_name, "w", newline="\n") as out:
        out.write(script(n, seed))


if __name__ == "__main__":
    main(int(sys.argv[1]), int(sys.argv[2]), *sys.argv[3:])

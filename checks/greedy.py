#!/usr/bin/env python3
"""What the program prints and writes, from the definitions and with nothing of the program.

usage: checks/greedy.py WORD ..    the words of the program

Slow and plain: it looks at every triangle, every diamond and every point (terrain.py, frames.py, strips.py, fitting.py,
certifying.py, fit_certifying.py).
Exit statuses are those of the program: 2 where the words are no command, 4 where a line of a script or of points is refused, 5 where a
file cannot be read, 6 where a mesh cannot be written, 7 where a certificate is rejected. Grids are raw PGM files
without comments; no grid is refused. `certify make` and `certify make-fit` write a sound certificate, of which there are many."""
import re
import sys
from fractions import Fraction

import certifying
import fit_certifying
import fitting
import generated
from frames import View, frame_of, least_split, leaves_of, mesh_text, run_of_steps, vertices_of
from scripts import Refused, frames_of, is_signed, points_of
from strips import deviation, strip_of, turns_of
from terrain import Terrain, read_grid


MOST_TRIANGLES = 1_048_576


class Usage(Exception):
    """The words are no command."""


class CannotWrite(Exception):
    """A mesh cannot be written."""


def number(word, low, high):
    """The number that a word is, 1 to 19 digits, within its range."""
    if not re.fullmatch("[0-9]{1,19}", word, re.ASCII) or not low <= int(word) <= high:
        raise Usage
    return int(word)


def prefix_word(word):
    if not 1 <= len(word.encode()) <= 200:
        raise Usage
    return word


def read(name):
    with open(name, "rb") as file:
        return file.read()


def write_mesh(prefix, k, text):
    try:
        with open(f"{prefix}{k:06}.obj", "w", newline="\n") as out:
            out.write(text)
    except OSError as fault:
        raise CannotWrite(fault) from None


def budget_word(word):
    return number(word, 2, MOST_TRIANGLES)


def spacing_word(word):
    return number(word, 1, 1024)


def coordinate(word):
    """A coordinate of a camera: an optional - and 1 to 18 digits, in its range."""
    if not is_signed(word.encode()) or not abs(int(word)) <= 2 ** 30:
        raise Usage
    return int(word)


def frames(grid, script, budget, spacing):
    """The terrain in its state at each frame line of the script, with the number of the frame."""
    terrain = Terrain(read_grid(grid), spacing, budget)
    for k in frames_of(terrain, read(script)):
        yield k, terrain


def mesh(grid, script, prefix, budget, spacing):
    prefix, budget, spacing = prefix_word(prefix), budget_word(budget), spacing_word(spacing)
    before = set()
    for k, terrain in frames(grid, script, budget, spacing):
        view = View(terrain)
        split, blocked = frame_of(terrain, view)
        reached, splits, merges = run_of_steps(terrain, view, before)
        assert reached == split, "the frame steps lead elsewhere than to the frame of the budget"
        before, leaves = split, leaves_of(split)
        write_mesh(prefix, k, mesh_text(terrain, leaves))
        line = (f"frame {k} triangles {len(leaves)} vertices {len(vertices_of(terrain, leaves))} worst {view.worst(leaves)}"
                f" splits {splits} merges {merges} blocked {'none' if blocked is None else '%d needs %d' % blocked}")
        if terrain.planes:
            marks = [terrain.mark(a) for a in leaves]
            line += "".join(f" {kind} {marks.count(kind)}" for kind in ("inside", "cut", "outside"))
        print(line, flush=True)


def least(grid, script, prefix, tolerance, spacing):
    prefix, tolerance, spacing = prefix_word(prefix), number(tolerance, 0, 10 ** 12 - 1), spacing_word(spacing)
    for k, terrain in frames(grid, script, MOST_TRIANGLES, spacing):
        view = View(terrain)
        leaves = leaves_of(least_split(terrain, view, tolerance))
        write_mesh(prefix, k, mesh_text(terrain, leaves))
        print(f"frame {k} least {len(leaves)} vertices {len(vertices_of(terrain, leaves))} worst {view.worst(leaves)}", flush=True)


def strip(grid, script, prefix, budget, spacing):
    prefix, budget, spacing = prefix_word(prefix), budget_word(budget), spacing_word(spacing)
    for k, terrain in frames(grid, script, budget, spacing):
        order = strip_of(frame_of(terrain, View(terrain))[0])
        write_mesh(prefix, k, mesh_text(terrain, order))
        turns = turns_of(terrain, order)
        print(f"strip {k} triangles {len(order)} left {turns['left']} right {turns['right']}", flush=True)


def measure(grid, script, budget, spacing):
    budget, spacing = budget_word(budget), spacing_word(spacing)
    for k, terrain in frames(grid, script, budget, spacing):
        leaves = leaves_of(frame_of(terrain, View(terrain))[0])
        off, thickest = deviation(terrain, leaves), max(terrain.wedge(a)[0] for a in leaves)
        assert 2 * off <= terrain.m * thickest, "the thickness does not bound the deviation"
        print(f"measure {k} deviation {off} over {terrain.m} thickness {thickest}", flush=True)


def thousandths(word):
    """How many thousandths a word is: 1 to 16 digits, or these, a point and 1 to 3 digits, at most 65535.999."""
    parts = re.fullmatch(r"([0-9]{1,16})(?:\.([0-9]{1,3}))?", word, re.ASCII)
    if not parts:
        raise Usage
    count = 1000 * int(parts[1]) + int(((parts[2] or "") + "000")[:3])
    if count > 65_535_999:
        raise Usage
    return count


def goal_words(kind, bound):
    """The thousandths of an error, and a budget; None of the one that the words do not say."""
    if kind not in ("error", "budget"):
        raise Usage
    return (thousandths(bound), None) if kind == "error" else (None, budget_word(bound))


def keep_words(keep, budget):
    """Points are kept behind an error alone."""
    if keep is not None and (keep != "keep" or budget is not None):
        raise Usage


def fit(grid, prefix, kind, bound, spacing, keep=None, points=None):
    prefix, (error, budget), spacing = prefix_word(prefix), goal_words(kind, bound), spacing_word(spacing)
    keep_words(keep, budget)
    terrain = Terrain(read_grid(grid), spacing, MOST_TRIANGLES)
    kept = [] if points is None else points_of(read(points), terrain.m)
    errors = fitting.Errors(terrain)
    if budget is None:
        split = fitting.fit_error(terrain, errors, Fraction(error * terrain.m, 1000), kept)
    else:
        split = fitting.fit_budget(terrain, errors, budget)
    leaves = leaves_of(split)
    off = deviation(terrain, leaves)
    write_mesh(prefix, 1, mesh_text(terrain, leaves))
    print(f"fit triangles {len(leaves)} vertices {len(vertices_of(terrain, leaves))} deviation {off} over {terrain.m}"
          f" error {fitting.decimal(off, terrain.m)}", flush=True)


def certify(action, *words):
    if action == "make" and len(words) == 6:
        return certify_make(*words)
    if action == "check" and len(words) == 5:
        return certify_check(*words)
    if action == "make-fit" and len(words) in (4, 6):
        return certify_make_fit(*words)
    if action == "check-fit" and len(words) in (6, 8):
        return certify_check_fit(*words)
    raise Usage


def certify_make(grid, x, y, z, budget, spacing):
    camera, budget, spacing = (coordinate(x), coordinate(y), coordinate(z)), budget_word(budget), spacing_word(spacing)
    terrain = Terrain(read_grid(grid), spacing, budget)
    terrain.camera = camera
    print(certifying.made(terrain), end="")


def certify_check(grid, mesh_name, certificate, budget, spacing):
    budget, spacing = budget_word(budget), spacing_word(spacing)
    terrain = Terrain(read_grid(grid), spacing, budget)
    try:
        terrain.camera, leaves, reasons = certifying.read(read(certificate), terrain)
        worst = certifying.check(terrain, leaves, reasons)
        certifying.compare(terrain, leaves, read(mesh_name))
    except certifying.Rejected as why:
        print(f"rejected: {why}")
        return 7
    print("certified camera %d %d %d" % terrain.camera, f"triangles {len(leaves)} worst {worst}")


def certify_make_fit(grid, kind, bound, spacing, keep=None, points=None):
    (error, budget), spacing = goal_words(kind, bound), spacing_word(spacing)
    keep_words(keep, budget)
    terrain = Terrain(read_grid(grid), spacing, MOST_TRIANGLES)
    kept = [] if points is None else points_of(read(points), terrain.m)
    print(fit_certifying.made(terrain, fitting.Errors(terrain), error, budget, kept), end="")


def certify_check_fit(grid, mesh_name, certificate, kind, bound, spacing, keep=None, points=None):
    (error, budget), spacing = goal_words(kind, bound), spacing_word(spacing)
    keep_words(keep, budget)
    terrain = Terrain(read_grid(grid), spacing, MOST_TRIANGLES)
    kept = None if points is None else points_of(read(points), terrain.m)
    try:
        leaves = fit_certifying.check(terrain, fit_certifying.read(read(certificate), terrain, kept), error, budget, kept)
        certifying.compare(terrain, leaves, read(mesh_name))
    except certifying.Rejected as why:
        print(f"rejected: {why}")
        return 7
    print(fit_certifying.certified_line(terrain, leaves))


def info(grid):
    _, maxval, heights = grid = read_grid(grid)
    terrain = Terrain(grid, 1, 2)
    print(f"side {terrain.m + 1} maxval {maxval} low {min(heights.values())} high {max(heights.values())}"
          f" thickness {max(terrain.wedge(2)[0], terrain.wedge(3)[0])}")


def try_(n, seed):
    n, seed = number(n, 1, 11), number(seed, 0, 2 ** 32 - 1)
    terrain = Terrain((n, 65535, generated.heights(n, seed)), 30, 20000)
    count = triangles = worst = blocks = 0
    for count in frames_of(terrain, generated.script(n, seed).encode()):
        view = View(terrain)
        split, blocked = frame_of(terrain, view)
        triangles += len(split) + 2
        worst = max(worst, view.worst(leaves_of(split)))
        blocks += blocked is not None
    print(f"try {n} {seed} frames {count} triangles {triangles} worst {worst} blocked {blocks}")


# By its word: a command, and how many words may follow.
COMMANDS = {"mesh": (mesh, [5]), "info": (info, [1]), "try": (try_, [2]), "least": (least, [5]), "strip": (strip, [5]),
            "measure": (measure, [4]), "certify": (certify, [5, 6, 7, 9]), "fit": (fit, [5, 7])}


def main(words):
    command, counts = COMMANDS.get(words[0] if words else "", (None, []))
    if len(words) - 1 not in counts:
        raise Usage
    return command(*words[1:]) or 0


def run(words):
    """The exit status of these words."""
    try:
        return main(words)
    except Usage:
        return 2
    except Refused as why:
        print(why)
        return 4
    except CannotWrite as fault:
        print(fault, file=sys.stderr)
        return 6
    except OSError as fault:
        print(fault, file=sys.stderr)
        return 5


if __name__ == "__main__":
    sys.exit(run(sys.argv[1:]))

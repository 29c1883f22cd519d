#!/usr/bin/env python3
"""Times flights of worlds through the calls of the C library (worlds.c), and prints rows for results.md; no figure fails the run.

usage: bench/worlds.py [PEER]    takes some minutes, 600 MB of memory, a C compiler and crates/roam_c/out/libroam_c.a. PEER is
       another program, which is timed by turns: it takes the words of worlds.c and behind them the coarsest resolution, and
       prints a line with `X ms a frame (most Y)`, `changes X` and, of pages, `load X` and `frame after a page at most Y;`. It has
       to fly over the heights of made.h: one that changes another number of triangles a frame stops the run."""
import re
import subprocess
import sys
import tempfile
from pathlib import Path

TOP = Path(__file__).resolve().parent.parent
TERRAINS = [("alone", 11, 11, 0), ("pages", 9, 12, 3), ("pages", 9, 14, 3)]
FLIGHTS = [(terrain, budget, step) for budget in (20_000, 200_000) for step in (4, 30, 600) for terrain in TERRAINS]
FRAMES = 60


def ran(*words):
    return subprocess.run([str(word) for word in words], stdout=subprocess.PIPE, text=True, check=True).stdout


def built(folder):
    program = Path(folder) / "worlds"
    ran("cc", "-std=c99", "-O2", f"-I{TOP / 'lib'}", "-o", program, TOP / "bench/worlds.c",
        TOP / "crates/roam_c/out/libroam_c.a", "-lm")
    return program


def measured(program, flight):
    """The numbers of a line by their names."""
    words = ran(program, *flight).split()[1:]
    return dict(zip(words[::2], words[1::2]))


def number(pattern, line):
    found = re.search(pattern, line)
    return found[1] if found else "-"


def beside(peer, flight, changes):
    """Of three runs the one of the least mean: a frame, the worst, the worst behind a load, and a load."""
    lines = [ran(peer, *flight, flight[2] - flight[1]) for _ in range(3)]
    line = min(lines, key=lambda it: float(number(r"([0-9.]+) ms a frame", it)))
    if (theirs := number(r"changes ([0-9]+)", line)) != changes:
        sys.exit(f"worlds.py: {peer} changes {theirs} triangles a frame, not {changes}: it flies over other heights")
    return [number(it, line) for it in (r"([0-9.]+) ms a frame", r"ms a frame \(most ([0-9.]+)\)",
                                        r"after a page at most ([0-9.]+);", r" load ([0-9.]+) ")]


def row(program, peer, terrain, budget, step):
    kind, n, large, _ = terrain
    it = measured(program, flight := (*terrain, budget, step, FRAMES))
    cells = [f"{kind}, n = {n}" + f" of {large}" * (kind == "pages") + f", {int(it['triangles']):,} triangles, {step} units",
             "; ".join(it[name] for name in ("mean", "median", "worst", "behind_load", "first")),
             f"{it['evaluations']}; {it['changes']}", "; ".join(it[name] for name in ("loads", "load", "load_worst")),
             "; ".join(it[name] for name in ("unloads", "unload", "unload_worst")), f"{it['make']} ms, {it['page']} bytes",
             f"{it['bytes']}; {it['a_triangle']}"]
    if peer:
        their = beside(peer, flight, it["changes"])
        cells += ["; ".join(their), f"{float(it['mean']) / float(their[0]):.2f}"]
    return f"| {' | '.join(cells)} |"


def main(words):
    peer = words[0] if words else None
    heads = ["flight", "a frame, ms: mean; median; worst; worst behind a load; the first", "evaluations; changes a frame",
             "loads; ms a load, mean; worst", "unloads; ms an unload, mean; worst", "a page: making, bytes",
             "bytes of all else; a triangle"]
    heads += ["beside it, ms: a frame; worst; worst behind a load; a load", "ours / it"] if peer else []
    with open("/proc/loadavg", encoding="ascii") as file:
        print(f"processor time, of three flights of {FRAMES} frames the one of the least mean; load {file.read().split()[0]}\n")
    print(f"| {' | '.join(heads)} |\n|{'---|' * len(heads)}", flush=True)
    with tempfile.TemporaryDirectory() as folder:
        program = built(folder)
        for flight in FLIGHTS:
            print(row(program, peer, *flight), flush=True)


if __name__ == "__main__":
    main(sys.argv[1:])

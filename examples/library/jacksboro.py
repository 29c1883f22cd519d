#!/usr/bin/env python3
"""The Jacksboro fault from Python: the first frame of examples/jacksboro, and the flight of examples/flight, whose reports
were made by another program. Each frame's line is compared with theirs, and the first mesh is written as an OBJ file.

usage: jacksboro.py [FOLDER]      with calfrewin on PYTHONPATH; in FOLDER it leaves mesh.obj and its certificate"""
import os
import sys

import calfrewin
import numpy

examples = os.path.dirname(os.path.dirname(os.path.abspath(__file__)))


def read_grid(name):
    """The heights of a raw PGM of two-byte samples without comments."""
    with open(name, "rb") as file:
        assert file.readline() == b"P5\n"
        side, _ = map(int, file.readline().split())
        file.readline()
        return numpy.frombuffer(file.read(2 * side * side), ">u2").reshape(side, side)


def report_line(number, note, has_planes):
    blocked = f"{note.blocking} needs {note.need}" if note.blocking else "none"
    line = (f"frame {number} triangles {note.triangles} vertices {note.vertices} worst {note.worst}"
            f" splits {note.splits} merges {note.merges} blocked {blocked}")
    return line + (f" inside {note.inside} cut {note.cut} outside {note.outside}" if has_planes else "")


def report(heights, name):
    """The report of an example's script."""
    calls = {"camera": "camera", "raise": "raise_area", "plane": "add_plane", "budget": "budget"}
    with calfrewin.Engine(heights, budget=2000, spacing=90) as engine, open(os.path.join(examples, name, "script")) as script:
        for line in script:
            command, *words = line.split("#")[0].split() or [""]
            if command == "frame":
                note = engine.frame()
                assert len(engine.indices()) == note.triangles
                yield report_line(engine.state().frames, note, engine.state().planes > 0)
            elif command:
                getattr(engine, calls[command])(*map(int, words))


def obj_text(engine):
    """The mesh as an OBJ file: the vertices of the mesh alone, and triangles that count them from 1."""
    lines = ["v %d %d %d" % tuple(vertex) for vertex in engine.positions()]
    lines += ["f " + " ".join(str(int(k) + 1) for k in triangle) for triangle in engine.compact()]
    return "".join(line + "\n" for line in lines)


def write_mesh(heights, folder):
    """The mesh from the camera of examples/jacksboro, and the proof that none of 2,000 triangles is better."""
    with calfrewin.Engine(heights, budget=2000, spacing=90) as engine:
        engine.frame()
        with open(os.path.join(folder, "mesh.obj"), "w") as file:
            file.write(obj_text(engine))
        with open(os.path.join(folder, "certificate"), "w") as file:
            file.write(engine.certificate(0, 0, 0))
        fit = engine.fit(tolerance=50, budget=100_000)
        print(f"off by at most {float(engine.deviation())} units; {len(fit.triangles)} triangles are off by at most {float(fit.deviation)}")


def main():
    heights = read_grid(os.path.join(examples, "jacksboro", "grid.pgm"))
    for name in ("jacksboro", "flight"):
        with open(os.path.join(examples, name, "expected", "report")) as expected:
            for line, wanted in zip(report(heights, name), expected, strict=True):
                print(line)
                if line != wanted.rstrip("\n"):
                    sys.exit(f"{name}: the report has '{wanted.strip()}'")
    if len(sys.argv) > 1:
        write_mesh(heights, sys.argv[1])


if __name__ == "__main__":
    main()

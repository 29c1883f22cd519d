#!/usr/bin/env python3
"""Times the Python package beside the program over made terrain, and prints a table for results.md: seconds of the clock, of the
processor, and the most memory that was resident, each the least of RUNS. Nothing here is a test. Wants what `calfrewin` wants.

usage: bench/package.py [PROGRAM]     after `./roam` and `lib/build`; RUNS=3"""
import json
import os
import pathlib
import platform
import subprocess
import sys
import tempfile
import time

import numpy as np

TOP = pathlib.Path(__file__).resolve().parents[1]
PROGRAM = pathlib.Path(sys.argv[1] if len(sys.argv) == 2 else TOP / "crates/roam_cli/out/roam_cli").resolve()
RUNS = int(os.environ.get("RUNS", 3))
PACKAGE = {"PYTHONPATH": str(TOP / "python/src")}
CALFREWIN = [sys.executable, "-m", "calfrewin"]


def noise(rows, columns, level):
    """Numbers from -1 to 1 by a hash of their place: the same at every run."""
    row, column = np.arange(rows, dtype=np.uint32)[:, None], np.arange(columns, dtype=np.uint32)
    found = row * np.uint32(0x9E3779B1) ^ column * np.uint32(0x85EBCA77) ^ np.uint32(level * 0xC2B2AE3D & 0xFFFFFFFF)
    for shift, factor in ((15, 0x2C1B3C6D), (12, 0x297A2D39), (15, 1)):
        found = (found ^ found >> np.uint32(shift)) * np.uint32(factor)
    return found / 2.0 ** 31 - 1


def terrain(side, roughness, relief=1500.0):
    """Midpoint displacement: with each halving the noise is 2^-roughness times as high."""
    found = noise(5, 5, 0) * relief
    level = 0
    while len(found) < side:
        level += 1
        for axis in (0, 1):
            found = np.moveaxis(found, axis, 0)
            wide = np.empty((2 * len(found) - 1, found.shape[1]))
            wide[::2], wide[1::2] = found, (found[1:] + found[:-1]) / 2
            found = np.moveaxis(wide, 0, axis)
        found += noise(*found.shape, level) * relief * 2 ** (-roughness * level)
    found = found[:side, :side]
    return np.rint(found - found.min())


def cost(words):
    """Seconds of the clock and of the processor, and megabytes, of one run."""
    began = time.perf_counter()
    child = subprocess.Popen(words, env=os.environ | PACKAGE, stdout=subprocess.DEVNULL, stderr=subprocess.PIPE)
    said = child.stderr.read()
    _, status, used = os.wait4(child.pid, 0)
    child.returncode = status
    if status:
        sys.exit(f"bench/package.py: {' '.join(map(str, words))}: {said.decode()}")
    return time.perf_counter() - began, used.ru_utime + used.ru_stime, used.ru_maxrss / 1024


def row(what, words):
    costs = [cost(words) for _ in range(RUNS)]
    clock, processor, memory = (min(values) for values in zip(*costs))
    print(f"| {what} | {clock:.2f} | {processor:.2f} | {memory:.0f} |", flush=True)


def a_call():
    """Microseconds of a call of the binding with its checks, and of the bare call."""
    text = """
import timeit, calfrewin, ctypes
from calfrewin import _library as c
engine = calfrewin.Engine([[0] * 3] * 3, 2)
handle, note = ctypes.byref(engine._handle), c.FrameNote()
def least(call): return min(timeit.repeat(call, number=100_000, repeat=5)) * 10
checked, bare = least(lambda: engine.camera(1, 2, 3)), least(lambda: c.calls["camera"](handle, 1, 2, 3))
print(f"`Engine.camera` {checked:.2f} us, of which ctypes {bare:.2f} us")
"""
    ended = subprocess.run([sys.executable, "-c", text], env=os.environ | PACKAGE, stdout=subprocess.PIPE, text=True, check=True)
    return ended.stdout


def made(room):
    """The files of the terrain, by a process of its own, so that its memory is not counted among that of others."""
    os.chdir(room)
    for name, roughness in (("rough", 0.75), ("smooth", 0.92)):
        heights = terrain(2049, roughness)
        np.save(f"{name}.npy", heights.astype(np.float32))
        with open(f"{name}.pgm", "wb") as file:
            file.write(b"P5\n2049 2049\n65535\n" + heights.astype(">u2").tobytes())
    heights = terrain(3601, 0.92)
    heights = np.maximum(heights - np.median(heights), 0).astype(">i2")  # half of it sea, as on a coast
    heights[100:120, 200:230] = -32768
    heights.tofile("N44E007.hgt")


def main():
    processor = next(line.split(":")[1].strip() for line in open("/proc/cpuinfo") if line.startswith("model name"))
    print(f"{processor}, {os.cpu_count()} processors, Linux {platform.release()}, Python {platform.python_version()}, "
          f"numpy {np.__version__}; load {os.getloadavg()[0]:.1f}\n")
    print("| | s | processor s | MB |\n|---|---|---|---|")
    with tempfile.TemporaryDirectory() as room:
        subprocess.run([sys.executable, __file__, "--make", room], check=True)
        os.chdir(room)
        for name in ("rough", "smooth"):
            words = ["--error", "5", "--spacing", "10", "--overwrite", "--quiet"]
            fit = [PROGRAM, "fit", f"{name}.pgm", "out", "error", "5", "10"]
            count = subprocess.run(fit, stdout=subprocess.PIPE, text=True, check=True).stdout.split()[2]
            row(f"2049 x 2049, {name}, {int(count):,} triangles: `roam fit` error 5", fit)
            row("the same, `calfrewin` to .glb with normals, from .npy", [*CALFREWIN, f"{name}.npy", f"{name}.glb", *words])
            row("the same, without normals", [*CALFREWIN, f"{name}.npy", f"{name}.glb", "--no-normals", *words])
            row("the same to .ply", [*CALFREWIN, f"{name}.npy", f"{name}.ply", *words])
        words = ["N44E007.hgt", "tile.glb", "--error", "5", "--overwrite", "--quiet"]
        told = subprocess.run([*CALFREWIN, *words, "--json"], env=os.environ | PACKAGE, stdout=subprocess.PIPE, check=True).stdout
        count = json.loads(told)["triangles"]
        row(f"N44E007.hgt, 3601 x 3601, error 5, {count:,} triangles, to .glb in UTM", [*CALFREWIN, *words])
        row("`import calfrewin`, with Python's own start", [sys.executable, "-c", "import calfrewin"])
        row("Python's start with numpy alone", [sys.executable, "-c", "import numpy"])
        row("Python's start alone", [sys.executable, "-c", ""])
    print(f"\nA call: {a_call()}load {os.getloadavg()[0]:.1f} at the end")


if __name__ == "__main__":
    made(sys.argv[2]) if sys.argv[1:2] == ["--make"] else main()

#!/usr/bin/env python3
"""Damages grids and scripts of a small corpus and compares what the program makes of them with the rules of
docs/REFERENCE.md: the refusals of grids and the line of `info` are written here, all the rest is asked of greedy.py.

usage: checks/fuzz.py PROGRAM FOLDER SECONDS SEED   FOLDER is empty; the files of a difference are left there

Prints a line for each difference, and at last how many cases there were, by their exit status. The exit status is 0
where there was no difference."""
import collections
import os
import random
import subprocess
import sys
import time
from pathlib import Path

import alike

WHITE, DIGITS = b" \t\r\n", b"0123456789"
SIDES = [2 ** k + 1 for k in range(1, 12)]


class Refused(Exception):
    pass


def header(file):
    """Magic, the three numbers and the place behind the header, from the first byte on."""
    if file[0:1] not in (b"", b"P") or file[1:2] not in (b"", b"2", b"5"):
        raise Refused("bad magic")
    numbers, digits, state = [], b"", "magic"
    for at in range(2, len(file)):
        byte = file[at:at + 1]
        number_ends = state == "number" and byte in WHITE
        if state == "comment":
            fits = True
        elif state == "magic":
            fits = byte in WHITE
        elif state == "number":
            fits = byte in WHITE or byte in DIGITS and len(digits) < 9
        else:
            fits = byte in WHITE + DIGITS or byte == b"#" and file[at - 1:at] in (b" ", b"\t", b"\r", b"\n")
        if not fits:
            raise Refused(f"bad header at {at}")
        if at >= 65535 and not (number_ends and len(numbers) == 2):
            raise Refused("header too long")
        if number_ends:
            numbers.append(int(digits))
            digits = b""
            if len(numbers) == 3:
                return file[:2], numbers, at + 1
        if state == "comment":
            state = "gap" if byte in b"\r\n" else "comment"
        elif byte in DIGITS:
            digits, state = digits + byte, "number"
        else:
            state = "comment" if byte == b"#" else "gap"
    raise Refused("truncated")


def raw_samples(file, at, count, maxval):
    size = 1 if maxval < 256 else 2
    samples = []
    for i in range(count):
        piece = file[at + size * i:at + size * i + size]
        if len(piece) < size:
            raise Refused("truncated")
        samples.append(int.from_bytes(piece, "big"))
        if samples[-1] > maxval:
            raise Refused(f"above maxval at sample {i}")
    if len(file) > at + size * count:
        raise Refused(f"trailing byte at {at + size * count}")
    return samples


def plain_samples(file, at, count, maxval):
    samples, digits = [], b""
    for place in range(at, len(file)):
        byte = file[place:place + 1]
        if len(samples) == count:
            if byte not in WHITE:
                raise Refused(f"trailing byte at {place}")
        elif byte in DIGITS and len(digits) < 9:
            digits += byte
        elif byte not in WHITE:
            raise Refused(f"bad sample at {place}")
        elif digits:
            samples.append(int(digits))
            digits = b""
            if samples[-1] > maxval:
                raise Refused(f"above maxval at sample {len(samples) - 1}")
    if digits:
        samples.append(int(digits))
        if samples[-1] > maxval:
            raise Refused(f"above maxval at sample {len(samples) - 1}")
    if len(samples) < count:
        raise Refused("truncated")
    return samples


def grid(file):
    """Side, maxval and samples in the order of the file."""
    magic, (width, height, maxval), at = header(file)
    if not 1 <= maxval <= 65535:
        raise Refused("bad maxval")
    if width != height:
        raise Refused("not square")
    if width not in SIDES:
        raise Refused("bad side")
    samples = raw_samples if magic == b"P5" else plain_samples
    return width, maxval, samples(file, at, width * height, maxval)


def thickness(side, samples):
    """The greater of the two base triangles', in half units of height."""
    def under(apex, v0, v1):
        if abs(v0[0] - v1[0]) == 1:
            return 0
        middle = (v0[0] + v1[0]) // 2, (v0[1] + v1[1]) // 2
        own = abs(2 * at(middle) - at(v0) - at(v1))
        return own + max(under(middle, apex, v0), under(middle, v1, apex))

    def at(point):
        return samples[(side - 1 - point[1]) * side + point[0]]
    m = side - 1
    return max(under((0, 0), (m, 0), (0, m)), under((m, m), (0, m), (m, 0)))


# --- The corpus, and how it is damaged. ---

HILL = [0, 0, 0, 0, 10, 0, 0, 0, 0]
SLOPE = [3 * x + 40 * (x * y % 7) for y in range(5) for x in range(5)]


def raw(side, maxval, samples, gap=b"\n", note=b""):
    size = 1 if maxval < 256 else 2
    head = b"P5" + gap + note + b"%d %d" % (side, side) + gap + b"%d\n" % maxval
    return head + b"".join(h.to_bytes(size, "big") for h in samples)


def plain(side, maxval, samples, note=b""):
    rows = [b" ".join(b"%d" % h for h in samples[i:i + side]) for i in range(0, side * side, side)]
    return b"P2\n" + note + b"%d %d\n%d\n" % (side, side, maxval) + b"\n".join(rows) + b"\n"


GRIDS = [
    raw(3, 65535, HILL), raw(3, 255, HILL), raw(3, 10, HILL, b" "), raw(5, 300, SLOPE), raw(5, 65535, SLOPE, b"\r\n\t"),
    raw(5, 255, SLOPE, note=b"# made by hand\n"), plain(3, 10, HILL), plain(3, 255, HILL, b"#\n # 3 3\r"), plain(5, 1000, SLOPE),
]
SCRIPTS = [
    b"frame\n", b"frame\nframe", b"camera 1 2 3\nframe\ncamera 900 -30 44\nframe\n", b"set 1 1 9\nframe\nset 2 0 0\nframe\n",
    b"plane 1 0 0 -2\nframe\nnoplanes\nframe\n", b"plane 1 0 0 -2\nplane 0 1 0 -1\nplane -1 -1 0 3\nframe\n", b"budget 3\nframe\nbudget 2\nframe\n",
    b"raise 0 0 2 2 -5\nframe\nraise 1 0 2 1 7\nframe\n", b"# a flight\n\n frame \r\n\tcamera\t0 0\t40\r\nframe\n",
    b"frame\ncamera 4 4 0\nframe\nset 1 0 0\nframe\nframe\n", b"plane 0 0 1 9\n" * 6 + b"frame\n",
]
NUMBERS = sorted({n + d for n in [0, 2, 4, 6, 9, 10, 200, 255, 256, 300, 2049, 65535, 2 ** 20, 2 ** 30, 2 ** 50, 2 ** 63, 2 ** 64, 10 ** 9, 10 ** 18]
                  for d in (-1, 0, 1)})


def a_number(roll):
    """The end of a range, or next to one, in one of the ways to write it."""
    n = roll.choice(NUMBERS)
    return roll.choice([b"", b"", b"", b"-", b"0", b"00000000", b"+"]) + b"%d" % n


def numbers_of(text):
    """The places of the numbers that are written in a text."""
    places, at = [], 0
    while at < len(text):
        end = at
        while end < len(text) and text[end:end + 1] in DIGITS:
            end += 1
        if end > at:
            places.append((at, end))
        at = end + 1
    return places


def damage(text, roll):
    """The text with one thing changed."""
    kind = roll.choice(["flip", "byte", "cut", "double", "drop", "insert", "number", "number", "append"])
    at = roll.randrange(len(text) + 1)
    end = min(len(text), at + roll.choice([1, 1, 2, 5, 20, 300]))
    odd = bytes([roll.choice(b" \t\r\n#P25-+.x09\0\xff") if roll.random() < 0.8 else roll.randrange(256)])
    if kind == "flip" and at < len(text):
        return text[:at] + bytes([text[at] ^ 1 << roll.randrange(8)]) + text[at + 1:]
    if kind == "byte":
        return text[:at] + odd + text[at + 1:]
    if kind == "cut":
        return text[:at]
    if kind == "double":
        return text[:end] + text[at:end] * roll.choice([1, 1, 7, 100]) + text[end:]
    if kind == "drop":
        return text[:at] + text[end:]
    if kind == "number" and numbers_of(text):
        first, last = roll.choice(numbers_of(text))
        return text[:first] + a_number(roll) + text[last:]
    if kind == "append":
        return text + odd * roll.choice([1, 1, 2, 201])
    return text[:at] + odd + text[at:]


def damaged(text, roll):
    for _ in range(roll.choice([0, 1, 1, 1, 2, 3])):
        text = damage(text, roll)
    return text


# --- One case. ---

def run(command, folder):
    done = subprocess.run(command, cwd=folder, stdin=subprocess.DEVNULL, capture_output=True, timeout=120)
    return done.returncode, done.stdout, done.stderr


def meshes(folder, prefix):
    found = {}
    for name in sorted(os.listdir(folder)):
        if name.startswith(prefix):
            with open(os.path.join(folder, name), "rb") as file:
                found[name[len(prefix):]] = file.read()
            os.remove(os.path.join(folder, name))
    return found


def put(folder, name, text):
    with open(os.path.join(folder, name), "wb") as file:
        file.write(text)


def wanted(folder, file, words):
    """Status, report and meshes of a run, from the formats and the definitions."""
    try:
        side, maxval, samples = grid(file)
    except Refused as why:
        return 3, f"grid refused: {why}\n".encode(), {}
    if words[0] == "info":
        line = f"side {side} maxval {maxval} low {min(samples)} high {max(samples)} thickness {thickness(side, samples)}\n"
        return 0, line.encode(), {}
    size = 2 if maxval > 255 else 1
    put(folder, "same", b"P5\n%d %d\n%d\n" % (side, side, maxval) + b"".join(h.to_bytes(size, "big") for h in samples))
    status, report, _ = alike.plain(Path(folder), "mesh", "same", "s", "want", *words[4:])
    return status, report.encode(), meshes(folder, "want")


def found(program, folder, words):
    status, report, said = run([program] + words, folder)
    # One line may say what is accepted in the place of a refused grid, or that a script has no frame.
    hint = (status == 3 or status == 0 and not report) and said.startswith(b"roam: ") and said.count(b"\n") == 1
    if said and not hint:
        report += b"standard error: " + said
    return status, report, meshes(folder, "out")


def main():
    program, folder, seconds, seed = sys.argv[1], sys.argv[2], float(sys.argv[3]), int(sys.argv[4])
    roll, end = random.Random(seed), time.monotonic() + seconds
    counts, differences = collections.Counter(), 0
    while time.monotonic() < end and differences < 5:
        number = sum(counts.values()) + 1
        file, script = damaged(roll.choice(GRIDS), roll), b""
        words = ["info", "g"]
        if roll.random() < 0.7:
            file = roll.choice(GRIDS) if roll.random() < 0.7 else file
            script = damaged(roll.choice(SCRIPTS), roll)
            words = ["mesh", "g", "s", "out", str(roll.choice([2, 3, 4, 8, 20, 1048576])), str(roll.choice([1, 1, 30, 1024]))]
        put(folder, "g", file)
        put(folder, "s", script)
        want = wanted(folder, file, words)
        got = found(program, folder, words)
        counts[want[0]] += 1
        if got != want:
            differences += 1
            put(folder, f"case{number}.g", file)
            put(folder, f"case{number}.s", script)
            print(f"case {number}, {' '.join(words)}: status {got[0]}, not {want[0]}; report {got[1][-200:]}, not {want[1][-200:]};"
                  f" meshes {'alike' if got[2] == want[2] else 'differ'}")
    is_little = sum(counts.values()) < 100
    by_status = ", ".join(f"{count} of status {status}" for status, count in sorted(counts.items()))
    print(f"{sum(counts.values())} cases with seed {seed}: {by_status or 'none'}; {differences} differences"
          + is_little * "; a hundred cases are the least")
    return 1 if differences or is_little else 0


sys.exit(main())

#!/usr/bin/env python3
"""Makes bench/seconds.txt anew of what a first run has said on standard error, or .ci/run.

usage: tools/seconds.py LOG     LOG: ./roam mesh .. 2>LOG, in a fresh clone on an idle machine; or what .ci/run has printed

Each crate that was proved there gets its seconds, and with more than one job these beside the seconds with one; each part of
the gate gets its processor seconds. Other lines are multiplied by the middle of what the crates took over what they were said
to take, so that all are of one machine."""
from __future__ import annotations

import re
import statistics
import sys
from pathlib import Path

import launcher

PROVED = re.compile(r"^roam: (\w+) is proved, in (\d+) s(?: by (\d+) jobs)?;", re.MULTILINE)
PART = re.compile(r"^gate: (.*) has ended with status 0, .*; (\d+) processor minutes so far$", re.MULTILINE)
LEAST = 5  # seconds: a crate that took fewer was only looked at


def of_crates(text: str) -> dict[str, tuple[float, int]]:
    """The seconds of each crate that was proved, and with how many jobs."""
    return {name: (float(seconds), int(jobs or 1)) for name, seconds, jobs in PROVED.findall(text) if int(seconds) >= LEAST}


def of_parts(text: str) -> dict[str, float]:
    """The processor seconds of each part of the gate; those that are told are of all parts so far."""
    found, before = {}, 0.0
    for part, minutes in PART.findall(text):
        found[re.sub(r"\W", "_", part)] = 60 * (float(minutes) - before)
        before = float(minutes)
    return found


def anew(lines: list[str], text: str) -> list[str]:
    """The lines of the file, with what the text tells."""
    crates, parts, old = of_crates(text), of_parts(text), {}
    for line in lines:
        words = line.partition("#")[0].split()
        if words:
            old[words[0]] = [float(it) for it in words[1:]]
    ratios = [crates[name][0] / seconds[0] for name, seconds in old.items() if name in crates and crates[name][1] == 1]
    pace = statistics.median(ratios) if ratios else 1.0
    made = [line for line in lines if line.startswith("#")]
    for name, seconds in {**old, **{name: [] for name in crates if name not in old}}.items():
        new = [seconds[0] * pace] if seconds else []
        if name in parts:
            new = [parts[name]]
        elif name in crates and crates[name][1] == 1:
            new = [crates[name][0]]
        if len(seconds) == 3:
            new += [seconds[1], new[0] * seconds[2] / seconds[0]]
        made += [" ".join([name, *(f"{it:.0f}" for it in new or [crates[name][0]])])]
    return made


def main(words: list[str]) -> int:
    if len(words) != 1:
        print(__doc__, file=sys.stderr)
        return 2
    file, text = launcher.TOP / "bench/seconds.txt", Path(words[0]).read_text(encoding="utf-8", errors="replace")
    if not of_crates(text) and not of_parts(text):
        print(f"seconds: {words[0]} tells of no crate that was proved, and of no part of the gate", file=sys.stderr)
        return 1
    made = anew(file.read_text(encoding="utf-8").splitlines(), text)
    file.write_text("".join(f"{line}\n" for line in made), encoding="utf-8")
    return 0


if __name__ == "__main__":
    sys.exit(main(sys.argv[1:]))

#!/usr/bin/env python3
"""Tells what a command costs in units: its processor seconds over those of `rt selftest`.

usage: bench/unit.py [--] COMMAND [WORD ..]

`rt selftest` runs before the command and behind it, on this machine in this hour, and the unit is
the mean of the two; where they differ by more than a quarter, what it tells is rough, and it says
so. The seconds are those of the command and of all processes that it waited for, user and system.
The last line of standard error has the units, and the status is the command's.
"""
from __future__ import annotations

import os
import subprocess
import sys
import time

SELFTEST = ["rt", "selftest"]


def seconds_of(words: list[str], quiet: bool = False) -> tuple[float, float, int]:
    """Processor seconds, seconds by the clock, and the status of a command."""
    began = time.monotonic()
    ran = subprocess.Popen(words, stdout=subprocess.DEVNULL if quiet else None)
    _, status, used = os.wait4(ran.pid, 0)
    ran.returncode = os.waitstatus_to_exitcode(status)
    return used.ru_utime + used.ru_stime, time.monotonic() - began, ran.returncode


def unit() -> float:
    """Processor seconds of `rt selftest`."""
    took, _, status = seconds_of(SELFTEST, quiet=True)
    if status:
        sys.exit(f"bench/unit.py: {' '.join(SELFTEST)} ended with status {status}")
    return took


def main(words: list[str]) -> int:
    words = words[1:] if words[:1] == ["--"] else words
    if not words or words[0] in ("-h", "--help"):
        print(__doc__)
        return 0 if words else 2
    before = unit()
    took, clock, status = seconds_of(words)
    behind = unit()
    one = (before + behind) / 2
    rough = "; these two differ, so it is rough" if abs(before - behind) > one / 4 else ""
    cost = f"{took / one:.1f} units: {took:.1f} s of processor time, {clock:.0f} s by the clock"
    units = f"rt selftest {before:.1f} s before and {behind:.1f} s behind it{rough}"
    print(f"unit: {cost}, status {status}; {units}", file=sys.stderr)
    return status if status >= 0 else 128 - status


if __name__ == "__main__":
    sys.exit(main(sys.argv[1:]))

#!/usr/bin/env python3
"""Makes the program `roam` without any proof, for `./roam --try`: in a minute of one processor, and once for the same sources.

usage: tools/first_look.py     makes crates/roam_cli/out/not_proved, where that is due

`rt try` compiles a crate with all that it stands on, without optimisation and with checks of memory, runs it and keeps no
program. So it is given a folder in the toolchain's place whose linker keeps what it has linked. Statuses: 125 where there is
no program then, 127 where `rt` is not on PATH, 128 and the signal's number where one ends it."""
from __future__ import annotations

import fcntl
import os
import shlex
import shutil
import signal
import subprocess
import sys
import tempfile
from pathlib import Path

import launcher

MADE = "not_proved"
# A run that needs no file: the program answers with 5 to a grid that cannot be there.
RUN, STATUS = ["try", "--", "info", "/dev/null/grid"], 5
# Links as the toolchain's linker does, and keeps what that has written.
LINKER = """#!/bin/sh
{linker} "$@" || exit
while [ $# -gt 1 ]; do
  [ "$1" != -o ] || cp -- "$2" {kept}
  shift
done
"""


def lay_out(kit: Path, room: Path) -> None:
    """A folder like the toolchain's own, except for its linker."""
    tools = room / "toolchain/bin"
    tools.mkdir(parents=True)
    for folder, here in ((kit, room), (kit / "toolchain", room / "toolchain"), (kit / "toolchain/bin", tools)):
        for it in folder.iterdir():
            if it.name not in ("toolchain", "bin", "ld.lld") or it.parent == kit and it.name == "bin":
                (here / it.name).symlink_to(it)
    linker = shlex.quote(str(kit / "toolchain/bin/ld.lld"))
    (tools / "ld.lld").write_text(LINKER.format(linker=linker, kept=shlex.quote(str(room / MADE))), encoding="utf-8")
    (tools / "ld.lld").chmod(0o755)


def compile_in(room: Path) -> int:
    """`rt try`, with this folder in the toolchain's place. Its check of names, a hint for whoever edits, is left out."""
    driver = launcher.driver_once()
    if driver is None or not hasattr(driver.rtlib, "KIT"):
        print("this toolchain is not one that keeps a program: run 'rt try' in crates/roam_cli, with names from /")
        return 1
    lay_out(Path(driver.rtlib.KIT), room)
    driver.rtlib.KIT, driver.rtlib.RATTLE = str(room), shutil.which("false")
    sys.argv = ["rt", *RUN]
    return int(driver.main(RUN) or 0)


def make(crates: launcher.Crates, made: Path) -> bool:
    """Whether the program has been made; what the toolchain said is in a file beside it."""
    folder, log = crates.folder(launcher.PROGRAM), made.with_suffix(".log")
    with tempfile.TemporaryDirectory(prefix="roam-") as room, open(log, "wb") as said:
        # A session of its own: a signal of the terminal comes to this process alone, which ends it.
        started = subprocess.Popen([sys.executable, __file__, room], cwd=folder, stdin=subprocess.DEVNULL,
                                   stdout=said, stderr=subprocess.STDOUT, start_new_session=True)
        try:
            status = started.wait()
        except BaseException:
            os.killpg(started.pid, signal.SIGTERM)
            started.wait()
            raise
        kept = Path(room, MADE)
        if status == STATUS and kept.is_file():
            shutil.copy2(kept, made.with_suffix(".new"))
            os.replace(made.with_suffix(".new"), made)
            return True
    launcher.tell("".join(f"{line}\n" for line in log.read_text(encoding="utf-8", errors="replace").splitlines()[-20:]))
    launcher.say(f"the program could not be made without proof; all that the toolchain said is in {log}")
    return False


def main(words: list[str]) -> int:
    if words:
        return compile_in(Path(words[0]))
    crates = launcher.Crates(launcher.TOP, launcher.PROGRAM)
    made = crates.folder(launcher.PROGRAM) / "out" / MADE
    launcher.path_of_rt()
    made.parent.mkdir(parents=True, exist_ok=True)
    try:
        with launcher.stopped_by_signals(), launcher.held(made.with_suffix(".lock"), fcntl.LOCK_EX):
            if not crates.is_current(made):
                launcher.say("making the program without proof, in about a minute; later calls with --try start at once")
                began = launcher.now_of(made.parent)
                if not make(crates, made):
                    return launcher.NOT_PROVED
                os.utime(made, ns=(began, began))
            crates.note_parts(made)
    except launcher.Stopped as why:
        return why.status
    except OSError as fault:
        launcher.fail(str(fault), launcher.NOT_PROVED)
    return 0


if __name__ == "__main__":
    sys.exit(main(sys.argv[1:]))

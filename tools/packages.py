"""What this repository wants of a system, by Debian's packages: looks for it, and installs it by apt where it may.

What is wanted is a command (`a|b`: one of these), a file by its path, `python:MODULE`, or `clang:NAME`, a library of clang's
own."""
from __future__ import annotations

import os
import shutil
import subprocess
import sys
import tempfile
import time
from collections.abc import Iterable, Sequence
from pathlib import Path

DEBIANS = "/usr/bin/python3"
USERS = ("python3", DEBIANS)  # in this order for whoever has a Python of one's own, as a venv
OF_THE_PACKAGE = {f"python:{it}": f"python3-{it}" for it in ("numpy", "rasterio", "pyproj", "meshio", "click")}
FINDS = "import importlib.util as i, sys; print(*[it for it in sys.argv[1:] if i.find_spec(it) is None])"


def modules_of(wanted: Iterable[str]) -> list[str]:
    return [what.partition(":")[2] for what in wanted if what.startswith("python:")]


def lacks(python: str, modules: Sequence[str]) -> list[str]:
    """The modules that a Python does not find; all, where it does not start."""
    try:
        ended = subprocess.run([python, "-c", FINDS, *modules], capture_output=True, text=True, check=True)
    except (OSError, subprocess.CalledProcessError):
        return list(modules)
    return ended.stdout.split()


def python_for(modules: Sequence[str], candidates: Iterable[str] = (DEBIANS, "python3")) -> tuple[str, list[str]]:
    """The first Python that lacks fewest of the modules, and these."""
    best, least = sys.executable, list(modules)
    for name in candidates:
        found = shutil.which(name)
        if found and least:
            lacking = lacks(found, modules)
            if len(lacking) < len(least):
                best, least = found, lacking
    return best, least


def is_there(what: str) -> bool:
    if what.startswith("/"):
        return os.path.exists(what)
    if what.startswith("clang:"):
        clang = shutil.which("clang")
        told = clang and subprocess.run([clang, "-print-resource-dir"], capture_output=True, text=True, check=False).stdout
        return bool(told) and any(Path(str(told).strip()).glob(f"lib/*/libclang_rt.{what.partition(':')[2]}*"))
    return any(shutil.which(name) for name in what.split("|"))


def missing(wanted: dict[str, str], candidates: Iterable[str] = (DEBIANS, "python3")) -> dict[str, str]:
    """What is not there, with its packages."""
    _, lacking = python_for(modules_of(wanted), candidates)
    return {what: package for what, package in wanted.items()
            if (what.partition(":")[2] in lacking if what.startswith("python:") else not is_there(what))}


def names_of(lacking: dict[str, str]) -> list[str]:
    return sorted(set(lacking.values()))


def rights(may_ask: bool) -> list[str] | None:
    """What stands before a command so that it may install; None where it may not. `may_ask`: sudo may want a password."""
    if subprocess.run(["id", "-u"], capture_output=True, text=True, check=False).stdout.strip() == "0":
        return []
    if not shutil.which("sudo"):
        return None
    if may_ask:
        return ["sudo"]
    is_free = subprocess.run(["sudo", "-n", "true"], capture_output=True, check=False).returncode == 0
    return ["sudo", "-n"] if is_free else None


def install(packages: Sequence[str], before: Sequence[str]) -> str:
    """By apt-get: all at once, and where that fails each that can be. Its last lines, for whoever asks why one was not."""
    with tempfile.TemporaryFile("w+") as log:
        def apt(*words: str) -> bool:
            # It waits for another one that is at work, and asks nothing.
            command = [*before, "env", "DEBIAN_FRONTEND=noninteractive", "apt-get", "-o", "DPkg::Lock::Timeout=600",
                       "-o", "Acquire::Retries=3", "-qq", *words]
            return subprocess.run(command, stdin=subprocess.DEVNULL, stdout=log, stderr=log, check=False).returncode == 0

        for pause in (5, 10, 0):
            if apt("update"):
                break
            time.sleep(pause)
        if not apt("install", "-y", "--no-install-recommends", *packages):
            for package in packages:
                apt("install", "-y", "--no-install-recommends", package)
        log.seek(0)
        return "".join(log.readlines()[-5:])


def provide(wanted: dict[str, str], before: Sequence[str] | None, name: str,
            candidates: Iterable[str] = (DEBIANS, "python3")) -> bool:
    """Installs what is missing, where `before` is no None; says in NAME's lines what is missing then. Whether nothing is."""
    lacking = missing(wanted, candidates)
    if lacking and before is not None and shutil.which("apt-get"):
        print(f"{name}: installing {' '.join(names_of(lacking))}", file=sys.stderr, flush=True)
        told = install(names_of(lacking), before)
        lacking = missing(wanted, candidates)
        if lacking:
            sys.stderr.write(told)
    if lacking:
        print(f"{name}: missing: {' '.join(lacking)}", file=sys.stderr)
        print(f"{name}: on Debian: apt-get install {' '.join(names_of(lacking))}", file=sys.stderr)
    return not lacking

"""The steps of lib/build: commands whose output is told where they fail, and files put in the place of others."""
from __future__ import annotations

import os
import shutil
import subprocess
from pathlib import Path

# What brings a command, by Debian's packages.
PACKAGES = {
    "wasm-opt": "binaryen",
    "aarch64-linux-gnu-gcc": "gcc-aarch64-linux-gnu libc6-dev-arm64-cross",
    "x86_64-w64-mingw32-gcc": "gcc-mingw-w64-x86-64",
    "npm": "npm",
}


class Refused(Exception):
    """What is asked for cannot be made; why, and the status."""

    def __init__(self, why: str, status: int = 1) -> None:
        super().__init__(why)
        self.status = status


def tool(name: str) -> Path:
    """A command by its name on PATH."""
    found = shutil.which(name)
    if not found:
        raise Refused(f"the command {name} is not there; on Debian: apt-get install {PACKAGES[name]}")
    return Path(found)


def run(*words: str | Path, **how: object) -> str:
    """A command; what it prints is told where it fails."""
    ended = subprocess.run([str(word) for word in words], text=True, stdout=subprocess.PIPE, stderr=subprocess.STDOUT,
                           check=False, **how)  # type: ignore
    if ended.returncode:
        raise Refused(f"{words[0]} ended with status {ended.returncode}: {ended.stdout.strip()}")
    return str(ended.stdout)


def put(source: Path, target: Path, mode: int = 0o644) -> None:
    """A file in the place of another one, which whoever uses it keeps."""
    target.parent.mkdir(parents=True, exist_ok=True)
    beside = target.with_name(f".{target.name}.new")
    shutil.copyfile(source, beside)
    beside.chmod(mode)
    os.replace(beside, target)


def write(target: Path, text: str, mode: int = 0o644) -> None:
    target.parent.mkdir(parents=True, exist_ok=True)
    target.write_text(text, encoding="utf-8")
    target.chmod(mode)

"""A run of the built program beside one of a plain program that goes by the definitions and shares nothing with it
(greedy.py): the exit status, each line of the report and each byte of the meshes."""
from __future__ import annotations

import contextlib
import io
import os
import tempfile
from collections.abc import Iterator
from pathlib import Path

import greedy
from place import Place
from same import same

Ended = tuple[int, str, dict[str, bytes]]


@contextlib.contextmanager
def working_in(folder: Path) -> Iterator[None]:
    before = os.getcwd()
    os.chdir(folder)
    try:
        yield
    finally:
        os.chdir(before)


def plain(folder: Path, *words: object) -> Ended:
    """Status, report and meshes of the plain program."""
    told = io.StringIO()
    with working_in(folder), contextlib.redirect_stdout(told), contextlib.redirect_stderr(io.StringIO()):
        status = greedy.run([str(word) for word in words])
    return status, told.getvalue(), meshes_in(folder)


def meshes_in(folder: Path) -> dict[str, bytes]:
    return {it.name: it.read_bytes() for it in folder.glob("out*.obj")}


class Both:
    """The folders of the two, each with the same files: `ours` and `plain`."""

    def __init__(self, room: Path, program: Path) -> None:
        self.ours = Place(room / "ours", program, is_empty=True)
        self.plain = room / "plain"
        for folder in (self.ours.folder, self.plain):
            folder.mkdir()

    def write(self, name: str, data: bytes) -> None:
        for folder in (self.ours.folder, self.plain):
            (folder / name).write_bytes(data)

    def check(self, *words: object) -> Ended:
        """One run of each; fails where they differ. Answers how they ended."""
        self.ours.run(*words)
        found: Ended = (self.ours.status, self.ours.report.decode(errors="replace"), meshes_in(self.ours.folder))
        wanted = plain(self.plain, *words)
        text = " ".join(map(str, words))
        same(found[:2], wanted[:2], f"'{text}': status and report {found[:2]}, not {wanted[:2]}")
        same(sorted(found[2]), sorted(wanted[2]), f"'{text}': meshes {sorted(found[2])}, not {sorted(wanted[2])}")
        same(found[2], wanted[2], f"'{text}': {[name for name in found[2] if found[2][name] != wanted[2][name]]} differ")
        return found


@contextlib.contextmanager
def both(program: Path, files: dict[str, bytes]) -> Iterator[Both]:
    """Two new folders with these files, which go at the end."""
    with tempfile.TemporaryDirectory() as room:
        made = Both(Path(room), program)
        for name, data in files.items():
            made.write(name, data)
        yield made

"""A folder of its own for a check, with a grid `g` and a script `s`, and the built program over it: what it reports, how it
ends, and which files stand after it."""
from __future__ import annotations

import os
import subprocess
from pathlib import Path
from typing import Any, Optional, Union

import pytest

USAGE_END = "       roam mesh grid.pgm script out 2000 90"
GRID_REFUSED, LINE_REFUSED, REJECTED = 3, 4, 7


def table(arguments: str, *rows: Any) -> pytest.MarkDecorator:
    """The rows of a table of checks: of each the name of the check, and then its arguments in this order."""
    names = [row[0] for row in rows]
    assert len(set(names)) == len(names), f"names that stand twice: {[name for name in names if names.count(name) > 1]}"
    return pytest.mark.parametrize(arguments, [pytest.param(*row[1:], id=row[0]) for row in rows])


def spots(side: int, *heights: tuple[int, int, int]) -> bytes:
    """A grid of that many samples a row, 0 but for points (x, y, height). The first row of samples is the far side."""
    samples = bytearray(2 * side * side)
    for x, y, height in heights:
        at = 2 * ((side - 1 - y) * side + x)
        samples[at:at + 2] = height.to_bytes(2, "big")
    return b"P5\n%d %d\n65535\n" % (side, side) + samples


def flat(side: int) -> bytes:
    return spots(side)


def flat_mesh(size: int) -> bytes:
    """The two base triangles of a flat square whose side has so many units."""
    return b"v 0 0 0\nv %d 0 0\nv 0 %d 0\nv %d %d 0\nf 1 2 3\nf 4 3 2\n" % (size, size, size, size)


def lines(count: int, worst: int = 0, blocked: str = "none") -> bytes:
    """The report of so many frames of two triangles."""
    line = "frame {} triangles 2 vertices 4 worst {} splits 0 merges 0 blocked {}\n"
    return "".join(line.format(k, worst, blocked) for k in range(1, count + 1)).encode()


class Place:
    """The folder, and how the last run of the program in it has ended: `status`, `report`, `said`."""

    def __init__(self, folder: Path, program: Path, is_empty: bool = False) -> None:
        self.folder, self.program = folder, program
        self.status, self.report, self.said = -1, b"", ""
        self.before: set[str] = set()
        if not is_empty:
            self.write("g", flat(3))
            self.write("s", b"frame\n")

    def write(self, name: str, data: Union[bytes, str]) -> Path:
        path = self.folder / name
        path.write_bytes(data if isinstance(data, bytes) else data.encode())
        return path

    def read(self, name: str) -> bytes:
        return (self.folder / name).read_bytes()

    def files(self) -> set[str]:
        return {str(it.relative_to(self.folder)) for it in self.folder.rglob("*")}

    def run(self, *words: Any, program: Optional[Union[Path, str]] = None, **how: Any) -> Place:
        """The program in this folder; `how` as of subprocess.run."""
        self.before = self.files()
        given = [word if isinstance(word, bytes) else os.fsencode(str(word)) for word in (program or self.program, *words)]
        how = {"stdout": subprocess.PIPE, "env": {**os.environ, "LC_ALL": "C"}, **how}
        ended = subprocess.run(given, cwd=self.folder, stdin=subprocess.DEVNULL, stderr=subprocess.PIPE, timeout=300,
                               check=False, **how)
        self.status, self.report, self.said = ended.returncode, ended.stdout or b"", os.fsdecode(ended.stderr or b"")
        return self

    def under(self, line: str, *words: Any, by: tuple[str, ...] = (), **how: Any) -> Place:
        """The same in a bash that does a line first, itself started by these words; the check is skipped where it cannot."""
        bash = [*by, "/bin/bash", "-c", f'{line} || exit 99\nexec "$0" "$@"', str(self.program), *words]
        self.run(*bash[1:], program=bash[0], **how)
        if self.status == 99:
            pytest.skip(f"'{line}' cannot be done here")
        return self

    def meshes(self, prefix: str = "out") -> list[str]:
        return sorted(str(it.relative_to(self.folder)) for it in self.folder.glob(f"{prefix}*.obj") if it.is_file())

    def expect(self, status: int, report: bytes = b"", said: Optional[str] = None, meshes: int = 0,
               mesh: bytes = flat_mesh(2), prefix: str = "out") -> None:
        """How the program has ended, its report, and how many meshes are there, each this one, and no other new file.

        Standard error has `said` in it, or nothing where that is empty. Without that it has nothing where the report
        tells all; up to a line where there may be a hint; behind the first line of wrong words the usage; else one line.
        """
        why = []
        names = [f"{prefix}{k:06}.obj" for k in range(1, meshes + 1)]
        if self.status != status:
            why.append(f"exit status {self.status}, not {status}")
        if self.report != report:
            why.append(f"the report is {self.report[:300]!r}, not {report[:300]!r}")
        why += [f"{name} is not as wanted" for name in names if not (self.folder / name).is_file() or self.read(name) != mesh]
        if self.files() != self.before | set(names):
            why.append(f"the files there are not those wanted: {sorted(self.files() ^ (self.before | set(names)))[:5]}")
        count = self.said.count("\n")
        if said == "" or said is None and status in (0, LINE_REFUSED, REJECTED):
            is_right = not self.said
        elif status == 2:
            is_right = self.said.endswith(f"{USAGE_END}\n")
        else:
            is_right = count <= 1 if status == GRID_REFUSED else count == 1
        if not is_right or said and said not in self.said:
            why.append(f"standard error says {self.said[:300]!r}" + (f", not {said!r}" if said else ""))
        assert not why, "; ".join(why)

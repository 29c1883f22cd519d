"""What people install: by lib/build under a prefix, as a wheel in a venv, as a package of Debian, and by ./calfrewin at the top
of a clone. Each makes the mesh of one grid that `roam fit` makes, without the toolchain."""
from __future__ import annotations

import os
import re
import shutil
import struct
import subprocess
import sys
import zipfile
from pathlib import Path
from typing import Any

import first_use
import packages
import pytest

from conftest import PATH, TOP, ran
from place import Place, table

JACKSBORO = TOP / "examples/jacksboro/grid.pgm"


@pytest.fixture(scope="session")
def triangles(program: Path, tmp_path_factory: Any) -> int:
    """How many the mesh has that is nowhere off by more than 50."""
    place = Place(tmp_path_factory.mktemp("fit"), program, is_empty=True)
    return int(place.run("fit", JACKSBORO, "out", "error", 50, 90).report.split()[2])


def check_mesh(folder: Path, triangles: int, *program: object, **how: Any) -> None:
    """A program makes a mesh of the grid; its .glb has so many triangles."""
    ran(*program, JACKSBORO, "mesh.glb", "--error", "50", "--spacing", "90", cwd=folder, **how)
    data = (folder / "mesh.glb").read_bytes()
    magic, version, length, size, kind = struct.unpack("<4sIII4s", data[:20])
    assert (magic, version, length, kind) == (b"glTF", 2, len(data), b"JSON")
    counts = [int(it) for it in re.findall(rb'"count": ?([0-9]+)', data[20:20 + size])]
    assert 3 * triangles in counts


# --- lib/build PREFIX. ---

def test_a_prefix_has_the_program(prefix: Path, program: Path) -> None:
    assert (prefix / "bin/roam").read_bytes() == program.read_bytes()
    assert ran(prefix / "bin/roam", "info", JACKSBORO).startswith("side 257 ")


def test_a_prefix_has_the_package(prefix: Path, triangles: int, tmp_path: Path) -> None:
    check_mesh(tmp_path, triangles, prefix / "bin/calfrewin")


def test_a_prefix_is_installed_anew_while_it_is_used(prefix: Path, archive: Path) -> None:
    with open(prefix / "lib/libroam.so.1", "rb") as before:
        ran(sys.executable, TOP / "lib/build", prefix, archive)
        assert os.fstat(before.fileno()).st_nlink == 0 and before.read() == (prefix / "lib/libroam.so.1").read_bytes()
    assert not [it for it in prefix.rglob(".*") if it.name.endswith(".new")]


@table(
    "words, status, said",
    ("a_library_wants_words_that_it_knows", ["--deb", "--wheel"], 2, "usage: lib/build"),
    ("a_library_wants_few_words", ["a", "b", "c"], 2, "usage: lib/build"),
    ("a_library_wants_its_archive", ["out", "none.a"], 125, "lib/build: there is no none.a"),
    ("a_library_wants_a_compiler", ["out", "ARCHIVE"], 1, "lib/build: "),
    ("a_library_wants_a_system_that_it_knows", ["--target", "amiga", "out"], 2, "usage: lib/build"),
    ("a_system_has_no_package_of_debian", ["--deb", "--target", "aarch64-linux", "out"], 2, "usage: lib/build"),
    ("a_module_wants_the_code_beside_its_archive", ["--wasm", "out", "none.a"], 1, "lib/build: there is no roam_c.bc, which"),
)
def test_build_refuses(archive: Path, tmp_path: Path, words: list[str], status: int, said: str) -> None:
    ended = subprocess.run([sys.executable, str(TOP / "lib/build"), *(it.replace("ARCHIVE", str(archive)) for it in words)],
                           cwd=tmp_path, capture_output=True, text=True, check=False, env={"PATH": PATH, "CC": "no-compiler"})
    assert (ended.returncode, ended.stdout) == (status, "") and said in ended.stderr and "Traceback" not in ended.stderr
    assert not list(tmp_path.iterdir())


# --- lib/build --wheel. ---

@pytest.fixture(scope="session")
def venv(archive: Path, tmp_path_factory: Any) -> Path:
    """A venv that sees the packages of the system, with the wheel installed by pip without an index."""
    folder: Path = tmp_path_factory.mktemp("wheel")
    ran(sys.executable, TOP / "lib/build", "--wheel", folder, archive)
    ran(sys.executable, "-m", "venv", "--system-site-packages", folder / "venv")
    ran(folder / "venv/bin/pip", "install", "-q", "--no-index", *folder.glob("*.whl"))
    return folder / "venv"


@pytest.mark.xdist_group("wheel")
def test_a_wheel_has_the_library_inside(venv: Path) -> None:
    with zipfile.ZipFile(next(venv.parent.glob("calfrewin-*-py3-none-*.whl"))) as wheel:
        names = wheel.namelist()
    assert {"calfrewin/libroam.so", "calfrewin/py.typed", "calfrewin/viewer/fly.js"} <= set(names)
    assert not [name for name in names if "tests" in name or "__pycache__" in name]


@pytest.mark.xdist_group("wheel")
def test_a_wheel_brings_the_program(venv: Path, triangles: int, tmp_path: Path) -> None:
    check_mesh(tmp_path, triangles, venv / "bin/calfrewin")


@pytest.mark.xdist_group("wheel")
def test_a_wheel_brings_rio_mesh(venv: Path, triangles: int, tmp_path: Path) -> None:
    rio = "import sys; from rasterio.rio.main import main_group; sys.exit(main_group())"
    check_mesh(tmp_path, triangles, venv / "bin/python3", "-c", rio, "mesh")


@pytest.mark.xdist_group("wheel")
def test_a_wheel_uses_its_own_library(venv: Path, tmp_path: Path) -> None:
    asked = "import calfrewin, calfrewin._library as it; print(calfrewin.__file__, it.path)"
    told = ran(venv / "bin/python3", "-c", asked, cwd=tmp_path)
    package, library = map(Path, told.split())
    assert venv in package.parents and library == package.parent / "libroam.so"


# --- lib/build --deb. ---

@pytest.fixture(scope="session")
def unpacked(program: Path, archive: Path, tmp_path_factory: Any) -> Path:
    """The root of a system in which the package is unpacked."""
    folder: Path = tmp_path_factory.mktemp("deb")
    ran(sys.executable, TOP / "lib/build", "--deb", folder, archive)
    ran("dpkg-deb", "-x", next(folder.glob("calfrewin_*.deb")), folder / "root")
    return folder / "root"


def libraries(unpacked: Path) -> Path:
    return next(unpacked.glob("usr/lib/*-linux-gnu"))


@pytest.mark.xdist_group("deb")
def test_a_package_of_debian_says_what_it_is(unpacked: Path) -> None:
    told = ran("dpkg-deb", "-f", next(unpacked.parent.glob("calfrewin_*.deb")))
    version = re.search('"(.*)"', (TOP / "python/src/calfrewin/_version.py").read_text().partition("__version__ = ")[2])
    assert version and f"Package: calfrewin\nVersion: {version[1]}\n" in told
    for name in ("numpy", "rasterio", "pyproj", "meshio", "click"):
        assert f"python3-{name}" in told
    assert re.search(r"^Depends: libc6 \(>= 2\.[0-9]+\), python3 ", told, re.MULTILINE)


@pytest.mark.xdist_group("deb")
def test_a_package_of_debian_has_both_programs(unpacked: Path, triangles: int, tmp_path: Path) -> None:
    assert ran(unpacked / "usr/bin/roam", "info", JACKSBORO).startswith("side 257 ")
    where = {"PYTHONPATH": str(unpacked / "usr/lib/python3/dist-packages"), "LD_LIBRARY_PATH": str(libraries(unpacked))}
    check_mesh(tmp_path, triangles, unpacked / "usr/bin/calfrewin", env=where)


@pytest.mark.xdist_group("deb")
def test_a_package_of_debian_serves_pkg_config(unpacked: Path, tmp_path: Path) -> None:
    where = {"PKG_CONFIG_PATH": str(libraries(unpacked) / "pkgconfig"), "PKG_CONFIG_SYSROOT_DIR": str(unpacked)}
    words = ran("pkg-config", "--cflags", "--libs", "roam", env=where).split()
    ran("cc", "-std=c99", "-o", tmp_path / "flight", TOP / "examples/library/flight.c", *words)
    ran(tmp_path / "flight", JACKSBORO, 2000, 90, 4, env={"LD_LIBRARY_PATH": str(libraries(unpacked))})


@pytest.mark.xdist_group("deb")
def test_a_package_of_debian_serves_cmake(unpacked: Path, tmp_path: Path) -> None:
    ran("cmake", "-S", TOP / "checks/library", "-B", tmp_path, f"-DCMAKE_PREFIX_PATH={unpacked / 'usr'}",
        f"-DEXAMPLES={TOP / 'examples/library'}")
    ran("cmake", "--build", tmp_path)
    ran(tmp_path / "flight", JACKSBORO, 2000, 90, 4)


# --- ./calfrewin, at the top of a clone. ---

# A toolchain that has an archive of the library ready, and notes what it is asked for.
TOOLCHAIN = """#!/bin/sh
echo "$1 ${PWD##*/}" >>"${0%/*}/commands"
mkdir -p out/rlib && cp "${0%/*}/archive" "out/lib${PWD##*/}.a"
"""


class Clone:
    """A clone with two crates, its toolchain beside it."""

    def __init__(self, room: Path, archive: Path) -> None:
        self.top, self.bin = room / "clone", room / "bin"
        self.bin.mkdir()
        for name in ("calfrewin", "lib/build", "lib/steps.py", "lib/targets.py", "lib/heap.c", "lib/roam.h", "lib/roam.hpp",
                     "lib/roam_pager.hpp", "lib/roam.pc", "lib/cmake", "lib/csharp", "tools", "python"):
            target = self.top / name
            target.parent.mkdir(parents=True, exist_ok=True)
            (shutil.copytree if (TOP / name).is_dir() else shutil.copy)(TOP / name, target)
        (self.top / "crates.txt").write_text("low:\nroam_c staticlib: low\n")
        for name in ("low", "roam_c"):
            (self.top / "crates" / name / "src").mkdir(parents=True)
            (self.top / "crates" / name / "src/text").write_text("source\n")
        shutil.copy(archive, self.bin / "archive")
        self.put("rt", TOOLCHAIN)

    def put(self, name: str, text: str) -> None:
        (self.bin / name).write_text(text)
        (self.bin / name).chmod(0o755)

    def commands(self) -> list[str]:
        notes = self.bin / "commands"
        found = notes.read_text().splitlines() if notes.is_file() else []
        notes.unlink(missing_ok=True)
        return found

    def path(self) -> dict[str, str]:
        return {"PATH": f"{self.bin}:{PATH}"}


@pytest.fixture
def clone(tmp_path: Path, archive: Path) -> Clone:
    return Clone(tmp_path, archive)


def test_calfrewin_sets_all_up_where_it_first_needs_the_library(clone: Clone, triangles: int, tmp_path: Path) -> None:
    assert ran(clone.top / "calfrewin", "--version", env=clone.path()).startswith("calfrewin, version ")
    assert clone.commands() == []
    check_mesh(tmp_path, triangles, clone.top / "calfrewin", env=clone.path())
    assert clone.commands() == ["lib low", "lib roam_c"]
    ended = subprocess.run([clone.top / "calfrewin", JACKSBORO, "b.glb", "--error", "50", "--spacing", "90", "-q"],
                           env=clone.path(), capture_output=True, text=True, cwd=tmp_path, check=True)
    assert ended.stderr == "" and (tmp_path / "b.glb").is_file() and clone.commands() == []


def test_calfrewin_builds_again_after_a_change(clone: Clone, triangles: int, tmp_path: Path) -> None:
    check_mesh(tmp_path, triangles, clone.top / "calfrewin", env=clone.path())
    assert clone.commands()
    (clone.top / "crates/low/src/text").write_text("changed\n")
    check_mesh(tmp_path, triangles, clone.top / "calfrewin", "--overwrite", env=clone.path())
    assert clone.commands() == ["lib low", "lib roam_c"]


def test_calfrewin_finds_a_python_with_the_packages(clone: Clone) -> None:
    # A Python without the packages of the system stands first on PATH.
    clone.put("python3", f'#!/bin/sh\nexec "{sys.executable}" -S "$@"\n')
    for _ in range(2):
        assert ran(clone.top / "calfrewin", "--version", env=clone.path()).startswith("calfrewin, version ")
    assert (clone.top / "lib/out/python").read_text() == "/usr/bin/python3\n"


def test_calfrewin_passes_on_words_and_status(clone: Clone, tmp_path: Path) -> None:
    ended = subprocess.run([clone.top / "calfrewin", "no such file", "a b.glb", "--error", "1"], env=clone.path(), cwd=tmp_path,
                           capture_output=True, text=True, check=False)
    assert ended.returncode == 1 and "no such file" in ended.stderr and "Traceback" not in ended.stderr


def test_calfrewin_says_that_the_toolchain_is_missing(clone: Clone) -> None:
    (clone.bin / "rt").unlink()
    ended = subprocess.run([clone.top / "calfrewin", JACKSBORO, "mesh.glb", "--error", "50", "--spacing", "90"], env=clone.path(),
                           capture_output=True, text=True, cwd=clone.top, check=False)
    assert ended.returncode == 127 and "'rt' is not on PATH" in ended.stderr and "Traceback" not in ended.stderr


@pytest.fixture
def bare(monkeypatch: pytest.MonkeyPatch, tmp_path: Path) -> list[list[str]]:
    """A system whose one Python lacks the packages, and an apt-get that notes what it is to install."""
    asked: list[list[str]] = []
    python = tmp_path / "bare_python"
    python.write_text(f'#!/bin/sh\nexec "{sys.executable}" -S "$@"\n')
    python.chmod(0o755)
    monkeypatch.setattr(packages, "USERS", (str(python),))
    monkeypatch.setattr(packages, "install", lambda names, before: asked.append([*before, *names]) or "")
    monkeypatch.setattr(packages, "rights", lambda may_ask: ["sudo"])
    monkeypatch.setattr(first_use, "OUT", tmp_path)
    return asked


WANTED = ["python3-click", "python3-meshio", "python3-numpy", "python3-pyproj", "python3-rasterio"]


@table(
    "user, by_sudo, asked",
    ("calfrewin_installs_packages_as_root", 0, False, [["sudo", *WANTED]]),
    ("calfrewin_installs_packages_by_sudo_where_it_is_asked_to", 1000, True, [["sudo", *WANTED]]),
    ("calfrewin_names_packages_else", 1000, False, []),
)
def test_packages(monkeypatch: pytest.MonkeyPatch, capsys: Any, bare: list[list[str]], user: int, by_sudo: bool,
                  asked: list[list[str]]) -> None:
    monkeypatch.setattr(os, "getuid", lambda: user)
    first_use.choose_python(by_sudo)
    said = capsys.readouterr().err
    assert bare == asked and f"calfrewin: on Debian: apt-get install {' '.join(WANTED)}\n" in said
    assert ("./calfrewin --setup" in said) == (not asked)
    assert not (first_use.OUT / "python").exists()

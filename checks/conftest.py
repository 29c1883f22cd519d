"""What the tests of this folder share: the built program. checks/run calls them all; by hand:
python3 -m pytest checks/test_launcher.py [-k NAME], with the program of `./roam`, or of --program=PATH."""
from __future__ import annotations

import os
import subprocess
import sys
from pathlib import Path
from typing import Any

import pytest

from fitters import Library
from place import Place

CHECKS = Path(__file__).resolve().parent
TOP = CHECKS.parent
PATH = "/usr/bin:/bin"  # without the toolchain
sys.dont_write_bytecode = True
sys.path.insert(0, str(TOP / "tools"))


def ran(*words: object, **how: Any) -> str:
    """A command that ends well, without the toolchain on its PATH; what it printed."""
    environment = {"PATH": PATH, "HOME": os.environ.get("HOME", "/"), **how.pop("env", {})}
    given = [str(word) for word in words]
    ended = subprocess.run(given, capture_output=True, text=True, check=False, env=environment, **how)
    assert ended.returncode == 0, f"{words[0]} ended with status {ended.returncode}: {ended.stdout}{ended.stderr}"
    return ended.stdout


def pytest_addoption(parser: Any) -> None:
    parser.addoption("--program", default=str(TOP / "crates/roam_cli/out/roam_cli"), help="the built program")
    parser.addoption("--archive", default=str(TOP / "crates/roam_c/out/libroam_c.a"), help="the built library")


def built(request: Any, option: str, by: str) -> Path:
    found = Path(request.config.getoption(option)).resolve()
    assert found.is_file(), f"there is no {found}; run {by} first"
    return found


@pytest.fixture(scope="session")
def program(request: Any) -> Path:
    return built(request, "--program", "./roam")


@pytest.fixture(scope="session")
def archive(request: Any) -> Path:
    return built(request, "--archive", "lib/build")


@pytest.fixture(scope="session")
def prefix(archive: Path, tmp_path_factory: Any) -> Path:
    """Where `lib/build PREFIX` has installed all."""
    folder: Path = tmp_path_factory.mktemp("prefix")
    ran(sys.executable, TOP / "lib/build", folder, archive)
    return folder


@pytest.fixture(scope="session")
def library(prefix: Path) -> Library:
    return Library(prefix)


@pytest.fixture
def place(tmp_path: Path, program: Path) -> Place:
    return Place(tmp_path, program)

"""checks/setup, with a PATH on which one thing is missing, and an apt-get of a few lines."""
from __future__ import annotations

import os
import shutil
import subprocess
import sys
from pathlib import Path

import pytest

from conftest import CHECKS

# Notes its words. `update` fails as often as the file `fails` has lines; `install assimp-utils` makes the command.
APT = """#!/bin/bash
here=${0%/*}
for word in "$@"; do case $word in update | install) task=$word ;; esac; done
[ -z "$task" ] || echo "$task ${!#}" >>"$here/notes"
if [ $task = update ] && [ -s "$here/fails" ]; then sed -i 1d "$here/fails"; echo 'a mirror is away'; exit 100; fi
[ $task != install ] || [ -f "$here/refuses" ] || ln -s /bin/true "$here/assimp"
"""


@pytest.fixture
def place(tmp_path: Path) -> Path:
    """A folder with all commands that are wanted but assimp."""
    said = subprocess.run([CHECKS / "setup", "--look"], capture_output=True, text=True, check=False)
    assert said.returncode == 0, said.stderr
    for it in Path("/usr/bin").iterdir():
        if it.name not in ("assimp", "id", "sudo", "apt-get"):
            (tmp_path / it.name).symlink_to(it)
    cargo = shutil.which("cargo")
    if cargo and not (tmp_path / "cargo").exists():
        (tmp_path / "cargo").symlink_to(cargo)
    for name, text in (("apt-get", APT), ("id", "#!/bin/sh\necho 0\n")):
        (tmp_path / name).write_text(text)
        (tmp_path / name).chmod(0o755)
    return tmp_path


# checks/setup without its pauses.
WITHOUT_PAUSES = """import runpy, sys, time
time.sleep = lambda _: None
sys.argv = sys.argv[1:]
runpy.run_path(sys.argv[0], run_name="__main__")"""


def setup(place: Path, *words: str) -> subprocess.CompletedProcess[str]:
    return subprocess.run([sys.executable, "-c", WITHOUT_PAUSES, str(CHECKS / "setup"), *words], capture_output=True, text=True,
                          env={**os.environ, "PATH": str(place)}, check=False)


MISSING = "setup: missing: assimp\nsetup: on Debian: apt-get install assimp-utils\n"


def test_setup_installs_what_is_missing(place: Path) -> None:
    ended = setup(place)
    assert (ended.returncode, ended.stdout, ended.stderr) == (0, "", "setup: installing assimp-utils\n")
    assert (place / "notes").read_text() == "update update\ninstall assimp-utils\n"
    assert setup(place).stderr == ""


def test_setup_tries_again_where_an_update_fails(place: Path) -> None:
    (place / "fails").write_text("once\ntwice\n")
    ended = setup(place)
    assert (ended.returncode, ended.stderr) == (0, "setup: installing assimp-utils\n")
    assert (place / "notes").read_text() == 3 * "update update\n" + "install assimp-utils\n"


def test_setup_says_what_is_missing_where_it_cannot_be_installed(place: Path) -> None:
    (place / "refuses").touch()
    (place / "fails").write_text("once\ntwice\nthrice\n")
    ended = setup(place)
    assert ended.returncode == 1
    assert ended.stderr.startswith("setup: installing assimp-utils\na mirror is away\n") and ended.stderr.endswith(MISSING)


def test_setup_only_looks_where_it_is_asked_to(place: Path) -> None:
    ended = setup(place, "--look")
    assert (ended.returncode, ended.stderr) == (1, MISSING) and not (place / "notes").exists()


def test_setup_installs_nothing_for_a_user_without_rights(place: Path) -> None:
    (place / "id").write_text("#!/bin/sh\necho 1000\n")
    ended = setup(place)
    assert (ended.returncode, ended.stderr) == (1, MISSING) and not (place / "notes").exists()

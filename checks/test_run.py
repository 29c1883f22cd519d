"""The driver, checks/run, over a folder of small parts: what fails, is skipped, ends early, hangs or lacks ends it with 1."""
from __future__ import annotations

import importlib.machinery
import importlib.util
import os
import shutil
import subprocess
import sys
from pathlib import Path
from typing import Any

import pytest

from conftest import CHECKS
from place import table

OWN = ("run", "lines.sh", "lines.py", "tables.sh", "python.sh")  # of this folder, the rest are small
LOADER = importlib.machinery.SourceFileLoader("driver", str(CHECKS / "run"))
DRIVER = importlib.util.module_from_spec(importlib.util.spec_from_loader("driver", LOADER))  # type: ignore[arg-type]
LOADER.exec_module(DRIVER)
ALL = DRIVER.PARTS
PARTS = [part for part in ALL if part not in ("tables", "python")]  # those of the shell
AT_ALL = "tables_has_run_what_names_txt_has: test_fake.py::"
FAKE = """import pytest


def test_one():
    pass


@pytest.mark.parametrize("number", [1, 2, 3])
def test_each(number):
    pass
"""
CONFTEST = """def pytest_addoption(parser):
    parser.addoption("--program")
    parser.addoption("--archive")
"""


def drive(top: Path, *words: str, **around: str) -> tuple[int, list[str]]:
    """A run of the driver: its status, and its lines."""
    given = [sys.executable, top / "checks/run", *words]
    ended = subprocess.run(given, cwd=top, stdout=subprocess.PIPE, stderr=subprocess.STDOUT, text=True, timeout=900, check=False,
                           env={**os.environ, "PYTEST_ADDOPTS": "", "PART_SECONDS": "600", **around})
    return ended.returncode, ended.stdout.splitlines()


@pytest.fixture(scope="module")
def made(tmp_path_factory: pytest.TempPathFactory) -> Path:
    """A folder whose parts all pass, with its names.txt."""
    top: Path = tmp_path_factory.mktemp("driver")
    texts = {f"checks/{part}.sh": f"ok {part}_works\n" for part in PARTS}
    texts |= {"checks/test_fake.py": FAKE, "checks/conftest.py": CONFTEST, "python/tests/test_fake.py": FAKE, "program": "",
              "python/pyproject.toml": "", "python/src/some.py": "", "checks/setup": f"#!/bin/sh\necho {sys.executable}\n"}
    texts["checks/texts.sh"] += "echo counted edits_of_low 5\n"
    for name, text in texts.items():
        (top / name).parent.mkdir(parents=True, exist_ok=True)
        (top / name).write_text(text, encoding="utf-8")
    for name in ("program", "checks/setup"):
        (top / name).chmod(0o755)
    for name in OWN:
        shutil.copy(CHECKS / name, top / "checks")
    (top / "bin").mkdir()
    for tool in {tool for tools in ALL.values() for tool in tools if not shutil.which(tool)}:
        (top / "bin" / tool).symlink_to("/bin/true")
    (top / "bin/nproc").write_text("#!/bin/sh\necho 1\n", encoding="utf-8")  # one process beside that of pytest
    (top / "bin/nproc").chmod(0o755)
    assert drive(top, "--names", "program", PATH=f"{top}/bin:{os.environ['PATH']}")[0] == 0
    return top


@pytest.fixture
def top(made: Path, tmp_path: Path, monkeypatch: pytest.MonkeyPatch) -> Path:
    monkeypatch.setenv("PATH", f"{made}/bin:{os.environ['PATH']}")
    folder = tmp_path / "top"
    shutil.copytree(made, folder, symlinks=True, ignore=shutil.ignore_patterns("__pycache__"))
    return folder


def change(path: Path, old: str, new: str) -> None:
    text = path.read_text(encoding="utf-8")
    assert text.count(old) == 1, f"{path.name} has {text.count(old)} times {old!r}"
    path.write_text(text.replace(old, new), encoding="utf-8")


def failed(ended: tuple[int, list[str]]) -> list[str]:
    status, lines = ended
    found = [line for line in lines if line.startswith("FAILED ")]
    assert status == 1 and lines[-1].endswith(f" {len(found)} failed"), (status, lines)
    return found


def test_a_whole_run_of_what_passes_ends_with_0(top: Path) -> None:
    status, lines = drive(top, "--gate", "program")
    assert (status, lines[-1]) == (0, f"{8 + len(PARTS)} passed, 0 failed")
    assert [line.split()[1].strip(":") for line in lines if line.startswith("part ")] == ["tables", "python", *PARTS]


# Of each what stands in a part in the place of its one check, and what the driver says of it at the gate.
@table(
    "text, said",
    ("a_failed_check_ends_the_driver_with_1", "wrong tools_works 'it is off'", ["tools_works: it is off"]),
    ("a_failed_check_among_others_does_too", "ok one\nwrong tools_works off\nok two", [
        "tools_works: off",
        "tools_has_run_what_names_txt_has: one, two ran besides; if that is meant: checks/run --names PROGRAM tools"]),
    ("a_reason_of_two_lines_is_one_line", "wrong tools_works $'one\\ntwo'", ["tools_works: one / two"]),
    ("a_check_with_reasons_fails", "decide tools_works one two", ["tools_works: one; two"]),
    ("a_skipped_check_fails_at_the_gate", "has tools_works no_such_tool",
     ["tools_works: skipped: the command no_such_tool is not there"]),
    ("a_part_that_ends_early_fails", "ok tools_works\nexit 0",
     ["tools_comes_to_its_end: it ended with status 0; its last check was tools_works"]),
    ("a_part_that_crashes_fails", "ok tools_works\nkill -SEGV $$",
     ["tools_comes_to_its_end: it ended with status -11; its last check was tools_works"]),
    ("a_part_with_an_unknown_variable_fails", 'ok tools_works\necho "$no_such_variable"',
     ["tools_comes_to_its_end: it ended with status 1; its last check was tools_works"]),
    ("a_part_that_hangs_fails", "ok tools_works\nsleep 100",
     ["tools_comes_to_its_end: it had not ended after 10 s; its last check was tools_works"]),
    ("a_check_that_hangs_fails", "limited sleep 100 || wrong tools_works \"status $?\"", ["tools_works: status 124"]),
    ("a_check_that_is_left_out_fails", "", ["tools_has_run_what_names_txt_has: tools_works did not run; nothing ran; "
                                            "if that is meant: checks/run --names PROGRAM tools"]),
    ("a_check_more_fails", "ok tools_works\nok another", ["tools_has_run_what_names_txt_has: another ran besides; "
                                                          "if that is meant: checks/run --names PROGRAM tools"]),
)
def test_a_part(top: Path, text: str, said: list[str]) -> None:
    change(top / "checks/tools.sh", "ok tools_works\n", text + "\n")
    limits = {"PART_SECONDS": "10"} if "\nsleep" in text else {"CHECK_SECONDS": "1"} if "limited" in text else {}
    assert failed(drive(top, "--gate", "program", "tools", **limits)) == [f"FAILED {it}" for it in said]


# The same of a table of pytest.
@table(
    "old, new, said",
    ("a_failed_test_ends_the_driver_with_1", "test_one():\n    pass", "test_one():\n    assert 1 == 2",
     ["one: assert 1 == 2"]),
    ("a_skipped_test_fails_at_the_gate", "test_one():\n    pass", "test_one():\n    pytest.skip('no tool')", [
        "one: skipped: Skipped: no tool"]),
    ("a_test_that_ends_its_process_fails", "test_one():\n    pass", "test_one():\n    import os; os._exit(0)", ["one: "]),
    ("a_test_that_hangs_fails", "test_one():\n    pass", "test_one():\n    import time; time.sleep(100)", [
        "one: Failed: it had not ended after 2 s"]),
    ("a_test_that_hangs_for_good_fails", "test_one():\n    pass", "test_one():\n"
     "    import signal, time; signal.signal(signal.SIGALRM, signal.SIG_IGN); time.sleep(100)", ["one: "]),
    ("a_file_that_cannot_be_read_fails", "import pytest", "import pytest, no_such_module", [
        "checks/test_fake.py: ", "tables_has_run_what_names"]),
    ("a_test_that_is_renamed_fails", "def test_one", "def tests_one", [
        AT_ALL + "test_one did not run; test_fake.py::tests_one ran besides"]),
    ("a_test_that_is_not_found_fails", "def test_one", "def is_one", [AT_ALL + "test_one did not run"]),
    ("a_case_that_is_left_out_fails", "[1, 2, 3]", "[1]", [AT_ALL + "test_each (2 times) did not run"]),
    ("a_case_more_fails", "[1, 2, 3]", "[1, 2, 3, 4]", [AT_ALL + "test_each ran besides"]),
)
def test_a_table(top: Path, old: str, new: str, said: list[str]) -> None:
    change(top / "checks/test_fake.py", old, new)
    told = failed(drive(top, "--gate", "program", "tables", **({"CHECK_SECONDS": "2"} if "sleep" in new else {})))
    assert len(told) >= len(said) and all(any(line.startswith(f"FAILED {it}") for line in told) for it in said), told


# Mistakes in the driver itself.
@table(
    "old, new, said",
    ("a_part_that_is_left_out_fails", '"viewer": ("python3", "cc", "ar"), ', "",
     "viewer_has_run_what_names_txt_has: viewer_works did not run; nothing ran; if that is meant: "),
    ("a_driver_that_does_not_count_what_fails_fails", "self.failed += 1", "pass", "the_driver_counts_what_fails: "),
    ("a_driver_that_always_ends_with_0_fails", "return 1 if self.failed else 0", "return 0", "the_driver_counts_what_fails: "),
    ("a_driver_that_lets_checks_be_skipped_fails", 'kind == "FAILED" or self.is_gate', 'kind == "FAILED"',
     "the_driver_counts_what_fails: "),
    ("a_driver_that_compares_no_names_fails", "if lacks or more or not found:", "if False:", "the_driver_counts_what_fails: "),
)
def test_a_driver(top: Path, old: str, new: str, said: str) -> None:
    change(top / "checks/run", old, new)
    told = failed(drive(top, "--gate", "program"))
    assert len(told) == 1 and told[0].startswith(f"FAILED {said}"), told


@table(
    "words, said",
    ("a_part_of_no_such_name_is_refused", ["program", "tool"], "the_parts_are_there: tool; "),
    ("a_program_that_is_not_there_is_refused", ["no_program"], "the_program_is_built: "),
)
def test_words(top: Path, words: list[str], said: str) -> None:
    told = failed(drive(top, *words))
    assert len(told) == 1 and told[0].startswith(f"FAILED {said}")


def test_an_edit_that_is_left_out_fails(top: Path) -> None:
    change(top / "checks/texts.sh", "edits_of_low 5", "edits_of_low 1")
    assert failed(drive(top, "--gate", "program", "texts"))[0].startswith(
        "FAILED texts_has_run_what_names_txt_has: edits_of_low (4 times) did not run")


def test_a_part_that_was_not_asked_for_does_not_lack(top: Path) -> None:
    assert drive(top, "--gate", "program", "texts", "tools")[0] == 0


def test_what_is_skipped_is_told_and_does_not_lack_without_the_gate(top: Path) -> None:
    change(top / "checks/tools.sh", "ok tools_works", "has tools_works no_such_tool")
    status, lines = drive(top, "program", "tools")
    assert (status, lines[-2:]) == (0, ["1 skipped", "0 passed, 0 failed"])


def test_names_are_made_anew_and_not_where_a_check_is_skipped(top: Path) -> None:
    change(top / "checks/tools.sh", "ok tools_works", "ok another")
    change(top / "checks/test_fake.py", "def test_one", "def test_two")
    assert drive(top, "--names", "program", "tools", "tables")[0] == 0
    assert drive(top, "--gate", "program")[0] == 0
    before = (top / "checks/names.txt").read_text(encoding="utf-8")
    change(top / "checks/tools.sh", "ok another", "has a_third no_such_tool")
    assert drive(top, "--names", "program", "tools")[0] == 1
    assert (top / "checks/names.txt").read_text(encoding="utf-8") == before


def test_what_a_part_leaves_behind_is_ended(top: Path) -> None:
    change(top / "checks/tools.sh", "ok tools_works\n", "sleep 100 &\necho $! >left\nok tools_works\n")
    assert drive(top, "--gate", "program", "tools")[0] == 0
    told = Path("/proc", (top / "left").read_text().strip(), "stat")
    assert not told.exists() or told.read_text().split()[2] in "ZX"


def test_fuzzing_for_no_time_fails(tmp_path: Path) -> None:
    (tmp_path / "python3").symlink_to(sys.executable)
    around: dict[str, Any] = {"top": CHECKS.parent, "checks": CHECKS, "program": "/bin/true", "room": tmp_path, "names_only": "",
                              "FUZZ_SECONDS": 0, "TMPDIR": tmp_path, "PATH": f"{tmp_path}:{os.environ['PATH']}"}
    ended = subprocess.run(["bash", CHECKS / "lines.sh", "fuzz", "python3"], stdout=subprocess.PIPE, text=True, check=True,
                           env={**os.environ, **{name: str(it) for name, it in around.items()}})
    assert ended.stdout.startswith("FAILED damaged_grids_and_scripts: 0 cases with seed 1: none; 0 differences; a hundred cases ")

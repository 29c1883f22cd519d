"""What place.py expects of a run, by programs of a line: each that does one other thing is found."""
from __future__ import annotations

from pathlib import Path
from typing import Optional

import pytest

from place import Place, flat_mesh, lines, table

RIGHT = "cat report; cp mesh out000001.obj"


@table(
    "line, why",
    ("a_run_that_is_as_expected", RIGHT, None),
    ("a_run_with_another_status", f"{RIGHT}; exit 1", "exit status 1, not 0"),
    ("a_run_with_another_report", f"echo; {RIGHT}", "the report is"),
    ("a_run_without_a_report", "cp mesh out000001.obj", "the report is"),
    ("a_run_with_another_mesh", "cat report; head -n 5 mesh >out000001.obj", "out000001.obj is not as wanted"),
    ("a_run_without_a_mesh", "cat report", "out000001.obj is not as wanted"),
    ("a_run_with_a_mesh_too_many", f"{RIGHT}; cp mesh out000002.obj", "the files there are not those wanted"),
    ("a_run_that_takes_a_file_away", f"{RIGHT}; rm mesh", "the files there are not those wanted"),
    ("a_run_that_says_something", f"{RIGHT}; echo word >&2", "standard error says 'word"),
)
def test_what_is_expected(tmp_path: Path, line: str, why: Optional[str]) -> None:
    place = Place(tmp_path, Path("/bin/sh"), is_empty=True)
    place.write("report", lines(1))
    place.write("mesh", flat_mesh(2))
    place.run("-c", line)
    if why is None:
        place.expect(0, lines(1), meshes=1)
        return
    with pytest.raises(AssertionError, match=why):
        place.expect(0, lines(1), meshes=1)


@table(
    "status, said, line",
    ("a_fault_that_says_nothing", 6, None, "exit 6"),
    ("a_fault_that_says_two_lines", 6, None, "echo one >&2; echo two >&2; exit 6"),
    ("a_fault_that_says_something_else", 6, "two", "echo one >&2; exit 6"),
    ("a_fault_that_has_to_be_silent", 6, "", "echo one >&2; exit 6"),
    ("wrong_words_without_the_usage", 2, None, "echo one >&2; exit 2"),
)
def test_what_is_said_of_a_fault(tmp_path: Path, status: int, said: Optional[str], line: str) -> None:
    place = Place(tmp_path, Path("/bin/sh"), is_empty=True).run("-c", line)
    with pytest.raises(AssertionError, match="standard error says"):
        place.expect(status, said=said)

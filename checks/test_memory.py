"""Runs of the built program in which each allocation fails in turn, up to the first run that meets no refusal. Each ends with
status 1, its one line on standard error, an empty report and no mesh. Wants a C compiler."""
from __future__ import annotations

import os
import subprocess
from pathlib import Path
from typing import Any

import pytest

from place import Place, flat_mesh, spots, table

# A library that is loaded before the program: the allocation whose number is in REFUSE gets no memory.
REFUSING = r"""
#define _GNU_SOURCE
#include <dlfcn.h>
#include <errno.h>
#include <stdlib.h>

static void *(*whole)(size_t), *(*again)(void *, size_t);
static long count, refused;

static int is_refused(void) {
    if (!whole) {
        const char *word = getenv("REFUSE");
        whole = (void *(*)(size_t))dlsym(RTLD_NEXT, "malloc");
        again = (void *(*)(void *, size_t))dlsym(RTLD_NEXT, "realloc");
        refused = word ? atol(word) : 0;
    }
    if (++count != refused) return 0;
    errno = ENOMEM;
    return 1;
}

void *malloc(size_t size) { return is_refused() ? NULL : whole(size); }
void *realloc(void *room, size_t size) { return is_refused() ? NULL : again(room, size); }
"""
# Each kind of line.
SCRIPT = """# each kind of line
frame
camera 4 4 0
frame
set 1 0 7
plane 1 0 0 -2
frame
noplanes
budget 5
frame
raise 0 0 2 2 -5
frame
"""


@pytest.fixture(scope="session")
def refusing(tmp_path_factory: Any) -> Path:
    folder = tmp_path_factory.mktemp("refusing")
    (folder / "refuse.c").write_text(REFUSING)
    subprocess.run(["cc", "-O1", "-shared", "-fPIC", "-o", folder / "refuse.so", folder / "refuse.c", "-ldl"], check=True)
    return Path(folder / "refuse.so")


@table(
    "words",
    ("each_allocation_of_mesh_fails_in_turn", "mesh g s out 9 1"),
    ("each_allocation_of_strip_fails_in_turn", "strip g s out 9 1"),
    ("each_allocation_of_measure_fails_in_turn", "measure g s 9 1"),
    ("each_allocation_of_info_fails_in_turn", "info g"),
    ("each_allocation_of_try_fails_in_turn", "try 2 1"),
    ("each_allocation_of_least_fails_in_turn", "least g s out 0 1"),
    ("each_allocation_of_fit_of_an_error_fails_in_turn", "fit g out error 0 1"),
    ("each_allocation_of_fit_of_a_budget_fails_in_turn", "fit g out budget 9 1"),
    ("each_allocation_of_fit_that_keeps_points_fails_in_turn", "fit g out error 0 1 keep p"),
    ("each_allocation_of_certify_make_fails_in_turn", "certify make hill 0 0 0 4 1"),
    ("each_allocation_of_certify_check_fails_in_turn", "certify check hill o c 2 1"),
    ("each_allocation_of_certify_make_fit_fails_in_turn", "certify make-fit hill budget 2 1"),
    ("each_allocation_of_certify_make_fit_of_an_error_fails_in_turn", "certify make-fit hill error 0 1"),
    ("each_allocation_of_certify_check_fit_fails_in_turn", "certify check-fit hill o f budget 2 1"),
    ("each_allocation_of_certify_make_fit_with_points_fails_in_turn", "certify make-fit hill error 0 1 keep p"),
    ("each_allocation_of_certify_check_fit_with_points_fails_in_turn", "certify check-fit hill o k error 10 1 keep q"),
)
def test_memory(place: Place, refusing: Path, words: str) -> None:
    place.write("g", spots(5, (2, 2, 10)))
    place.write("s", SCRIPT)
    place.write("hill", spots(3, (1, 1, 10)))
    place.write("o", flat_mesh(2))
    place.write("c", "camera 0 0 0\nleaf 2\nleaf 3\nwant 2\n")
    place.write("f", "tolerance 20\nmesh\noff 2 1 1\n")
    place.write("p", "1 0\n2 2\n")
    place.write("k", "tolerance 20\nmesh\n")
    place.write("q", "0 0\n")
    for number in range(1, 1001):
        place.run(*words.split(), env={**os.environ, "REFUSE": str(number), "LD_PRELOAD": str(refusing)})
        if place.status == 0:
            break
        assert (place.status, place.said, place.report) == (1, "roam: out of memory\n", b""), f"allocation {number}"
        assert not place.meshes(), f"allocation {number}: a mesh was begun"
    # The words, and what a run holds: fewer refusals than these would say that they did not reach the program.
    assert 3 <= number < 1000, f"{number - 1} allocations were refused"

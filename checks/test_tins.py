"""Meshes of triangles of any shape, by roam_tin, before a judge of their own (tins.py), beside the fewest right triangles."""
from __future__ import annotations

import ctypes
import random
from fractions import Fraction
from typing import Any, NamedTuple, Optional

import numpy as np
import pytest
import tins
from hypothesis import given, strategies as st
from terrain import read_grid

from conftest import TOP
from fitters import BAD_GRID, BAD_TOLERANCE, HEIGHTS, NO_ROOM, WORDS, FitNote, Library, Refused
from place import table
from random_runs import Roll, random_runs

WORST = 65_535_999  # the greatest error, in thousandths


class Found(NamedTuple):
    """A mesh, and what was told of it."""
    triangles: list[tins.Triangle]
    deviation: Fraction
    vertices: int


def of_library(library: Library, heights: Any, thousandths: int, effort: int, room: Optional[int] = None) -> Found:
    """What roam_tin makes of a square array, rows from the top."""
    given_heights = np.ascontiguousarray(heights, np.uint16)
    side, size = given_heights.shape[0], given_heights.size
    out, note = np.zeros(6 * size if room is None else room, np.uint32), FitNote()
    library.call("tin", given_heights.ctypes.data_as(HEIGHTS), size, thousandths, effort,
                 out.ctypes.data_as(WORDS), out.size, ctypes.byref(note))
    points = [(int(at) % side, side - 1 - int(at) // side) for at in out[:3 * note.triangles]]
    triangles = [(points[k], points[k + 1], points[k + 2]) for k in range(0, len(points), 3)]
    return Found(triangles, Fraction(note.off, note.over), note.vertices)


def fewest(library: Library, heights: Any, thousandths: int) -> int:
    """How many right triangles the error takes."""
    given_heights = np.ascontiguousarray(heights, np.uint16)
    out, none, note = np.zeros(6 * given_heights.size, np.uint32), np.zeros(1, np.uint32), FitNote()
    library.call("fit_with", given_heights.ctypes.data_as(HEIGHTS), given_heights.size, thousandths,
                 none.ctypes.data_as(WORDS), 0, none.ctypes.data_as(WORDS), 0,
                 out.ctypes.data_as(WORDS), out.size, ctypes.byref(note))
    return note.triangles


def by_point(heights: Any) -> dict[tins.Point, int]:
    side = len(heights)
    return {(x, side - 1 - row): int(heights[row][x]) for row in range(side) for x in range(side)}


def is_right(found: Found, heights: Any, thousandths: int) -> None:
    """The mesh tiles the square, is within the error, and what was told of it is so."""
    last = len(heights) - 1
    assert tins.fault_in(found.triangles, last, last) is None
    assert tins.deviation(found.triangles, by_point(heights)) == found.deviation <= Fraction(thousandths, 1000)
    assert len({point for triangle in found.triangles for point in triangle}) == found.vertices


# --- The judge, over meshes by hand: a square of two grid steps. ---

HALVES = [((0, 0), (2, 0), (0, 2)), ((2, 2), (0, 2), (2, 0))]
FAN = [((0, 0), (2, 0), (1, 2)), ((0, 0), (1, 2), (0, 2)), ((2, 0), (2, 2), (1, 2))]


@table(
    "triangles, why",
    ("two_halves", HALVES, None),
    ("a_vertex_on_the_upper_side", FAN, None),
    ("a_triangle_left_out", FAN[:2], "has no neighbour"),
    ("a_triangle_twice", [*HALVES, HALVES[0]], "two triangles have the edge"),
    ("a_triangle_turned_over", [HALVES[0][::-1], HALVES[1]], "does not turn left"),
    ("a_flat_triangle", [*HALVES, ((0, 0), (1, 0), (2, 0))], "does not turn left"),
    ("a_vertex_inside_an_edge", [HALVES[0], ((2, 2), (0, 2), (1, 1)), ((2, 2), (1, 1), (2, 0))], "has no neighbour"),
    ("a_vertex_outside", [((0, 0), (4, 0), (0, 4))], "leaves the rectangle"),
    ("a_fold", [((0, 0), (2, 0), (1, 1)), ((2, 0), (0, 2), (1, 1)), ((0, 2), (0, 0), (1, 1)), HALVES[1]], "does not turn left"),
)
def test_the_judge_sees_what_is_wrong(triangles: list[tins.Triangle], why: Optional[str]) -> None:
    found = tins.fault_in(triangles, 2, 2)
    assert found is None if why is None else found is not None and why in found


def test_the_judge_measures_by_hand() -> None:
    heights = by_point([[0, 0, 0], [0, 9, 0], [0, 0, 0]])
    assert tins.deviation(HALVES, heights) == 9
    assert tins.off(FAN[0], by_point([[0, 8, 0], [0, 9, 0], [0, 0, 0]]), (1, 1)) == 5  # the plane is at 4 there


# --- The library. ---

@given(st.data())
@random_runs(60)
def test_random_grids(library: Library, data: Any) -> None:
    roll = Roll(data.draw)
    side = 2 ** roll.randint(1, 4) + 1
    rng = np.random.default_rng(roll.randint(0, 2 ** 32))
    kind = roll.randint(0, 3)
    if kind == 0:
        heights = rng.integers(0, 65536, (side, side))
    elif kind == 1:
        heights = np.cumsum(np.cumsum(rng.integers(-9, 10, (side, side)), 0), 1)
        heights = heights - heights.min()
    elif kind == 2:
        heights = np.full((side, side), roll.randint(0, 65535))
        heights[roll.randint(0, side - 1), roll.randint(0, side - 1)] = roll.randint(0, 65535)
    else:
        heights = rng.integers(0, 2, (side, side)) * 65535
    thousandths = roll.choice([0, 1, 999, roll.randint(0, 99_999), roll.randint(0, WORST), WORST])
    found = of_library(library, heights, thousandths, roll.randint(0, 10))
    is_right(found, heights, thousandths)
    assert len(found.triangles) <= fewest(library, heights, thousandths)


@table(
    "error, effort, most",
    ("a_hundred_metres", 100, 3, 400),
    ("a_hundred_metres_with_all_effort", 100, 9, 335),
    ("twenty_metres", 20, 3, 5250),
)
def test_few_triangles_on_the_jacksboro_grid(library: Library, error: int, effort: int, most: int) -> None:
    """Insertion takes 1,222 and 11,603 triangles there, the fewest right ones are 1,732 and 21,988."""
    n, _, points = read_grid(TOP / "examples/jacksboro/grid.pgm")
    heights = [[points[x, 2 ** n - row] for x in range(2 ** n + 1)] for row in range(2 ** n + 1)]
    found = of_library(library, heights, 1000 * error, effort)
    assert len(found.triangles) <= most
    is_right(found, heights, 1000 * error)


def test_the_same_arguments_give_the_same_mesh(library: Library) -> None:
    heights = np.random.default_rng(3).integers(0, 900, (33, 33))
    first = of_library(library, heights, 90_000, 4)
    assert of_library(library, heights, 90_000, 4) == first
    assert of_library(library, heights, 90_000, 9).triangles == of_library(library, heights, 90_000, 77).triangles


@table(
    "side, thousandths, room, answer",
    ("no_grid", 4, 0, None, BAD_GRID),
    ("no_error", 5, WORST + 1, None, BAD_TOLERANCE),
    ("no_room", 5, 0, 5, NO_ROOM),
)
def test_refusals(library: Library, side: int, thousandths: int, room: Optional[int], answer: int) -> None:
    heights = np.array([[random.Random(y * 9 + x).randrange(999) for x in range(side)] for y in range(side)])
    with pytest.raises(Refused) as refused:
        of_library(library, heights, thousandths, 3, room)
    assert refused.value.answer == answer

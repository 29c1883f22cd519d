"""`certify` of the built program: certificates of nine points, of which the middle is 10 high, good and damaged, worked by
hand."""
from __future__ import annotations

import re
from typing import Optional

import pytest

from place import Place, flat, flat_mesh, spots, table

HILL = spots(3, (1, 1, 10))
HALVES = flat_mesh(2)  # the mesh of the two base triangles
CERTIFIED = b"certified camera 0 0 0 triangles 2 worst 1310720\n"
SOUND = b"camera 0 0 0\nleaf 2\nleaf 3\nwant 2\n"


@pytest.fixture
def hill(place: Place) -> Place:
    place.write("g", HILL)
    place.write("o", HALVES)
    return place


# Of each the certificate, the budget, status and report.
@table(
    "certificate, budget, status, report",
    ("a_certificate_of_one_reason", b"camera 0 0 0\nleaf 2\nleaf 3\nwant 2\n", 2, 0,
     "certified camera 0 0 0 triangles 2 worst 1310720"),
    ("a_certificate_with_cr_and_no_last_lf", b"camera 0 0 0\r\nleaf 2\r\n\tleaf  3 \r\nwant 2", 2, 0,
     "certified camera 0 0 0 triangles 2 worst 1310720"),
    ("a_reason_too_few", b"camera 0 0 0\nleaf 2\nleaf 3\nwant 2\n", 3, 7, "rejected: too few reasons"),
    ("a_mate_as_a_reason", b"camera 0 0 0\nleaf 2\nleaf 3\nwant 2\nmate 3\n", 3, 0,
     "certified camera 0 0 0 triangles 2 worst 1310720"),
    ("a_mate_named_twice", b"camera 0 0 0\nleaf 2\nleaf 3\nwant 2\nmate 3\nmate 3\n", 3, 7, "rejected: bad reason 3"),
    ("a_mate_that_nothing_forces", b"camera 0 0 0\nleaf 2\nleaf 3\nmate 3\n", 2, 7, "rejected: bad reason 1"),
    ("a_reason_where_all_leaves_are_finest", b"camera 0 0 0\nleaf 4\nleaf 5\nleaf 6\nleaf 7\nparent 2\n", 4, 7,
     "rejected: bad reason 1"),
    ("a_reason_of_priority_0", b"camera 0 0 0\nleaf 2\nleaf 3\nwant 4\n", 2, 7, "rejected: bad reason 1"),
    ("a_leaf_left_out", b"camera 0 0 0\nleaf 2\nwant 2\n", 2, 7, "rejected: not conforming"),
    ("a_camera_alone", b"camera 0 0 0\n", 2, 7, "rejected: not conforming"),
    ("a_leaf_behind_a_reason", b"camera 0 0 0\nleaf 2\nwant 2\nleaf 3\n", 2, 7, "rejected: bad line 4"),
    ("a_certificate_without_bytes", b"", 2, 7, "rejected: bad line 1"),
    ("a_blank_line_of_a_certificate", b"camera 0 0 0\n\nleaf 2\n", 2, 7, "rejected: bad line 2"),
    ("leaves_in_another_order", b"camera 0 0 0\nleaf 3\nleaf 2\nwant 2\n", 2, 7, "rejected: mesh differs at 34"),
)
def test_certificate(hill: Place, certificate: bytes, budget: int, status: int, report: str) -> None:
    hill.write("c", certificate)
    hill.run("certify", "check", "g", "o", "c", budget, 1)
    hill.expect(status, f"{report}\n".encode())


@table(
    "certificate, report",
    *((f"a_first_line_that_is_bad_{k}", line, "rejected: bad line 1") for k, line in enumerate((
        b"# c", b"leaf 2", b"camera 0 0", b"camera 0 0 0 0", b"camera 1073741825 0 0", b"Camera 0 0 0"))),
    *((f"a_second_line_that_is_bad_{k}", b"camera 0 0 0\n" + line, "rejected: bad line 2") for k, line in enumerate((
        b"", b"camera 0 0 0", b"leaf 1", b"leaf 16", b"leaf", b"leaf 2 3", b"leaf -2", b"want 8", b"want 1", b"least 2"))),
    ("lines_of_each_kind_with_tabs_and_zeros",
     b" camera\t-1073741824 007 -0 \r\nleaf 15\nleaf\t2\r\nwant 7\nparent 03\nmate 2", "rejected: not conforming"),
)
def test_lines(hill: Place, certificate: bytes, report: str) -> None:
    hill.write("c", certificate + b"\n")
    hill.run("certify", "check", "g", "o", "c", 2, 1)
    hill.expect(7, f"{report}\n".encode())


# Each byte of the mesh is another one in turn, and each prefix of it is the whole file.
def test_a_mesh_differs_at_its_first_wrong_byte_or_where_it_ends(hill: Place) -> None:
    hill.write("c", SOUND)
    for at in range(len(HALVES)):
        for mesh in (HALVES[:at], HALVES[:at] + b"x" + HALVES[at + 1:]):
            hill.write("o", mesh)
            hill.run("certify", "check", "g", "o", "c", 2, 1)
            hill.expect(7, b"rejected: mesh differs at %d\n" % at)


# Of each the mesh, or none, the certificate, or none, status, report, and what standard error says.
@table(
    "mesh, certificate, status, report, said",
    ("leaves_and_faces_in_another_order", b"v 0 0 0\nv 2 0 0\nv 0 2 0\nv 2 2 0\nf 4 3 2\nf 1 2 3\n",
     b"camera 0 0 0\nleaf 3\nleaf 2\nwant 2\n", 0, CERTIFIED, None),
    # A line of 200 bytes with its CR, and one of 201.
    ("a_certificate_with_a_line_of_200_bytes", HALVES,
     b"camera 0 0 0" + 187 * b" " + b"\r\nleaf 2\nleaf 3\nwant 2\n", 0, CERTIFIED, None),
    ("a_certificate_with_a_line_of_201_bytes", HALVES,
     b"camera 0 0 0\nleaf 2\nleaf 3" + 194 * b" " + b"\r\nwant 2\n", 7, b"rejected: bad line 3\n", None),
    ("a_mesh_that_ends_early", HALVES[:20], SOUND, 7, b"rejected: mesh differs at 20\n", None),
    ("a_mesh_of_one_line", HALVES[:8], SOUND, 7, b"rejected: mesh differs at 8\n", None),
    ("a_mesh_that_goes_on", HALVES + b"\n", SOUND, 7, b"rejected: mesh differs at %d\n" % len(HALVES), None),
    ("a_certificate_that_is_not_there", HALVES, None, 5, b"",
     "roam: cannot open the certificate 'c': No such file or directory"),
    ("a_mesh_that_is_not_there", None, SOUND, 5, b"", "roam: cannot open the mesh 'o': No such file or directory"),
    ("a_mesh_that_no_test_needs", None, b"camera 0 0 0\nleaf 2\n", 7, b"rejected: not conforming\n", None),
)
def test_mesh(hill: Place, mesh: Optional[bytes], certificate: Optional[bytes], status: int, report: bytes,
              said: Optional[str]) -> None:
    (hill.folder / "o").unlink()
    for name, data in (("o", mesh), ("c", certificate)):
        if data is not None:
            hill.write(name, data)
    hill.run("certify", "check", "g", "o", "c", 2, 1)
    hill.expect(status, report, said)


def test_a_bad_reason_where_the_worst_is_0(hill: Place) -> None:
    hill.write("g", flat(3))
    hill.write("c", SOUND + b"want 2\n")
    hill.run("certify", "check", "g", "o", "c", 2, 1)
    hill.expect(7, b"rejected: bad reason 2\n")


def test_a_mesh_with_a_plane_in_force(hill: Place) -> None:
    hill.write("s", "plane 1 0 0 0\nframe\n")
    hill.run("mesh", "g", "s", "with", 2, 1)
    hill.write("c", SOUND)
    hill.run("certify", "check", "g", "with000001.obj", "c", 2, 1)
    hill.expect(7, b"rejected: mesh differs at 32\n")


def test_more_triangles_than_the_budget(hill: Place) -> None:
    hill.write("c", "camera 0 0 0\nleaf 4\nleaf 5\nleaf 6\nleaf 7\n")
    hill.run("certify", "check", "g", "o", "c", 3, 1)
    hill.expect(7, b"rejected: over budget\n")


def test_a_mesh_of_a_greater_budget(hill: Place) -> None:
    hill.run("mesh", "g", "s", "out", 4, 1)
    hill.write("c", SOUND)
    hill.run("certify", "check", "g", "out000001.obj", "c", 2, 1)
    hill.expect(7, b"rejected: mesh differs at 18\n")


# Which reasons are made is left open; that they are right ones is not.

def test_a_certificate_that_is_made_and_checked(hill: Place) -> None:
    hill.write("c", hill.run("certify", "make", "g", -1, 2, -3, 2, 1).report)
    hill.run("certify", "check", "g", "o", "c", 2, 1)
    hill.expect(0, b"certified camera -1 2 -3 triangles 2 worst 327680\n")


def test_a_certificate_of_the_quarters(hill: Place) -> None:
    hill.run("mesh", "g", "s", "out", 4, 1)
    hill.write("c", hill.run("certify", "make", "g", 0, 0, 0, 4, 1).report)
    hill.run("certify", "check", "g", "out000001.obj", "c", 4, 1)
    hill.expect(0, b"certified camera 0 0 0 triangles 4 worst 0\n")


def test_a_certificate_of_nine_triangles(place: Place) -> None:
    place.write("g", spots(5, (1, 0, 10), (3, 4, 10)))
    place.run("mesh", "g", "s", "out", 9, 1)
    place.write("c", place.run("certify", "make", "g", 0, 0, 0, 9, 1).report)
    place.run("certify", "check", "g", "out000001.obj", "c", 9, 1)
    place.expect(0, b"certified camera 0 0 0 triangles 9 worst 436906\n")


# --- Certificates of fitted meshes, over the same nine points: each half is off by 20 over 2 in the middle. ---

# Of each the certificate, what the mesh is fitted to, status and report.
@table(
    "certificate, goal, status, report",
    ("halves_certified_for_a_budget", b"tolerance 20\nmesh\noff 2 1 1\n", "budget 2", 0,
     "certified fit triangles 2 deviation 20 over 2 error 10"),
    ("halves_certified_for_a_budget_of_3", b"tolerance 20\nmesh\noff 3 1 1\n", "budget 3", 0,
     "certified fit triangles 2 deviation 20 over 2 error 10"),
    ("halves_certified_for_an_error", b"tolerance 20\nmesh\n", "error 10", 0,
     "certified fit triangles 2 deviation 20 over 2 error 10"),
    ("halves_certified_for_an_error_between_two_tolerances", b"tolerance 20\nmesh\n", "error 10.499", 0,
     "certified fit triangles 2 deviation 20 over 2 error 10"),
    ("a_fit_certificate_with_cr_and_no_last_lf", b"\ttolerance 20\r\n mesh\r\noff  2\t1 1 \r", "budget 2", 0,
     "certified fit triangles 2 deviation 20 over 2 error 10"),
    ("a_fit_certificate_of_another_error", b"tolerance 20\nmesh\n", "error 9.999", 7, "rejected: other tolerance"),
    ("a_fit_certificate_of_a_lesser_tolerance", b"tolerance 19\nmesh\n", "budget 2", 7, "rejected: over tolerance"),
    ("a_fit_reason_that_is_not_off", b"tolerance 20\noff 2 1 1\nmesh\n", "budget 2", 7, "rejected: bad reason 1"),
    ("a_fit_reason_at_a_point_that_is_not_off", b"tolerance 19\noff 2 1 0\nmesh\n", "budget 4", 7,
     "rejected: bad reason 1"),
    ("a_fit_reason_at_a_point_of_the_other_half", b"tolerance 0\noff 2 2 2\nmesh\n", "budget 4", 7,
     "rejected: bad reason 1"),
    ("a_fit_reason_of_a_triangle_that_is_no_leaf", b"tolerance 0\noff 4 1 1\nmesh\n", "budget 4", 7,
     "rejected: bad reason 1"),
    ("a_fit_reason_that_the_one_before_forced", b"tolerance 19\noff 2 1 1\noff 3 1 1\nmesh\n", "budget 4", 7,
     "rejected: bad reason 2"),
    ("a_fit_reason_behind_the_mesh_that_is_forced", b"tolerance 20\nmesh\noff 2 1 1\noff 3 1 1\n", "budget 2", 7,
     "rejected: bad reason 2"),
    ("more_triangles_than_the_budget_of_a_fit", b"tolerance 0\noff 2 1 1\nmesh\n", "budget 3", 7,
     "rejected: over budget"),
    ("a_fit_reason_too_few", b"tolerance 20\nmesh\noff 2 1 1\n", "budget 4", 7, "rejected: too few reasons"),
    ("a_fit_certificate_without_the_mesh", b"tolerance 20\noff 2 1 1\n", "budget 2", 7, "rejected: bad line 3"),
    ("a_fit_certificate_with_the_mesh_twice", b"tolerance 20\nmesh\nmesh\n", "budget 2", 7, "rejected: bad line 3"),
    ("a_fit_certificate_without_a_tolerance", b"mesh\n", "budget 2", 7, "rejected: bad line 1"),
    ("a_fit_certificate_without_bytes", b"", "budget 2", 7, "rejected: bad line 1"),
    ("a_fit_reason_before_the_tolerance", b"off 2 1 1\n", "budget 2", 7, "rejected: bad line 1"),
    ("a_fit_tolerance_of_33_bits", b"tolerance 4294967296\n", "budget 2", 7, "rejected: bad line 1"),
    ("a_reason_of_a_view_in_a_fit_certificate", b"tolerance 20\nmesh\noff 3 2 2\nwant 2\n", "budget 2", 7,
     "rejected: bad line 4"),
    ("a_blank_line_of_a_fit_certificate", b"tolerance 20\n\nmesh\n", "budget 2", 7, "rejected: bad line 2"),
    ("a_fit_reason_of_a_finest_triangle", b"tolerance 20\nmesh\noff 8 1 1\n", "budget 2", 7, "rejected: bad line 3"),
    ("a_fit_reason_past_the_last_column", b"tolerance 20\nmesh\noff 2 3 1\n", "budget 2", 7, "rejected: bad line 3"),
    ("a_fit_certificate_of_the_quarters", b"tolerance 0\noff 2 1 1\nmesh\n", "budget 4", 7,
     "rejected: mesh differs at 18"),
)
def test_fit_certificate(hill: Place, certificate: bytes, goal: str, status: int, report: str) -> None:
    hill.write("c", certificate)
    hill.run("certify", "check-fit", "g", "o", "c", *goal.split(), 1)
    hill.expect(status, f"{report}\n".encode())


def test_quarters_certified_by_their_reason(hill: Place) -> None:
    hill.run("fit", "g", "out", "error", 0, 1)
    hill.write("c", "tolerance 0\noff 2 1 1\nmesh\n")
    hill.run("certify", "check-fit", "g", "out000001.obj", "c", "budget", 4, 1)
    hill.expect(0, b"certified fit triangles 4 deviation 0 over 2 error 0\n")


# Over 25 points, of which a corner is 1 high: 4 and 5 are leaves only once 2 is split.
@table(
    "certificate, goal, status, report",
    ("fit_reasons_that_make_leaves_for_others", b"tolerance 2\noff 2 1 0\noff 4 1 0\noff 5 0 1\nmesh\n", "error 0.5", 0,
     "certified fit triangles 6 deviation 2 over 4 error 0.5"),
    ("fit_reasons_behind_the_mesh_that_do", b"tolerance 3\nmesh\noff 2 1 0\noff 4 1 0\noff 5 0 1\n", "budget 5", 0,
     "certified fit triangles 2 deviation 3 over 4 error 0.75"),
    ("fit_reasons_in_another_order", b"tolerance 2\noff 4 1 0\noff 2 1 0\noff 5 0 1\nmesh\n", "error 0.5", 7,
     "rejected: bad reason 1"),
)
def test_reasons_in_order(place: Place, certificate: bytes, goal: str, status: int, report: str) -> None:
    place.write("g", spots(5, (0, 0, 1)))
    place.run("fit", "g", "out", *goal.split(), 1)
    place.write("c", certificate)
    place.run("certify", "check-fit", "g", "out000001.obj", "c", *goal.split(), 1)
    place.expect(status, f"{report}\n".encode())


# Of a mesh that keeps the middle and (1, 0), with which the middle comes. A point stands before the tolerance alone.
@table(
    "certificate, status, report",
    ("a_kept_certificate_of_the_point_that_brings_the_other", b"need 1 0\ntolerance 20\nmesh\n", 0,
     "certified fit triangles 5 deviation 0 over 2 error 0"),
    ("a_kept_certificate_with_blanks_and_cr", b" need\t01  1\r\nneed 1 0\ntolerance 20\nmesh\n", 0,
     "certified fit triangles 5 deviation 0 over 2 error 0"),
    ("a_kept_certificate_with_a_column_past_the_grid", b"need 2 2\nneed 3 0\n", 7, "rejected: bad line 2"),
    ("a_kept_certificate_with_a_row_past_the_grid", b"need 0 3\n", 7, "rejected: bad line 1"),
    ("a_kept_certificate_with_a_point_of_one_number", b"need 1\n", 7, "rejected: bad line 1"),
    ("a_kept_certificate_with_a_point_of_three_numbers", b"need 1 1 1\n", 7, "rejected: bad line 1"),
    ("a_kept_certificate_with_a_reason_before_the_tolerance", b"need 1 1\noff 2 1 1\n", 7, "rejected: bad line 2"),
    ("a_kept_certificate_with_a_point_behind_the_tolerance", b"tolerance 20\nneed 1 1\n", 7, "rejected: bad line 2"),
    ("a_kept_certificate_with_a_point_behind_the_mesh", b"need 1 1\ntolerance 20\noff 4 1 0\nmesh\nneed 1 1\n", 7,
     "rejected: bad line 5"),
)
def test_kept_certificate(hill: Place, certificate: bytes, status: int, report: str) -> None:
    words = ("error", 10, 1, "keep", "p")
    hill.write("p", "1 1\n1 0\n")
    hill.run("fit", "g", "out", *words)
    hill.write("c", certificate)
    hill.run("certify", "check-fit", "g", "out000001.obj", "c", *words)
    hill.expect(status, f"{report}\n".encode())


@table(
    "grid, mesh, certificate, status, report, said",
    ("a_fit_certificate_that_is_not_there", HILL, HALVES, None, 5, b"",
     "roam: cannot open the certificate 'c': No such file or directory"),
    ("a_fitted_mesh_that_is_not_there", HILL, None, b"tolerance 20\nmesh\noff 2 1 1\n", 5, b"",
     "roam: cannot open the mesh 'o': No such file or directory"),
    ("a_fitted_mesh_that_no_test_needs", HILL, None, b"tolerance 20\nmesh\n", 7, b"rejected: too few reasons\n", None),
    ("a_check_of_a_fit_over_a_grid_that_is_cut_short", flat(3)[:30], None, None, 3, b"grid refused: truncated\n", None),
)
def test_fitted_mesh(place: Place, grid: bytes, mesh: Optional[bytes], certificate: Optional[bytes], status: int, report: bytes,
                     said: Optional[str]) -> None:
    for name, data in (("g", grid), ("o", mesh), ("c", certificate)):
        if data is not None:
            place.write(name, data)
    place.run("certify", "check-fit", "g", "o", "c", "budget", 2, 1)
    place.expect(status, report, said)


def test_a_fit_certificate_over_a_grid_that_is_not_there(place: Place) -> None:
    place.run("certify", "make-fit", "none", "error", 1, 1)
    place.expect(5, said="roam: cannot open the grid 'none': No such file or directory")


def test_a_fit_certificate_of_a_flat_grid(place: Place) -> None:
    place.run("certify", "make-fit", "g", "error", 0.001, 1)
    place.expect(0, b"tolerance 0\nmesh\n")


# Which points are named is left open; that they are off is not.
@table(
    "goal",
    *((f"a_fit_certificate_that_is_made_and_checked_for_{goal.replace(' ', '_')}", goal)
      for goal in ("error 9.999", "error 10", "budget 2", "budget 3", "budget 4", "budget 1048576")),
)
def test_made_and_checked(hill: Place, goal: str) -> None:
    words = goal.split()
    line = hill.run("fit", "g", "out", *words, 1).report
    hill.write("c", hill.run("certify", "make-fit", "g", *words, 1).report)
    hill.run("certify", "check-fit", "g", "out000001.obj", "c", *words, 1)
    hill.expect(0, re.sub(b"^fit (triangles [0-9]*) vertices [0-9]*", rb"certified fit \1", line))


# The halves of five points a side, of which (0, 0) is 1 high, are off by 3 over 4.
@table(
    "goal, line",
    ("a_fit_certified_below_three_quarters", "error 0.749", b"certified fit triangles 6 deviation 2 over 4 error 0.5\n"),
    ("a_fit_certified_at_three_quarters", "error 0.75", b"certified fit triangles 2 deviation 3 over 4 error 0.75\n"),
    ("a_fit_certified_for_a_budget_of_5", "budget 5", b"certified fit triangles 2 deviation 3 over 4 error 0.75\n"),
    ("a_fit_certified_for_a_budget_of_6", "budget 6", b"certified fit triangles 6 deviation 2 over 4 error 0.5\n"),
)
def test_certified_corner(place: Place, goal: str, line: bytes) -> None:
    words = goal.split()
    place.write("g", spots(5, (0, 0, 1)))
    place.run("fit", "g", "out", *words, 1)
    place.write("c", place.run("certify", "make-fit", "g", *words, 1).report)
    place.run("certify", "check-fit", "g", "out000001.obj", "c", *words, 1)
    place.expect(0, line)

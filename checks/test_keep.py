"""`fit` of the built program where it keeps points: over nine points, worked by hand. A middle and a side of the square are
the centres of one triangle or two; with each comes what it stands on. And certificates of such meshes."""
from __future__ import annotations

from place import Place, flat, flat_mesh, spots, table

KEEP = ("fit", "g", "out", "error", "0", 1, "keep", "p")
EVERY = [b"%d %d\n" % (x, y) for y in range(3) for x in range(3)]


def told(triangles: int, vertices: int) -> bytes:
    """The line of a mesh of the flat grid."""
    return b"fit triangles %d vertices %d deviation 0 over 2 error 0\n" % (triangles, vertices)


# Of each the points, and how many triangles and vertices the mesh of the flat grid has.
@table(
    "points, triangles, vertices",
    ("no_points", b"", 2, 4),
    ("corners_of_the_square", b"0 0\n2 0\n0 2\n2 2\n", 2, 4),
    ("the_middle", b"1 1\n", 4, 5),
    ("a_point_of_a_side", b"1 0\n", 5, 6),
    ("points_of_two_sides", b"1 0\n2 1\n", 6, 7),
    ("a_point_that_stands_twice", b"1 0\n1 0\n", 5, 6),
    ("all_nine_points", b"".join(EVERY), 8, 9),
    ("nine_lines_of_which_the_last_is_blank", b"".join(EVERY[:8]) + b"\n", 8, 9),
    ("corners_behind_a_comment_with_cr", b"# the corners ask for nothing\r\n0 0\n2 2\n0 2\n2 0\n", 2, 4),
    ("the_middle_twice_with_blanks", b"1 1\n 1\t1", 4, 5),
    ("a_side_and_the_middle", b"\n1 0\r\n1 1\n", 5, 6),
    ("blank_lines_and_comments", b"\n# the middle\n \t\n  #1 0\n1 1\n", 4, 5),
    ("cr_tab_zeros_and_no_last_lf", b"\t01  0001 \r\n-0 0\r\n1\t1", 4, 5),
    ("a_comment_of_200_bytes", b"#" + 199 * b"x" + b"\n1 1\n", 4, 5),
)
def test_points(place: Place, points: bytes, triangles: int, vertices: int) -> None:
    place.write("p", points)
    place.run(*KEEP)
    assert (place.status, place.report, place.said) == (0, told(triangles, vertices), "")
    mesh = place.read("out000001.obj").splitlines()
    assert [sum(line.startswith(kind) for line in mesh) for kind in (b"f ", b"v ")] == [triangles, vertices]
    kept = [tuple(map(int, line.split())) for line in points.splitlines() if line.strip() and b"#" not in line]
    assert {b"v %d %d 0" % point for point in kept} <= set(mesh)


# Of each the points, and the refusal.
@table(
    "points, refusal",
    ("a_point_of_one_number", b"1 1\n1\n", b"line 2 refused: wrong fields\n"),
    ("a_point_of_three_numbers", b"1 1 1\n", b"line 1 refused: wrong fields\n"),
    ("a_command_of_a_script", b"set 1 1\n", b"line 1 refused: wrong fields\n"),
    ("a_column_that_is_no_number", b"x 1\n", b"line 1 refused: bad number in field 1\n"),
    ("a_row_that_is_no_number", b"\n1 1.0\n", b"line 2 refused: bad number in field 2\n"),
    ("a_column_with_a_sign", b"+1 1\n", b"line 1 refused: bad number in field 1\n"),
    ("a_point_left_of_the_grid", b"-1 0\n", b"line 1 refused: out of range in field 1\n"),
    ("a_point_right_of_the_grid", b"3 x\n", b"line 1 refused: out of range in field 1\n"),
    ("a_point_right_of_the_grid_behind_another", b"1 1\n3 0\n", b"line 2 refused: out of range in field 1\n"),
    ("a_point_above_the_grid", b"# top\n2 2\n2 3\n", b"line 3 refused: out of range in field 2\n"),
    ("points_with_a_line_of_201_bytes", b"1 1\n#" + 200 * b"x", b"line 2 refused: line too long\n"),
    ("more_lines_than_grid_points", b"".join(EVERY) + b"1 1\n", b"line 10 refused: too many lines\n"),
    ("a_blank_line_behind_as_many_as_grid_points", 10 * b"\n", b"line 10 refused: too many lines\n"),
    ("a_line_behind_as_many_as_grid_points_that_is_too_long", 9 * b"\n" + 300 * b"x", b"line 10 refused: too many lines\n"),
)
def test_refused_points(place: Place, points: bytes, refusal: bytes) -> None:
    place.write("p", points)
    place.run(*KEEP)
    place.expect(4, refusal)


# The middle of nine points is 10 high: with an error of 10 two triangles do, unless it is kept.
def test_a_point_that_the_error_does_not_need(place: Place) -> None:
    place.write("g", spots(3, (1, 1, 10)))
    place.write("p", "1 1\n")
    place.run("fit", "g", "out", "error", "10", 1)
    assert place.report == b"fit triangles 2 vertices 4 deviation 20 over 2 error 10\n"
    place.run("fit", "g", "out", "error", "10", 1, "keep", "p")
    assert (place.status, place.report) == (0, told(4, 5))


def test_points_that_are_not_there(place: Place) -> None:
    place.run(*KEEP)
    place.expect(5, said="roam: cannot open the points 'p': No such file or directory")


def test_points_behind_a_grid_that_is_refused(place: Place) -> None:
    place.write("g", flat(3)[:20])
    place.run(*KEEP)
    place.expect(3, b"grid refused: truncated\n")


def test_a_mesh_with_points_that_cannot_be_written(place: Place) -> None:
    place.write("p", "0 0\n")
    place.run("fit", "g", "none/out", "error", "0", 1, "keep", "p")
    place.expect(6, said="roam: cannot open the mesh 'none/out000001.obj': No such file or directory")


def test_the_mesh_of_no_points_is_that_of_fit(place: Place) -> None:
    place.write("p", "# none\n")
    place.run(*KEEP)
    place.expect(0, told(2, 4), meshes=1, mesh=flat_mesh(2))


# --- Certificates. ---

# Of each the points, and which of them the certificate needs: a corner is none, and the middle of a side brings the middle.
@table(
    "points, needs",
    ("needs_of_no_points", b"", b""),
    ("needs_of_corners", b"0 0\n2 2\n", b""),
    ("needs_of_the_middle_twice", b"1 1\n1 1\n", b"need 1 1\n"),
    ("needs_of_a_side_and_then_the_middle", b"1 0\n1 1\n", b"need 1 0\n"),
    ("needs_of_the_middle_and_then_a_side", b"1 1\n1 0\n", b"need 1 1\nneed 1 0\n"),
)
def test_needs(place: Place, points: bytes, needs: bytes) -> None:
    place.write("p", points)
    place.run("certify", "make-fit", "g", "error", "0", 1, "keep", "p")
    place.expect(0, needs + b"tolerance 0\nmesh\n")


MIDDLE = b"need 1 1\ntolerance 0\nmesh\n"
QUARTERS = b"certified fit triangles 4 deviation 0 over 2 error 0\n"


# Of each the points that the mesh was made for, the certificate, the points that it is checked for, status and report. The
# points are looked at first, then the certificate, and the mesh last.
@table(
    "made, certificate, points, status, report",
    ("the_middle_certified", b"1 1", MIDDLE, b"1 1\n", 0, QUARTERS),
    ("the_middle_certified_with_a_corner", b"1 1", MIDDLE, b"0 0\n\n1 1", 0, QUARTERS),
    ("points_refused_before_the_certificate", b"1 1", b"", b"3 0", 4, b"line 1 refused: out of range in field 1\n"),
    ("a_need_behind_the_tolerance", b"1 1", b"tolerance 0\nneed 1 1\nmesh\n", b"1 1", 7, b"rejected: bad line 2\n"),
    ("a_tolerance_of_1", b"1 1", b"need 1 1\ntolerance 1\nmesh\n", b"1 1", 7, b"rejected: other tolerance\n"),
    ("a_need_that_is_not_kept", b"1 1", MIDDLE, b"1 0", 7, b"rejected: bad reason 1\n"),
    ("a_reason_behind_the_mesh_with_points", b"1 1", MIDDLE + b"off 4 0 0\n", b"1 1", 7, b"rejected: bad reason 2\n"),
    ("a_kept_point_that_is_not_needed", b"", b"tolerance 0\nmesh\n", b"1 1", 7, b"rejected: too few reasons\n"),
    ("a_mesh_of_no_points", b"", MIDDLE, b"1 1", 7, b"rejected: mesh differs at 18\n"),
)
def test_checked_points(place: Place, made: bytes, certificate: bytes, points: bytes, status: int, report: bytes) -> None:
    place.write("p", made)
    place.run(*KEEP)
    place.write("c", certificate)
    place.write("p", points)
    place.run("certify", "check-fit", "g", "out000001.obj", "c", "error", "0", 1, "keep", "p")
    place.expect(status, report)

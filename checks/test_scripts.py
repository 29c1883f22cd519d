"""The built program over scripts, fits and generated runs: its reports and meshes, worked by hand or by another program."""
from __future__ import annotations

import re
import shutil
from pathlib import Path
from typing import Any, Optional

import pytest

from conftest import TOP
from place import Place, flat, lines, spots, table

# --- Examples: the one line of `command`, run where the example's files lie, gives what is in expected/. ---

EXAMPLES = sorted(it.parent for it in (TOP / "examples").glob("*/command"))


@pytest.fixture(scope="session")
def examples(tmp_path_factory: Any) -> Path:
    """All runs of the program among the examples side by side: one names a grid or a mesh of another."""
    room: Path = tmp_path_factory.mktemp("examples")
    for example in EXAMPLES:
        shutil.copytree(example, room / example.name)
    return room


@table("name", *((f"example_{it.name.replace('-', '_')}", it.name) for it in EXAMPLES))
def test_example(examples: Path, program: Path, name: str) -> None:
    wanted = examples / name / "expected"
    place = Place(examples / name, program, is_empty=True)
    place.run(*(examples / name / "command").read_text().split()[1:])
    status = wanted / "status"
    assert place.status == (int(status.read_text()) if status.is_file() else 0)
    assert place.report == (wanted / "report").read_bytes()
    # As many meshes as the report has lines of frames; expected/ has some of them, or all.
    assert len(place.meshes()) == len(re.findall(b"^(frame|strip|fit) ", place.report, re.MULTILINE))
    for mesh in wanted.glob("*.obj"):
        assert place.read(mesh.name) == mesh.read_bytes(), f"{mesh.name} differs"


# --- Scripts over the flat 3x3 grid. ---

@table(
    "script, status, meshes, refusal",
    ("an_empty_script_makes_no_mesh", b"", 0, 0, b""),
    ("a_frame_makes_a_mesh", b"frame\n", 0, 1, b""),
    ("a_last_line_without_lf_is_accepted", b"frame\nframe", 0, 2, b""),
    ("an_unknown_word_comes_after_a_whole_mesh", b"frame\nfly\n", 4, 1, b"line 2 refused: unknown command\n"),
    ("nothing_is_made_after_a_refused_line", b"frame\nfly\nframe\n", 4, 1, b"line 2 refused: unknown command\n"),
    ("a_refused_last_line_without_lf", b"frame\nfram", 4, 1, b"line 2 refused: unknown command\n"),
    ("an_empty_line_does_nothing", b"\n", 0, 0, b""),
    ("an_empty_line_is_a_line", b"frame\n\nfly\n", 4, 1, b"line 3 refused: unknown command\n"),
    ("a_comment_is_a_line", b"frame\n# a word\n\nbudget 3\nframe\n", 4, 1, b"line 4 refused: out of range in field 1\n"),
    ("a_comment_does_nothing", b"# a frame\nframe\n", 0, 1, b""),
    ("a_blank_after_the_word_is_dropped", b"frame \n", 0, 1, b""),
    ("a_cr_after_the_word_is_dropped", b"frame\r\n", 0, 1, b""),
    ("a_blank_before_the_word_is_dropped", b" frame\n", 0, 1, b""),
    ("a_cr_before_the_word_is_refused", b"\rframe\n", 4, 0, b"line 1 refused: unknown command\n"),
    ("a_second_field_is_refused", b"frame 1\n", 4, 0, b"line 1 refused: wrong fields\n"),
    ("a_word_in_the_place_of_a_number_is_refused", b"frame\ncamera 1 two 3\n", 4, 1,
     b"line 2 refused: bad number in field 2\n"),
    ("a_column_beyond_the_grid_is_refused", b"set 3 0 0\n", 4, 0, b"line 1 refused: out of range in field 1\n"),
    ("a_row_beyond_the_grid_is_refused", b"set 0 3 0\n", 4, 0, b"line 1 refused: out of range in field 2\n"),
    ("a_rectangle_with_its_sides_the_other_way_round", b"raise 2 0 1 2 5\n", 4, 0, b"line 1 refused: out of range in field 3\n"),
    ("a_plane_beyond_the_greatest", b"plane 1048577 0 0 0\n", 4, 0, b"line 1 refused: out of range in field 1\n"),
    ("a_budget_beyond_that_of_the_words_is_refused", b"budget 3\n", 4, 0, b"line 1 refused: out of range in field 1\n"),
    ("a_seventh_plane_is_refused", 7 * b"plane 0 0 1 9\n", 4, 0,
     b"line 7 refused: too many planes\n"),
    ("wrong_fields_come_before_too_many_planes", 6 * b"plane 0 0 1 9\n" + b"plane 0 0 0\n", 4, 0,
     b"line 7 refused: wrong fields\n"),
    ("a_bad_number_comes_before_too_many_planes", 6 * b"plane 0 0 1 9\n" + b"plane 0 0 0 z\n", 4, 0,
     b"line 7 refused: bad number in field 4\n"),
    ("dropped_planes_do_not_count", 6 * b"plane 0 0 1 9\n" + b"noplanes\nplane 0 0 1 9\n", 0, 0, b""),
    ("a_camera_over_a_flat_grid_changes_nothing", b"camera 1 1 40\nframe\n", 0, 1, b""),
    ("edits_that_leave_the_heights", b"set 1 1 9\nset 1 1 0\nraise 0 0 2 2 -5\nframe\n", 0, 1, b""),
    ("a_sixth_letter_is_refused", b"frames\n", 4, 0, b"line 1 refused: unknown command\n"),
    ("a_capital_letter_is_refused", b"Frame\n", 4, 0, b"line 1 refused: unknown command\n"),
    ("a_zero_byte_is_refused", b"fram\x00\n", 4, 0, b"line 1 refused: unknown command\n"),
)
def test_script(place: Place, script: bytes, status: int, meshes: int, refusal: bytes) -> None:
    place.write("s", script)
    has_hint = status == 0 and meshes == 0
    place.run("mesh", "g", "s", "out", 2, 1)
    place.expect(status, lines(meshes) + refusal, meshes=meshes,
                 said="roam: no 'frame' line in the script, so no mesh was made" if has_hint else None)


def test_a_script_without_a_frame_is_measured(place: Place) -> None:
    place.write("s", "noplanes\n")
    place.run("measure", "g", "s", 2, 1)
    place.expect(0, said="roam: no 'frame' line in the script, so nothing was measured")


@table(
    "script, status, meshes, refusal",
    ("a_line_longer_than_a_read_is_refused", 300_000 * b"x", 4, 0, b"line 1 refused: line too long\n"),
    ("a_comment_of_200_bytes", b"frame\n" + 200 * b"#", 0, 1, b""),
    ("a_comment_of_201_bytes", b"frame\n" + 201 * b"#" + b"\n", 4, 1, b"line 2 refused: line too long\n"),
    ("a_script_of_a_thousand_frames", 1000 * b"frame\n", 0, 1000, b""),
    ("ten_million_lines", 9_999_999 * b"\n" + b"frame\n", 0, 1, b""),
    ("ten_million_lines_and_one_more", 10_000_000 * b"\n" + b"frame\n", 4, 0, b"line 10000001 refused: too many lines\n"),
)
def test_long_script(place: Place, script: bytes, status: int, meshes: int, refusal: bytes) -> None:
    place.write("s", script)
    place.run("mesh", "g", "s", "out", 2, 1)
    place.expect(status, lines(meshes) + refusal, meshes=meshes)


# --- Lines alone, over a grid of side 5 with heights to 255 and a budget of 8: which are accepted, and why others are not. ---

INSIDE = (
    b"", b" \t ", b"\r", b"\t\r", b"#", b"  # frame \r \r", b"#frame 1 2 3", b"noplanes", b" \tnoplanes\t ", b"noplanes\r",
    b"camera\t1  2 \t3\r", b"camera 001 2 -0\r", b"camera -1073741824 1073741824 0",
    b"camera 1073741824 -1073741824 1073741824", b"camera 0 0 -1073741824", b"set 0 4 0", b"set 4 0 255", b"set -0 -0 -0",
    b"plane -1048576 1048576 -1048576 1125899906842624", b"plane 1048576 -1048576 1048576 -1125899906842624",
    b"plane 000000000000000001 0 0 0", b"budget 2", b"budget 8", b"raise 0 0 0 0 65535", b"raise -0 -0 -0 -0 -0",
    b"raise 4 4 4 4 -65535", b"raise 0 0 4 4 0", b"raise 3 1 3 1 1", b"raise 1 3 4 4 1", 199 * b"#" + b"\r",
    191 * b" " + b"noplanes\r",
)
REFUSED = {
    "unknown command": (b"fly", b"fram", b"frame\r\r", b"\rframe", b"frame\x0b", b"frame#", b"\0", 195 * b" " + b"frams"),
    "wrong fields": (
        b"frame # x", b"camera", b"camera 1 2", b"camera 1 2 3 4", b"camera a b", b"set", b"set 9 9", b"set 0 0 0 0",
        b"plane 1 0 0", b"plane 1 0 0 0 0", b"noplanes 0", b"budget", b"budget 2 3", b"raise 0 0 1 1", b"raise 0 0 1 1 1 1",
        b"raise 0 0 1 1 1 # up"),
    "bad number in field 1": (b"camera - 2 3", b"camera +1 2 3", b"camera 1.0 2 3", b"camera 0000000000000000001 2 3",
                              b"budget +2", b"budget 2\r\r"),
    "bad number in field 2": (b"camera 1 two 3", b"camera 1 1- 3", b"camera 1 -0000000000000000001 3", b"set 0 x 999"),
    "bad number in field 3": (b"camera 1 2 --1",),
    "bad number in field 4": (b"plane 0 0 0 d",),
    "bad number in field 5": (b"raise 0 0 0 0 #", b"raise 0 0 0 0 --1"),
    "out of range in field 1": (
        b"camera -1073741825 0 0", b"camera 1073741825 0 0", b"set -1 0 0", b"set 5 0 0", b"plane -1048577 0 0 0",
        b"plane 1048577 0 0 0", b"budget 1", b"budget 9", b"budget -0", b"raise -1 0 4 4 0", b"raise 5 0 4 4 0"),
    "out of range in field 2": (
        b"camera 0 -1073741825 0", b"camera 0 1073741825 0", b"set 0 -1 0", b"set 0 5 x", b"plane 0 -1048577 0 0",
        b"plane 0 1048577 0 0", b"raise 0 -1 4 4 0", b"raise 0 5 4 4 0"),
    "out of range in field 3": (
        b"camera 0 0 -1073741825", b"camera 0 0 1073741825", b"camera 0 0 999999999999999999", b"set 0 0 -1", b"set 0 0 256",
        b"plane 0 0 -1048577 0", b"plane 0 0 1048577 0", b"raise 0 0 -1 4 0", b"raise 2 0 1 4 0", b"raise 2 0 5 4 0"),
    "out of range in field 4": (b"plane 0 0 0 -1125899906842625", b"plane 0 0 0 1125899906842625", b"raise 0 0 4 -1 0",
                                b"raise 0 2 4 1 0", b"raise 0 2 4 5 0"),
    "out of range in field 5": (b"raise 0 0 4 4 -65536", b"raise 0 0 4 4 65536"),
    "line too long": (201 * b"#", 200 * b"#" + b"\r", 201 * b" ", 194 * b" " + b"frame  ", 195 * b" " + b"frame\r"),
}


@table(
    "line, refusal",
    *((f"accepted_line_{k}", line, "") for k, line in enumerate(INSIDE)),
    *((f"{why.replace(' ', '_')}_line_{k}", line, why) for why, rows in REFUSED.items() for k, line in enumerate(rows)),
)
def test_line(place: Place, line: bytes, refusal: str) -> None:
    place.write("g", b"P5\n5 5\n255\n" + bytes(25))
    place.write("s", line + b"\n")
    place.run("mesh", "g", "s", "out", 8, 1)
    if refusal:
        place.expect(4, f"line 1 refused: {refusal}\n".encode())
    else:
        place.expect(0, said="roam: no 'frame' line in the script, so no mesh was made")


# --- Worked runs: reports and last meshes that were worked by hand. ---

HALVES = b"v 0 0 0\nv 2 0 0\nv 0 2 0\nv 2 2 0\nf 1 2 3\nf 4 3 2\n"
WIDE_HALVES = b"v 0 0 0\nv 60 0 0\nv 0 60 0\nv 60 60 0\nf 1 2 3\nf 4 3 2\n"
WIDE_QUARTERS = b"v 0 0 0\nv 60 0 0\nv 30 30 10\nv 0 60 0\nv 60 60 0\nf 3 1 2\nf 3 4 1\nf 3 5 4\nf 3 2 5\n"
HIGH_HALVES = b"v 0 0 65535\nv 2 0 65535\nv 0 2 65535\nv 2 2 65535\nf 1 2 3\nf 4 3 2\n"
QUARTERS = b"v 0 0 0\nv 2 0 0\nv 1 1 10\nv 0 2 0\nv 2 2 0\nf 3 1 2\nf 3 4 1\nf 3 5 4\nf 3 2 5\n"
MARKED_QUARTERS = (b"v 0 0 0\nv 2 0 0\nv 1 1 10\nv 0 2 0\nv 2 2 0\n"
                   b"g cut\nf 3 1 2\ng outside\nf 3 4 1\ng cut\nf 3 5 4\nf 3 2 5\n")
NINE_POINTS = b"v 0 0 0\nv 1 0 10\nv 2 0 0\nv 4 0 0\nv 1 1 0\nv 0 2 0\nv 2 2 0\nv 0 4 0\nv 4 4 0\n"
NINE = NINE_POINTS + b"f 5 3 7\nf 2 5 1\nf 2 3 5\nf 3 4 7\nf 6 7 8\nf 5 6 1\nf 5 7 6\nf 7 9 8\nf 7 4 9\n"
NINE_IN_A_STRIP = NINE_POINTS + b"f 3 4 7\nf 5 3 7\nf 2 3 5\nf 2 5 1\nf 5 6 1\nf 5 7 6\nf 6 7 8\nf 7 9 8\nf 7 4 9\n"
CORNER_OF_5 = b"v 0 0 0\nv 2 0 0\nv 0 2 5\nv 2 2 0\nf 1 2 3\nf 4 3 2\n"


def expect_last(place: Place, status: int, report: bytes, mesh: Optional[bytes]) -> None:
    """How the program ended, its report, that it left a mesh for each line of a frame, and which mesh the last one is."""
    assert (place.status, place.report) == (status, report), place.said
    meshes = place.meshes()
    assert len(meshes) == len(re.findall(b"^(frame|strip|fit) ", report, re.MULTILINE))
    assert mesh is None or place.read(meshes[-1]) == mesh


# Of each the words, the grid, the script, status, report, and the last mesh where it is compared.
@table(
    "words, grid, script, status, report, mesh",
    ("worked_flat_ground", "mesh g s out 8 1", spots(3), b"frame\n", 0,
     b"frame 1 triangles 2 vertices 4 worst 0 splits 0 merges 0 blocked none\n", HALVES),
    ("worked_middle_at_4", "mesh g s out 4 1", spots(3, (1, 1, 10)), b"frame\n", 0,
     b"frame 1 triangles 4 vertices 5 worst 0 splits 2 merges 0 blocked none\n", QUARTERS),
    ("worked_middle_at_the_greatest_budget", "mesh g s out 1048576 1", spots(3, (1, 1, 10)), b"frame\n", 0,
     b"frame 1 triangles 4 vertices 5 worst 0 splits 2 merges 0 blocked none\n", QUARTERS),
    ("worked_middle_at_3", "mesh g s out 3 1", spots(3, (1, 1, 10)), b"frame\n", 0,
     b"frame 1 triangles 2 vertices 4 worst 1310720 splits 0 merges 0 blocked 2 needs 4\n", HALVES),
    ("worked_middle_at_2", "mesh g s out 2 1", spots(3, (1, 1, 10)), b"frame\n", 0,
     b"frame 1 triangles 2 vertices 4 worst 1310720 splits 0 merges 0 blocked 2 needs 4\n", HALVES),
    ("worked_border_at_4", "mesh g s out 4 1", spots(3, (1, 0, 10)), b"frame\n", 0,
     b"frame 1 triangles 4 vertices 5 worst 1310720 splits 2 merges 0 blocked 4 needs 5\n", None),
    ("worked_border_at_5", "mesh g s out 5 1", spots(3, (1, 0, 10)), b"frame\n", 0,
     b"frame 1 triangles 5 vertices 6 worst 0 splits 3 merges 0 blocked none\n", None),
    # The ranking of these two is 3, 7, 2, 4: the greater priority goes before the lesser address.
    ("worked_two_hills_at_3", "mesh g s out 3 1", spots(3, (1, 0, 10), (2, 1, 30)), b"frame\n", 0,
     b"frame 1 triangles 2 vertices 4 worst 3932160 splits 0 merges 0 blocked 3 needs 4\n", HALVES),
    ("worked_two_hills_at_4", "mesh g s out 4 1", spots(3, (1, 0, 10), (2, 1, 30)), b"frame\n", 0,
     b"frame 1 triangles 4 vertices 5 worst 1966080 splits 2 merges 0 blocked 7 needs 5\n", None),
    ("worked_two_hills_at_5", "mesh g s out 5 1", spots(3, (1, 0, 10), (2, 1, 30)), b"frame\n", 0,
     b"frame 1 triangles 5 vertices 6 worst 1310720 splits 3 merges 0 blocked 4 needs 6\n", None),
    ("worked_corner_at_9", "mesh g s out 9 1", spots(5, (1, 0, 10)), b"frame\n", 0,
     b"frame 1 triangles 9 vertices 9 worst 0 splits 7 merges 0 blocked none\n", NINE),
    ("worked_corner_at_8", "mesh g s out 8 1", spots(5, (1, 0, 10)), b"frame\n", 0,
     b"frame 1 triangles 8 vertices 8 worst 1310720 splits 6 merges 0 blocked 17 needs 9\n", None),
    ("worked_corner_at_7", "mesh g s out 7 1", spots(5, (1, 0, 10)), b"frame\n", 0,
     b"frame 1 triangles 5 vertices 6 worst 1310720 splits 3 merges 0 blocked 8 needs 8\n", None),
    ("worked_height_that_goes", "mesh g s out 9 1", spots(5, (1, 0, 10)), b"frame\nset 1 0 0\nframe\n", 0,
     b"frame 1 triangles 9 vertices 9 worst 0 splits 7 merges 0 blocked none\n"
     b"frame 2 triangles 2 vertices 4 worst 0 splits 0 merges 7 blocked none\n", None),
    ("worked_height_that_comes_and_goes", "mesh g s out 8 1", spots(3),
     b"frame\n\tset 1 1 10\r\n# a hill\nframe \n\nset 1 1 0\nframe", 0,
     b"frame 1 triangles 2 vertices 4 worst 0 splits 0 merges 0 blocked none\n"
     b"frame 2 triangles 4 vertices 5 worst 0 splits 2 merges 0 blocked none\n"
     b"frame 3 triangles 2 vertices 4 worst 0 splits 0 merges 2 blocked none\n", HALVES),
    ("worked_camera_that_comes_a_step_nearer", "mesh g s out 8 1", spots(3, (0, 0, 1)),
     b"camera -65536 0 0\nframe\ncamera -65535 0 0\nframe\n", 0,
     b"frame 1 triangles 2 vertices 4 worst 0 splits 0 merges 0 blocked none\n"
     b"frame 2 triangles 6 vertices 7 worst 0 splits 4 merges 0 blocked none\n", None),
    ("worked_camera_a_step_too_far", "mesh g s out 8 1", spots(3, (0, 0, 1)), b"camera -65536 0 0\nframe\n", 0,
     b"frame 1 triangles 2 vertices 4 worst 0 splits 0 merges 0 blocked none\n", None),
    ("worked_camera_a_step_nearer", "mesh g s out 8 1", spots(3, (0, 0, 1)), b"camera -65535 0 0\nframe\n", 0,
     b"frame 1 triangles 6 vertices 7 worst 0 splits 4 merges 0 blocked none\n", None),
    ("worked_spacing_of_30", "mesh g s out 3 30", spots(3, (1, 1, 10)), b"camera -29 0 0\nframe\n", 0,
     b"frame 1 triangles 2 vertices 4 worst 43690 splits 0 merges 0 blocked 2 needs 4\n", WIDE_HALVES),
    ("worked_distance_of_5", "mesh g s out 2 1", spots(3, (1, 1, 10)), b"camera -3 -4 0\nframe\n", 0,
     b"frame 1 triangles 2 vertices 4 worst 218453 splits 0 merges 0 blocked 2 needs 4\n", HALVES),
    ("worked_distance_of_13", "mesh g s out 2 1", spots(3, (1, 1, 10)), b"camera -3 -4 -12\nframe\n", 0,
     b"frame 1 triangles 2 vertices 4 worst 93622 splits 0 merges 0 blocked 2 needs 4\n", HALVES),
    ("worked_distances_of_5_and_13", "mesh g s out 2 1", spots(3, (1, 1, 10)),
     b"camera -3 -4 0\nframe\ncamera -3 -4 -12\nframe\n", 0,
     b"frame 1 triangles 2 vertices 4 worst 218453 splits 0 merges 0 blocked 2 needs 4\n"
     b"frame 2 triangles 2 vertices 4 worst 93622 splits 0 merges 0 blocked 2 needs 4\n", HALVES),
    ("worked_plane_that_cuts", "mesh g s out 4 1", spots(3, (1, 1, 10)), b"plane 1 0 0 -2\nframe\n", 0,
     b"frame 1 triangles 4 vertices 5 worst 0 splits 2 merges 0 blocked none inside 0 cut 3 outside 1\n", MARKED_QUARTERS),
    ("worked_plane_with_all_outside", "mesh g s out 4 1", spots(3, (1, 1, 10)), b"plane 1 0 0 -3\nframe\n", 0,
     b"frame 1 triangles 2 vertices 4 worst 0 splits 0 merges 0 blocked none inside 0 cut 0 outside 2\n", None),
    ("worked_plane_with_a_quarter_outside", "mesh g s out 8 1", spots(3, (1, 0, 10)), b"plane 0 1 0 -2\nframe\n", 0,
     b"frame 1 triangles 4 vertices 5 worst 0 splits 2 merges 0 blocked none inside 0 cut 3 outside 1\n", None),
    ("worked_plane_that_leaves_all_out_and_goes", "mesh g s out 4 1", spots(3, (1, 1, 10)),
     b"plane 1 0 0 -2\nframe\nnoplanes\nplane 1 0 0 -3\nframe\nnoplanes\nframe\n", 0,
     b"frame 1 triangles 4 vertices 5 worst 0 splits 2 merges 0 blocked none inside 0 cut 3 outside 1\n"
     b"frame 2 triangles 2 vertices 4 worst 0 splits 0 merges 2 blocked none inside 0 cut 0 outside 2\n"
     b"frame 3 triangles 4 vertices 5 worst 0 splits 2 merges 0 blocked none\n", QUARTERS),
    ("worked_planes_of_two_sides", "mesh g s out 4 1", spots(3, (1, 1, 10)), b"plane 1 0 0 -2\nplane -1 0 0 0\nframe\n", 0,
     b"frame 1 triangles 4 vertices 5 worst 0 splits 2 merges 0 blocked none inside 0 cut 2 outside 2\n", None),
    ("worked_plane_that_comes_to_a_quarter", "mesh g s out 8 1", spots(3, (1, 0, 10)), b"frame\nplane 0 1 0 -2\nframe\n", 0,
     b"frame 1 triangles 5 vertices 6 worst 0 splits 3 merges 0 blocked none\n"
     b"frame 2 triangles 4 vertices 5 worst 0 splits 0 merges 1 blocked none inside 0 cut 3 outside 1\n", None),
    ("worked_planes_that_are_dropped", "mesh g s out 8 1", spots(3), b"plane 1 0 0 -2\nnoplanes\nframe\n", 0,
     b"frame 1 triangles 2 vertices 4 worst 0 splits 0 merges 0 blocked none\n", HALVES),
    ("worked_budget_that_falls_and_comes_back", "mesh g s out 9 1", spots(5, (1, 0, 10)),
     b"frame\nbudget 7\nframe\nbudget 9\nframe\n", 0,
     b"frame 1 triangles 9 vertices 9 worst 0 splits 7 merges 0 blocked none\n"
     b"frame 2 triangles 5 vertices 6 worst 1310720 splits 0 merges 4 blocked 8 needs 8\n"
     b"frame 3 triangles 9 vertices 9 worst 0 splits 4 merges 0 blocked none\n", NINE),
    ("worked_budget_that_comes_back", "mesh g s out 9 1", spots(5, (1, 0, 10)), b"budget 7\nframe\nbudget 9\nframe\n", 0,
     b"frame 1 triangles 5 vertices 6 worst 1310720 splits 3 merges 0 blocked 8 needs 8\n"
     b"frame 2 triangles 9 vertices 9 worst 0 splits 4 merges 0 blocked none\n", NINE),
    ("worked_budget_above_that_of_the_words", "mesh g s out 9 1", spots(5, (1, 0, 10)), b"frame\nbudget 10\nframe\n", 4,
     b"frame 1 triangles 9 vertices 9 worst 0 splits 7 merges 0 blocked none\n"
     b"line 2 refused: out of range in field 1\n", NINE),
    ("worked_raised_middle", "mesh g s out 4 1", spots(3), b"raise 1 1 1 1 10\nframe\n", 0,
     b"frame 1 triangles 4 vertices 5 worst 0 splits 2 merges 0 blocked none\n", QUARTERS),
    # The triangles to the left have the raised column 2 as their border, and no more of the area.
    ("worked_raise_that_only_borders_meet", "mesh g s out 12 1", spots(5),
     b"frame\nraise 2 0 4 4 5\nframe\nraise 2 0 4 4 -5\nframe\n", 0,
     b"frame 1 triangles 2 vertices 4 worst 0 splits 0 merges 0 blocked none\n"
     b"frame 2 triangles 12 vertices 11 worst 163840 splits 10 merges 0 blocked 23 needs 14\n"
     b"frame 3 triangles 2 vertices 4 worst 0 splits 0 merges 10 blocked none\n", None),
    ("worked_raised_middle_with_a_spacing_of_30", "mesh g s out 4 30", spots(3), b"raise 1 1 1 1 10\nframe\n", 0,
     b"frame 1 triangles 4 vertices 5 worst 0 splits 2 merges 0 blocked none\n", WIDE_QUARTERS),
    ("worked_raised_behind_a_frame", "mesh g s out 4 1", spots(3), b"frame\nraise 0 0 2 2 65535\nraise 1 1 1 1 1\nframe\n", 0,
     lines(2), HIGH_HALVES),
    ("worked_raised_to_the_maxval", "mesh g s out 4 1", spots(3), b"raise 0 0 2 2 65535\nraise 1 1 1 1 1\nframe\n", 0,
     b"frame 1 triangles 2 vertices 4 worst 0 splits 0 merges 0 blocked none\n", HIGH_HALVES),
    ("worked_least_below_the_worst", "least g s out 1310719 1", spots(3, (1, 1, 10)), b"frame\n", 0,
     b"frame 1 least 4 vertices 5 worst 0\n", QUARTERS),
    ("worked_least_at_the_worst", "least g s out 1310720 1", spots(3, (1, 1, 10)), b"frame\n", 0,
     b"frame 1 least 2 vertices 4 worst 1310720\n", HALVES),
    ("worked_least_at_0", "least g s out 0 1", spots(5, (1, 0, 10)), b"frame\n", 0,
     b"frame 1 least 9 vertices 9 worst 0\n", NINE),
    ("worked_fit_just_below_the_error", "fit g out error 9.999 1", spots(3, (1, 1, 10)), b"", 0,
     b"fit triangles 4 vertices 5 deviation 0 over 2 error 0\n", QUARTERS),
    ("worked_fit_at_the_error", "fit g out error 10 1", spots(3, (1, 1, 10)), b"", 0,
     b"fit triangles 2 vertices 4 deviation 20 over 2 error 10\n", HALVES),
    ("worked_fit_of_the_greatest_error", "fit g out error 65535.999 1", spots(3, (1, 1, 10)), b"", 0,
     b"fit triangles 2 vertices 4 deviation 20 over 2 error 10\n", HALVES),
    ("worked_fit_of_flat_ground", "fit g out error 0 1", spots(3), b"", 0,
     b"fit triangles 2 vertices 4 deviation 0 over 2 error 0\n", HALVES),
    ("worked_fit_of_no_grid", "fit g out error 1 1", b"P6", b"", 3, b"grid refused: bad magic\n", None),
    ("worked_fit_of_budget_3", "fit g out budget 3 1", spots(3, (1, 1, 10)), b"", 0,
     b"fit triangles 2 vertices 4 deviation 20 over 2 error 10\n", HALVES),
    ("worked_fit_of_budget_4", "fit g out budget 4 1", spots(3, (1, 1, 10)), b"", 0,
     b"fit triangles 4 vertices 5 deviation 0 over 2 error 0\n", QUARTERS),
    ("worked_fit_of_all_that_is_needed", "fit g out budget 1048576 1", spots(5, (1, 0, 10)), b"", 0,
     b"fit triangles 9 vertices 9 deviation 0 over 4 error 0\n", NINE),
    ("worked_fit_of_a_half", "fit g out error 0.5 1", spots(5, (0, 0, 1)), b"", 0,
     b"fit triangles 6 vertices 7 deviation 2 over 4 error 0.5\n", None),
    ("worked_fit_of_three_quarters_with_zeros", "fit g out error 00.750 30", spots(5, (0, 0, 1)), b"", 0,
     b"fit triangles 2 vertices 4 deviation 3 over 4 error 0.75\n", None),
    ("worked_fit_below_three_quarters", "fit g out error 0.749 1", spots(5, (0, 0, 1)), b"", 0,
     b"fit triangles 6 vertices 7 deviation 2 over 4 error 0.5\n", None),
    ("worked_fit_at_three_quarters", "fit g out error 0.75 1", spots(5, (0, 0, 1)), b"", 0,
     b"fit triangles 2 vertices 4 deviation 3 over 4 error 0.75\n", None),
    ("worked_fit_with_a_spacing_of_30", "fit g out budget 2 30", spots(3, (1, 1, 10)), b"", 0,
     b"fit triangles 2 vertices 4 deviation 20 over 2 error 10\n", WIDE_HALVES),
    ("worked_strip_of_2", "strip g s out 8 1", spots(3), b"frame\n", 0,
     b"strip 1 triangles 2 left 0 right 0\n", HALVES),
    ("worked_strip_of_4", "strip g s out 4 1", spots(3, (1, 1, 10)), b"frame\n", 0,
     b"strip 1 triangles 4 left 0 right 2\n", QUARTERS),
    ("worked_strip_of_9", "strip g s out 9 1", spots(5, (1, 0, 10)), b"frame\n", 0,
     b"strip 1 triangles 9 left 2 right 5\n", NINE_IN_A_STRIP),
    ("worked_measure_of_2", "measure g s 3 1", spots(3, (1, 1, 10)), b"frame\n", 0,
     b"measure 1 deviation 20 over 2 thickness 20\n", None),
    ("worked_measure_of_4", "measure g s 4 1", spots(3, (1, 1, 10)), b"frame\n", 0,
     b"measure 1 deviation 0 over 2 thickness 0\n", None),
    ("worked_measure_over_4", "measure g s 2 1", spots(5, (0, 0, 1)), b"frame\n", 0,
     b"measure 1 deviation 3 over 4 thickness 3\n", None),
    ("worked_measure_of_a_cliff", "measure g s 2 1", spots(5, *((x, y, 65535) for x in (3, 4) for y in range(5))), b"frame\n", 0,
     b"measure 1 deviation 131070 over 4 thickness 262140\n", None),
    ("worked_thickness_that_adds_up", "info g", spots(5, (1, 0, 10), (2, 2, 10)), b"frame\n", 0,
     b"side 5 maxval 65535 low 0 high 10 thickness 50\n", None),
)
def test_worked(place: Place, words: str, grid: bytes, script: bytes, status: int, report: bytes,
                mesh: Optional[bytes]) -> None:
    place.write("g", grid)
    place.write("s", script)
    place.run(*words.split())
    expect_last(place, status, report, mesh)


def test_worked_frame_that_changes_nothing(place: Place) -> None:
    place.write("g", spots(5, (1, 0, 10), (3, 4, 10)))
    place.write("s", "frame\ncamera 4 4 0\nframe\nframe\n")
    place.run("mesh", "g", "s", "out", 9, 1)
    rest = b"frame {} triangles 9 vertices 9 worst 436906 splits {} merges {} blocked {} needs 10\n".decode().format
    report = rest(1, 7, 0, 6) + rest(2, 5, 5, 4) + rest(3, 0, 0, 4)
    mesh = (b"v 0 0 0\nv 4 0 0\nv 2 2 0\nv 4 2 0\nv 3 3 0\nv 0 4 0\nv 2 4 0\nv 3 4 10\nv 4 4 0\n"
            b"f 3 1 2\nf 3 6 1\nf 5 7 3\nf 8 5 9\nf 8 7 5\nf 7 6 3\nf 4 3 2\nf 5 4 9\nf 5 3 4\n")
    assert place.read("out000002.obj") == mesh
    expect_last(place, 0, report.encode(), mesh)


# Grids in other forms.
@table(
    "grid, budget, report, mesh",
    ("worked_grid_made_by_hand", b"P5\n# made by hand\n3 3\n255\n\x00\x00\x00\x00\n\x00\x00\x00\x00", 4,
     b"frame 1 triangles 4 vertices 5 worst 0 splits 2 merges 0 blocked none\n", QUARTERS),
    ("worked_grid_with_a_comment_behind_the_width", b"P5\n3 # x\n3\n255\n\x00\x00\x00\x00\n\x00\x00\x00\x00", 4,
     b"frame 1 triangles 4 vertices 5 worst 0 splits 2 merges 0 blocked none\n", QUARTERS),
    ("worked_plain_grid_begins_at_the_upper_left", b"P2 3 3 9\n5 0 0 0 0 0 0 0 0\n", 2,
     b"frame 1 triangles 2 vertices 4 worst 655360 splits 0 merges 0 blocked 2 needs 4\n", CORNER_OF_5),
)
def test_worked_form(place: Place, grid: bytes, budget: int, report: bytes, mesh: bytes) -> None:
    place.write("g", grid)
    place.run("mesh", "g", "s", "out", budget, 1)
    expect_last(place, 0, report, mesh)


# --- Info. ---

@table(
    "grid, status, report, said",
    ("info_on_a_flat_grid", flat(3), 0, b"side 3 maxval 65535 low 0 high 0 thickness 0\n", None),
    ("info_on_a_hill", spots(3, (1, 1, 10)), 0, b"side 3 maxval 65535 low 0 high 10 thickness 20\n", None),
    ("info_on_the_greatest_grid", flat(2049), 0, b"side 2049 maxval 65535 low 0 high 0 thickness 0\n", None),
    ("info_on_a_grid_that_is_cut_short", flat(3)[:30], 3, b"grid refused: truncated\n", None),
    ("info_on_a_grid_that_is_not_there", None, 5, b"", "roam: cannot open the grid 'none': No such file or directory"),
)
def test_info(place: Place, grid: Optional[bytes], status: int, report: bytes, said: Optional[str]) -> None:
    if grid is not None:
        place.write("g", grid)
    place.run("info", "none" if grid is None else "g")
    place.expect(status, report, said)


# --- Generated runs. ---

# Those of the levels 4 to 6 have meshes that all fit the budget of 20,000: the finest ones of 512 and 2,048 triangles, and
# those that greedy.py makes of level 6, where some ground is flat. The sums of level 9 are those of the 50 frames that
# greedy.py makes from scratch of the generated grid and script, in some minutes; all of its meshes were those of the program
# too.
@table(
    "words, report",
    ("try_of_the_least_level", "01 1", b"try 1 1 frames 50 triangles 400 worst 0 blocked 0\n"),
    ("try_of_level_1_and_the_greatest_seed", "1 4294967295", b"try 1 4294967295 frames 50 triangles 400 worst 0 blocked 0\n"),
    ("try_of_level_2", "02 007", b"try 2 7 frames 50 triangles 1600 worst 0 blocked 0\n"),
    ("try_of_level_3", "3 0", b"try 3 0 frames 50 triangles 6400 worst 0 blocked 0\n"),
    ("try_of_level_4", "4 5", b"try 4 5 frames 50 triangles 25600 worst 0 blocked 0\n"),
    ("try_of_level_5", "5 4294967295", b"try 5 4294967295 frames 50 triangles 102400 worst 0 blocked 0\n"),
    ("try_of_level_5_where_some_ground_is_flat", "5 77", b"try 5 77 frames 50 triangles 102200 worst 0 blocked 0\n"),
    ("try_of_level_6_and_another_seed", "6 3", b"try 6 3 frames 50 triangles 408950 worst 0 blocked 0\n"),
    ("try_of_level_6", "6 0", b"try 6 0 frames 50 triangles 409300 worst 0 blocked 0\n"),
    ("try_of_level_9", "9 1", b"try 9 1 frames 50 triangles 999963 worst 4223 blocked 50\n"),
)
def test_try(place: Place, words: str, report: bytes) -> None:
    place.run("try", *words.split())
    place.expect(0, report)

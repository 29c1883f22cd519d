"""The words of the command line before the built program: which are refused and what is said then, and the names of files."""
from __future__ import annotations

import os
import re
from typing import Union

from conftest import TOP
from place import Place, lines, table

LONG = 200 * "0"
FIVE = "GRID SCRIPT PREFIX BUDGET SPACING"
BUDGET = "a whole number from 2 to 1048576 is wanted"
REACH = "a whole number from -1073741824 to 1073741824 is wanted"
COMMANDS = "the commands are info, try, mesh, strip, least, measure, fit and certify"
FIT = ("fit wants 5 or 7 words behind it, {} were given: GRID PREFIX error E SPACING, "
       "GRID PREFIX error E SPACING keep POINTS, or GRID PREFIX budget BUDGET SPACING")
FIT_MAKE = ("certify make-fit wants 4 or 6 words behind it, {} given: GRID error E SPACING, "
            "GRID error E SPACING keep POINTS, or GRID budget BUDGET SPACING")
FIT_CHECK = ("certify check-fit wants 6 or 8 words behind it, {} were given: GRID OBJ CERT error E SPACING, "
             "GRID OBJ CERT error E SPACING keep POINTS, or GRID OBJ CERT budget BUDGET SPACING")
ERROR = "a number from 0 to 65535.999 with at most three places behind a point is wanted"
TASKS = "'make', 'check', 'make-fit' or 'check-fit'"


# Words that are no command, of each the line that names the first one that is wrong, and the words: in a list where one of
# them has a blank.
@table(
    "said, words",
    ("no_words", "no word is given, and a command is wanted", []),
    ("a_command_alone", f"mesh wants 5 words behind it, 0 were given: {FIVE}", "mesh"),
    ("four_words", f"mesh wants 5 words behind it, 3 were given: {FIVE}", "mesh g s out"),
    ("four_words_after_the_command", f"mesh wants 5 words behind it, 4 were given: {FIVE}", "mesh g s out 2"),
    ("six_words_after_the_command", f"mesh wants 5 words behind it, 6 were given: {FIVE}", "mesh g s out 2 1 1"),
    ("an_unknown_command", f"no command 'fly'; {COMMANDS}", "fly g s out 2 1"),
    ("a_letter_of_the_command_astray", f"no command 'mehs'; {COMMANDS}", "mehs g s out 2 1"),
    ("an_empty_command", f"no command ''; {COMMANDS}", " g s out 2 1"),
    ("info_without_a_grid", "info wants 1 word behind it, 0 were given: GRID", "info"),
    ("info_with_a_script", "info wants 1 word behind it, 2 were given: GRID", "info g s"),
    ("a_level_of_0", "N is '0': a whole number from 1 to 11 is wanted", "try 0 1"),
    ("an_empty_level", "N is '': a whole number from 1 to 11 is wanted", "try  1"),
    ("a_level_of_12", "N is '12': a whole number from 1 to 11 is wanted", "try 12 1"),
    ("a_seed_beyond_the_greatest", "SEED is '4294967296': a whole number from 0 to 4294967295 is wanted",
     "try 9 4294967296"),
    ("a_seed_with_a_sign", "SEED is '-1': a whole number from 0 to 4294967295 is wanted", "try 9 -1"),
    ("info_with_the_words_of_mesh", "info wants 1 word behind it, 5 were given: GRID", "info g s out 2 1"),
    ("a_command_in_capitals", f"no command 'MESH'; {COMMANDS}", "MESH g s out 2 1"),
    ("a_budget_of_1", f"BUDGET is '1': {BUDGET}", "mesh g s out 1 1"),
    ("a_budget_of_0", f"BUDGET is '0': {BUDGET}", "mesh g s out 0 1"),
    ("a_budget_that_is_no_number", f"BUDGET is '2x': {BUDGET}", "mesh g s out 2x 1"),
    ("a_budget_with_a_comma", f"BUDGET is '2,000': {BUDGET}", "mesh g s out 2,000 1"),
    ("a_budget_beyond_the_greatest", f"BUDGET is '1048577': {BUDGET}", "mesh g s out 1048577 1"),
    ("a_budget_of_20_digits", f"BUDGET is '00000000000000000002': {BUDGET}", "mesh g s out 00000000000000000002 1"),
    ("a_budget_with_a_sign", f"BUDGET is '+2': {BUDGET}", "mesh g s out +2 1"),
    ("a_budget_with_a_blank", f"BUDGET is '2 ': {BUDGET}", ["mesh", "g", "s", "out", "2 ", "1"]),
    ("a_budget_with_a_line_feed", f"BUDGET is '2?': {BUDGET}", ["mesh", "g", "s", "out", "2\n", "1"]),
    ("an_empty_budget", f"BUDGET is '': {BUDGET}", "mesh g s out  1"),
    ("a_spacing_of_0", "SPACING is '0': a whole number from 1 to 1024 is wanted", "mesh g s out 2 0"),
    ("a_spacing_of_1025", "SPACING is '1025': a whole number from 1 to 1024 is wanted", "mesh g s out 2 1025"),
    ("a_spacing_that_is_no_number", "SPACING is 'one': a whole number from 1 to 1024 is wanted", "mesh g s out 2 one"),
    ("an_empty_spacing", "SPACING is '': a whole number from 1 to 1024 is wanted", "mesh g s out 2 "),
    ("the_first_of_two_wrong_words", f"BUDGET is 'b': {BUDGET}", "mesh g s out b s"),
    ("a_wrong_word_of_too_many",
     f"BUDGET is 'out': {BUDGET}; measure wants 4 words behind it, 5 were given: GRID SCRIPT BUDGET SPACING",
     "measure g s out 2 1"),
    ("a_measure_of_a_spacing_of_1025", "SPACING is '1025': a whole number from 1 to 1024 is wanted", "measure g s 4 1025"),
    ("an_empty_prefix", "PREFIX is '': 1 to 200 bytes are wanted", "mesh g s  2 1"),
    ("a_prefix_of_201_bytes", f"PREFIX is '{LONG[:100]}..': 1 to 200 bytes are wanted",
     ["mesh", "g", "s", LONG + "0", "2", "1"]),
    ("a_strip_of_budget_1", f"BUDGET is '1': {BUDGET}", "strip g s out 1 1"),
    ("a_tolerance_beyond_the_greatest", "TOLERANCE is '1000000000000': a whole number from 0 to 999999999999 is wanted",
     "least g s out 1000000000000 1"),
    ("a_tolerance_that_is_no_number", "TOLERANCE is '-1': a whole number from 0 to 999999999999 is wanted",
     "least g s out -1 1"),
    ("least_with_an_empty_prefix", "PREFIX is '': 1 to 200 bytes are wanted", "least g s  2 1"),
    ("least_without_a_tolerance", "least wants 5 words behind it, 4 were given: GRID SCRIPT PREFIX TOLERANCE SPACING",
     "least g s out 1"),
    ("fit_without_a_number", FIT.format("2"), "fit g out"),
    ("fit_without_a_spacing", FIT.format("4"), "fit g out error 1"),
    ("fit_of_a_budget_with_one_word_more", FIT.format("6"), "fit g out budget 2 1 1"),
    ("fit_of_an_error_with_one_word_more", "fit wants 'keep' and POINTS behind SPACING, or nothing, and not '1'",
     "fit g out error 1 1 1"),
    ("fit_with_another_word_for_keep", "fit wants 'keep' and POINTS behind SPACING, or nothing, and not 'Keep'",
     "fit g out error 1 1 Keep p"),
    ("fit_that_keeps_without_points", FIT.format("6"), "fit g out error 1 1 keep"),
    ("fit_that_keeps_two_files", FIT.format("8"), "fit g out error 1 1 keep p q"),
    ("fit_of_a_budget_that_keeps_points", FIT.format("7"), "fit g out budget 2 1 keep p"),
    ("fit_that_keeps_with_a_wrong_error", f"E is '-1': {ERROR}", "fit g out error -1 1 keep p"),
    ("fit_with_another_word", "fit wants 'error' or 'budget' behind GRID PREFIX, and not 'errors'",
     "fit g out errors 1 1"),
    ("fit_with_an_empty_prefix", "PREFIX is '': 1 to 200 bytes are wanted", "fit g  error 1 1"),
    ("fit_of_budget_1", f"BUDGET is '1': {BUDGET}", "fit g out budget 1 1"),
    ("fit_of_a_budget_with_a_point", f"BUDGET is '2.0': {BUDGET}", "fit g out budget 2.0 1"),
    ("an_error_beyond_the_greatest", f"E is '65536': {ERROR}", "fit g out error 65536 1"),
    ("an_error_just_beyond_the_greatest", f"E is '65535.9991': {ERROR}", "fit g out error 65535.9991 1"),
    ("an_error_of_four_places", f"E is '1.0000': {ERROR}", "fit g out error 1.0000 1"),
    ("an_error_without_a_whole_number", f"E is '.5': {ERROR}", "fit g out error .5 1"),
    ("an_error_that_ends_in_a_point", f"E is '5.': {ERROR}", "fit g out error 5. 1"),
    ("an_error_with_two_points", f"E is '1.2.3': {ERROR}", "fit g out error 1.2.3 1"),
    ("an_error_with_a_comma", f"E is '1,5': {ERROR}", "fit g out error 1,5 1"),
    ("an_error_with_a_sign", f"E is '-1': {ERROR}", "fit g out error -1 1"),
    ("an_error_of_17_digits", f"E is '00000000000000001': {ERROR}", "fit g out error 00000000000000001 1"),
    ("an_empty_error", f"E is '': {ERROR}", "fit g out error  1"),
    ("fit_of_a_spacing_of_0", "SPACING is '0': a whole number from 1 to 1024 is wanted", "fit g out error 1 0"),
    ("certify_alone", f"certify wants {TASKS} behind it", "certify"),
    ("certify_with_another_word", f"certify wants {TASKS} behind it, and not 'see'", "certify see g o c 2 1"),
    ("a_check_without_a_spacing", "certify check wants 5 words behind it, 4 were given: GRID OBJ CERT BUDGET SPACING",
     "certify check g o c 2"),
    ("a_camera_beyond_the_greatest", f"Z is '1073741825': {REACH}", "certify make g 0 0 1073741825 2 1"),
    ("a_camera_that_is_no_number", f"Y is '+1': {REACH}", "certify make g 0 +1 0 2 1"),
    ("a_certificate_of_budget_1", f"BUDGET is '1': {BUDGET}", "certify make g 0 0 0 1 1"),
    ("a_fit_certificate_without_a_goal", FIT_MAKE.format("1 was"), "certify make-fit g"),
    ("a_fit_certificate_without_a_spacing", FIT_MAKE.format("3 were"), "certify make-fit g error 1"),
    ("a_fit_certificate_with_one_word_more", "certify make-fit wants 'keep' and POINTS behind SPACING, or nothing, and not '1'",
     "certify make-fit g error 1 1 1"),
    ("a_fit_certificate_that_keeps_without_points", FIT_MAKE.format("5 were"), "certify make-fit g error 1 1 keep"),
    ("a_fit_certificate_that_keeps_two_files", FIT_MAKE.format("7 were"), "certify make-fit g error 1 1 keep p q"),
    ("a_fit_certificate_of_a_budget_that_keeps", FIT_MAKE.format("6 were"), "certify make-fit g budget 2 1 keep p"),
    ("a_fit_certificate_with_another_word", "certify make-fit wants 'error' or 'budget' behind GRID, and not 'errors'",
     "certify make-fit g errors 1 1"),
    ("a_fit_certificate_of_budget_1", f"BUDGET is '1': {BUDGET}", "certify make-fit g budget 1 1"),
    ("a_fit_certificate_of_too_great_an_error", f"E is '65536': {ERROR}", "certify make-fit g error 65536 1"),
    ("a_fit_certificate_of_a_spacing_of_0", "SPACING is '0': a whole number from 1 to 1024 is wanted",
     "certify make-fit g budget 2 0"),
    ("a_check_of_a_fit_without_a_spacing", FIT_CHECK.format("5"), "certify check-fit g o c budget 2"),
    ("a_check_of_a_fit_that_keeps_without_points", FIT_CHECK.format("7"), "certify check-fit g o c error 1 1 keep"),
    ("a_check_of_a_fit_that_keeps_two_files", FIT_CHECK.format("9"), "certify check-fit g o c error 1 1 keep p q"),
    ("a_check_of_a_fit_of_a_budget_that_keeps", FIT_CHECK.format("8"), "certify check-fit g o c budget 2 1 keep p"),
    ("a_check_of_a_fit_with_another_word_for_keep",
     "certify check-fit wants 'keep' and POINTS behind SPACING, or nothing, and not 'hold'",
     "certify check-fit g o c error 1 1 hold p"),
    ("a_check_of_a_fit_by_the_words_of_a_check", "certify check-fit wants 'error' or 'budget' behind GRID OBJ CERT, and not '2'",
     "certify check-fit g o c 2 1"),
    ("a_check_of_a_fit_of_an_error_without_a_number", f"E is '-1': {ERROR}", "certify check-fit g o c error -1 1"),
)
def test_usage(place: Place, said: str, words: Union[str, list[str]]) -> None:
    place.run(*(words.split(" ") if isinstance(words, str) else words))
    place.expect(2, said=f"roam: {said}")
    assert place.said.splitlines()[0] == f"roam: {said}"


# The forms of the words for whoever asks, without a complaint.
@table(
    "words",
    ("usage_asked_by_--help", "--help"),
    ("usage_asked_by_-h", "-h"),
    ("usage_asked_by_help", "help"),
    ("usage_asked_by_mesh_--help", "mesh --help"),
)
def test_help(place: Place, words: str) -> None:
    place.run(*words.split())
    place.expect(2, said="usage: roam mesh GRID SCRIPT PREFIX BUDGET SPACING")
    assert not place.said.startswith("roam: ")


def test_the_version_is_that_of_the_changes(place: Place) -> None:
    place.run("--version")
    version = re.search(r"^Version ([0-9.]*[0-9])\.?[:,.]", (TOP / "CHANGELOG.md").read_text(), re.MULTILINE)
    assert version and (place.status, place.report, place.said) == (2, b"", f"roam {version[1]}\n")


def test_a_budget_of_19_digits_and_the_greatest_spacing(place: Place) -> None:
    place.run("mesh", "g", "s", "out", "0000000000001048576", 1024)
    place.expect(0, lines(1), meshes=1, mesh=b"v 0 0 0\nv 2048 0 0\nv 0 2048 0\nv 2048 2048 0\nf 1 2 3\nf 4 3 2\n")


def test_a_word_that_is_not_utf_8(place: Place) -> None:
    place.run("mesh", "g", "s", b"out\xff", 2, 1)
    place.expect(8)


# --- Names of files. ---

@table(
    "grid, script, prefix",
    ("a_prefix_of_200_bytes", "g", "s", LONG),
    ("a_prefix_in_a_folder", "g", "s", "meshes/frame-"),
    ("names_with_blanks_and_letters_beyond_ascii", "a grid.pgm", "größe", "a mesh "),
    ("names_with_blanks_at_their_ends", " g ", " s ", " out "),
)
def test_names(place: Place, grid: str, script: str, prefix: str) -> None:
    (place.folder / "meshes").mkdir()
    os.rename(place.folder / "g", place.folder / grid)
    os.rename(place.folder / "s", place.folder / script)
    place.run("mesh", grid, script, prefix, 2, 1)
    place.expect(0, lines(1), meshes=1, prefix=prefix)


def test_names_with_a_blank_are_not_those_without(place: Place) -> None:
    place.run("mesh", " g", "s", "out", 2, 1)
    place.expect(5, said="roam: cannot open the grid ' g': No such file or directory")


def test_a_mesh_replaces_a_longer_file(place: Place) -> None:
    place.write("out000001.obj", bytes(1000))
    place.run("mesh", "g", "s", "out", 2, 1)
    place.expect(0, lines(1), meshes=1)

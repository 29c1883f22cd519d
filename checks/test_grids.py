"""Grids of each form before the built program: which are accepted and as what, which are refused and by which words."""
from __future__ import annotations

from collections.abc import Callable
from typing import Any

from place import Place, flat, flat_mesh, lines, spots, table
from terrain import Terrain


@table("side", *((f"a_grid_of_side_{2 ** k + 1}", 2 ** k + 1) for k in range(1, 12)))
def test_side(place: Place, side: int) -> None:
    place.write("g", flat(side))
    place.run("mesh", "g", "s", "out", 2, 1)
    place.expect(0, lines(1), meshes=1, mesh=flat_mesh(side - 1))


def test_heights_of_the_four_corners(place: Place) -> None:
    # The first row of samples is the far side (the greatest y); of a sample's two bytes the first counts 256. The heights but
    # those of the corners are 0. Triangle 3 has its own deviation, 65535 + 3, and that of its child 7, 65535 + 513: 131586 half
    # units of height, seen from within its box.
    place.write("g", b"P5\n3 3\n65535\n" + bytes([0, 3, 0, 0, 2, 1, 0, 0, 0, 0, 0, 0, 1, 2, 0, 0, 255, 255]))
    place.run("mesh", "g", "s", "out", 2, 1)
    place.expect(0, lines(1, 131586 * 65536, "3 needs 4"), meshes=1,
                 mesh=b"v 0 0 258\nv 2 0 65535\nv 0 2 3\nv 2 2 513\nf 1 2 3\nf 4 3 2\n")


# --- Grids in other forms. A is the byte 65, K is 75. ---

# Of each the file, and the line of `info`. Where only the middle one of nine heights differs, the thickness is twice as much
# as it differs.
@table(
    "grid, line",
    ("one_byte_a_sample", b"P5\n3 3\n255\nAAAAKAAAA", "side 3 maxval 255 low 65 high 75 thickness 20"),
    ("a_maxval_that_is_the_greatest_height", b"P5\n3 3\n75\nAAAAKAAAA", "side 3 maxval 75 low 65 high 75 thickness 20"),
    ("the_least_maxval", b"P5\n3 3\n1\n\x00\x00\x00\x00\x01\x00\x00\x00\x00",
     "side 3 maxval 1 low 0 high 1 thickness 2"),
    ("two_bytes_a_sample_from_256_on", b"P5\n3 3\n256\n\x00\x00\x00\x00\x00\x00\x00\x00\x01\x00\x00\x00\x00\x00\x00\x00\x00\x00",
     "side 3 maxval 256 low 0 high 256 thickness 512"),
    ("blanks_between_the_parts_of_a_header", b"P5 3 3 255 AAAAKAAAA", "side 3 maxval 255 low 65 high 75 thickness 20"),
    ("tabs_between_the_parts_of_a_header", b"P5\t3\t3\t255\tAAAAKAAAA",
     "side 3 maxval 255 low 65 high 75 thickness 20"),
    ("cr_between_the_parts_of_a_header", b"P5\r3 3\r255\rAAAAKAAAA", "side 3 maxval 255 low 65 high 75 thickness 20"),
    ("cr_and_lf_before_the_maxval", b"P5\r\n3 3\r\n255\nAAAAKAAAA", "side 3 maxval 255 low 65 high 75 thickness 20"),
    ("long_gaps", b"P5 \t\r\n\n 3\n\n\n3\t\t255\nAAAAKAAAA", "side 3 maxval 255 low 65 high 75 thickness 20"),
    ("leading_zeros_up_to_nine_digits", b"P5\n000000003 03\n000000255\nAAAAKAAAA",
     "side 3 maxval 255 low 65 high 75 thickness 20"),
    ("a_comment_line", b"P5\n# made by hand\n3 3\n255\nAAAAKAAAA", "side 3 maxval 255 low 65 high 75 thickness 20"),
    ("comments_in_every_gap", b"P5 # one\n#two\r\n 3\t#3 3\n3 #\n# 255\n\t255\nAAAAKAAAA",
     "side 3 maxval 255 low 65 high 75 thickness 20"),
    ("a_comment_that_a_cr_ends", b"P5\r#x\r3 3\r255\rAAAAKAAAA", "side 3 maxval 255 low 65 high 75 thickness 20"),
    ("a_number_sign_in_a_comment", b"P5\n# a # b ## c\n3 3\n255\nAAAAKAAAA",
     "side 3 maxval 255 low 65 high 75 thickness 20"),
    ("bytes_beyond_ascii_in_a_comment", b"P5\n#\xff\x00\x01\n3 3\n255\nAAAAKAAAA",
     "side 3 maxval 255 low 65 high 75 thickness 20"),
    ("whitespace_as_samples", b"P5\n3 3\n255\n\n\n\n\nK\n\n\n\n", "side 3 maxval 255 low 10 high 75 thickness 130"),
    ("a_number_sign_as_first_sample", b"P5\n3 3\n255\n#AAAKAAAA", "side 3 maxval 255 low 35 high 75 thickness 80"),
    ("plain", b"P2\n3 3\n65535\n0 0 0\n0 10 0\n0 0 0\n", "side 3 maxval 65535 low 0 high 10 thickness 20"),
    ("plain_with_comments_in_the_header", b"P2\n# a\n3 # b\n3\n#c\n255\n65 65 65 65 75 65 65 65 65\n",
     "side 3 maxval 255 low 65 high 75 thickness 20"),
    ("plain_with_a_comment_that_a_cr_ends", b"P2 #\r#9\n 3 # x\n3\n#\n9\n0 0 0 0 9 0 0 0 0",
     "side 3 maxval 9 low 0 high 9 thickness 18"),
    ("plain_that_rises_evenly", b"P2\n3 3\n9\n1 2 3\n4 5 6\n7 8 9\n", "side 3 maxval 9 low 1 high 9 thickness 0"),
    ("plain_with_whitespace_of_each_kind", b"P2\n3 3\n9\n\t\r\n 0 0\t0\r0\r\n9 0 00 000000000 0\n\n \t",
     "side 3 maxval 9 low 0 high 9 thickness 18"),
    ("plain_without_a_last_lf", b"P2\n3 3\n65535\n0 0 0 0 0 0 0 0 65535",
     "side 3 maxval 65535 low 0 high 65535 thickness 131070"),
    ("plain_in_one_line", b"P2 3 3 9 0 0 0 0 9 0 0 0 0", "side 3 maxval 9 low 0 high 9 thickness 18"),
)
def test_form(place: Place, grid: bytes, line: str) -> None:
    place.write("g", grid)
    place.run("info", "g")
    place.expect(0, f"{line}\n".encode())


# The same nine heights in five forms: one line of a frame and one mesh. The camera is 65 below the box of each base triangle,
# so their priority is 65536 * 20 / 66, rounded down.
@table(
    "grid",
    ("the_mesh_of_a_grid_of_two_bytes_a_sample", b"P5\n3 3\n65535\n\x00A\x00A\x00A\x00A\x00K\x00A\x00A\x00A\x00A"),
    ("the_mesh_of_a_grid_of_one_byte_a_sample", b"P5\n3 3\n255\nAAAAKAAAA"),
    ("the_mesh_of_a_grid_with_comments", b"P5\n# made by hand\n3 3 #\n75\nAAAAKAAAA"),
    ("the_mesh_of_a_plain_grid", b"P2\n3 3\n75\n65 65 65\n65 75 65\n65 65 65\n"),
    ("the_mesh_of_a_plain_grid_with_a_comment", b"P2 #\n3 3 1000 65 65 65 65 75 65 65 65 65"),
)
def test_mesh_of_form(place: Place, grid: bytes) -> None:
    place.write("g", grid)
    place.run("mesh", "g", "s", "out", 2, 1)
    place.expect(0, lines(1, 19859, "2 needs 4"), meshes=1,
                 mesh=b"v 0 0 65\nv 2 0 65\nv 0 2 65\nv 2 2 65\nf 1 2 3\nf 4 3 2\n")


# --- Refused grids. ---

# Of each a header, a number of zero bytes behind it, and the refusal.
@table(
    "header, zeros, refusal",
    ("an_empty_grid_is_truncated", b"", 0, "truncated"),
    ("a_grid_of_one_byte_is_truncated", b"P", 0, "truncated"),
    ("a_header_without_its_last_byte_is_truncated", b"P5\n3 3\n65535", 0, "truncated"),
    ("a_header_alone_is_truncated", b"P5\n3 3\n65535\n", 0, "truncated"),
    ("a_grid_of_30_bytes_is_truncated", b"P5\n3 3\n65535\n", 17, "truncated"),
    ("a_byte_after_the_last_sample", b"P5\n3 3\n65535\n", 19, "trailing byte at 31"),
    ("a_thousand_bytes_after_the_last_sample", b"P5\n3 3\n65535\n", 1018, "trailing byte at 31"),
    ("a_byte_after_the_last_sample_of_side_2049", b"P5\n2049 2049\n65535\n", 8396803, "trailing byte at 8396821"),
    ("a_grid_of_side_2049_that_lacks_a_byte", b"P5\n2049 2049\n65535\n", 8396801, "truncated"),
    ("a_side_that_is_no_power_of_two_and_one", b"P5\n4 4\n65535\n", 32, "bad side"),
    ("a_height_other_than_the_width", b"P5\n3 5\n65535\n", 30, "not square"),
    ("a_maxval_beyond_the_greatest", b"P5\n3 3\n65536\n", 18, "bad maxval"),
)
def test_refused_by_length(place: Place, header: bytes, zeros: int, refusal: str) -> None:
    place.write("g", header + bytes(zeros))
    place.run("mesh", "g", "s", "out", 2, 1)
    place.expect(3, f"grid refused: {refusal}\n".encode())


@table("at", *((f"a_wrong_header_byte_at_{at}", at) for at in range(13)))
def test_wrong_byte(place: Place, at: int) -> None:
    header = b"P5\n3 3\n65535\n"
    place.write("g", header[:at] + b"x" + header[at + 1:] + bytes(18))
    place.run("mesh", "g", "s", "out", 2, 1)
    place.expect(3, b"grid refused: bad magic\n" if at < 2 else b"grid refused: bad header at %d\n" % at)


# Of each place in a file: its first bytes up to there, and an x; an x put in; and its first bytes alone.

def expect_refused(place: Place, grid: bytes, refusal: str) -> None:
    place.write("g", grid)
    place.run("info", "g")
    place.expect(3, f"grid refused: {refusal}\n".encode())


def header_refusal(at: int) -> str:
    return "bad magic" if at < 2 else f"bad header at {at}"


def test_a_byte_in_the_place_of_the_rest(place: Place) -> None:
    grid = flat(3)
    for at in [*range(30), 31]:
        expect_refused(place, grid[:at] + b"x",
                       header_refusal(at) if at < 13 else "trailing byte at 31" if at == 31 else "truncated")
    # The last sample, of the corner (2, 0), is 120: the base triangles have thickness 120 + 120.
    place.write("g", grid[:30] + b"x")
    place.run("mesh", "g", "s", "out", 2, 1)
    assert (place.status, place.report) == (0, lines(1, 15728640, "2 needs 4"))


def test_a_byte_in_the_way(place: Place) -> None:
    grid = spots(5, (1, 0, 10), (3, 4, 10))
    for at in range(len(grid) + 1):
        expect_refused(place, grid[:at] + b"x" + grid[at:], header_refusal(at) if at < 13 else "trailing byte at 63")


def test_a_grid_that_is_cut_at_any_place(place: Place) -> None:
    grid = spots(5, (1, 0, 10), (3, 4, 10))
    for size in range(len(grid)):
        expect_refused(place, grid[:size], "truncated")


# Of each the file, and the refusal.
@table(
    "grid, refusal",
    ("a_colour_image", b"P6\n3 3\n255\n", "bad magic"),
    ("a_bitmap", b"P4\n3 3\n", "bad magic"),
    ("a_plain_bitmap", b"P1", "bad magic"),
    ("a_plain_colour_image", b"P3 3 3 1 ", "bad magic"),
    ("a_digit_alone", b"5", "bad magic"),
    ("a_second_p", b"PP", "bad magic"),
    ("a_blank_behind_the_p", b"P ", "bad magic"),
    ("a_number_sign_behind_the_p", b"P#", "bad magic"),
    ("a_small_p", b"p5\n3 3\n255\nAAAAKAAAA", "bad magic"),
    ("an_lf_before_the_magic", b"\nP5\n3 3\n255\nAAAAKAAAA", "bad magic"),
    ("a_mark_of_utf_8_before_the_magic", b"\xef\xbb\xbfP5\n3 3\n255\nAAAAKAAAA", "bad magic"),
    ("a_digit_after_the_magic", b"P53 3\n255\nAAAAKAAAA", "bad header at 2"),
    ("a_comment_directly_after_the_magic", b"P5# x\n3 3\n255\nAAAAKAAAA", "bad header at 2"),
    ("a_number_with_a_sign", b"P5\n-3 3\n255\nAAAAKAAAA", "bad header at 3"),
    ("a_number_with_a_point", b"P5\n3.0 3\n255\nAAAAKAAAA", "bad header at 4"),
    ("a_comment_directly_after_the_width", b"P5\n3# x\n3\n255\nAAAAKAAAA", "bad header at 4"),
    ("a_comment_directly_after_the_maxval", b"P5\n3 3\n255# x\nAAAAKAAAA", "bad header at 10"),
    ("a_letter_after_a_comment", b"P5\n# a\n x3 3\n255\nAAAAKAAAA", "bad header at 8"),
    ("a_comment_that_hides_the_width", b"P5\n# 3\n3\n255\nAAAAKAAAA", "bad header at 13"),
    ("a_tenth_digit_in_the_header", b"P5\n0000000003 3\n255\nAAAAKAAAA", "bad header at 12"),
    ("a_tenth_digit_of_the_height", b"P5 3 1234567890 ", "bad header at 14"),
    ("a_tenth_digit_of_the_maxval", b"P2 3 3 0000065535 ", "bad header at 16"),
    ("a_vertical_tab_behind_the_magic", b"P5\x0b3 3 1 ", "bad header at 2"),
    ("a_form_feed_behind_the_width", b"P5 3\x0c3 1 ", "bad header at 4"),
    ("a_wrong_byte_at_the_last_place_of_a_header", b"P5\n" + 65_532 * b" " + b"x", "bad header at 65535"),
    ("a_plain_header_of_blanks", b"P2" + 65_536 * b" ", "header too long"),
    ("a_file_that_ends_in_nine_digits", b"P5 123456789", "truncated"),
    ("a_zero_byte_in_a_gap", b"P5\n\x003 3\n255\nAAAAKAAAA", "bad header at 3"),
    ("a_form_feed_in_a_gap", b"P5\n\x0c3 3\n255\nAAAAKAAAA", "bad header at 3"),
    ("a_file_that_ends_in_a_comment", b"P5\n# 3 3", "truncated"),
    ("a_file_that_ends_in_the_maxval", b"P5\n4 5\n0", "truncated"),
    ("a_maxval_of_0", b"P5\n3 3\n0\nAAAAKAAAA", "bad maxval"),
    ("a_maxval_of_nine_digits", b"P5\n3 3\n999999999\nAAAAKAAAA", "bad maxval"),
    ("a_bad_maxval_comes_before_the_sides", b"P5\n4 5\n0\n", "bad maxval"),
    ("not_square_comes_before_the_side", b"P5\n4 5\n255\n", "not square"),
    ("a_side_of_0", b"P5\n0 0\n255\n", "bad side"),
    ("a_side_of_1", b"P5\n1 1\n255\nA", "bad side"),
    ("a_side_of_2", b"P5\n2 2\n255\nAAAA", "bad side"),
    ("a_side_of_256", b"P5\n256 256\n255\nAAAA", "bad side"),
    ("a_side_of_2048", b"P5\n2048 2048\n255\nAAAA", "bad side"),
    ("a_side_of_4097", b"P5\n4097 4097\n255\n", "bad side"),
    ("a_plain_grid_of_side_4", b"P2\n4 4\n255\n", "bad side"),
    ("a_grid_of_one_byte_a_sample_that_lacks_one", b"P5\n3 3\n255\nAAAAKAAA", "truncated"),
    ("an_lf_after_the_last_sample", b"P5\n3 3\n255\nAAAAKAAAA\n", "trailing byte at 20"),
    ("cr_and_lf_after_the_maxval", b"P5\r\n3 3\r\n255\r\nAAAAKAAAA", "trailing byte at 22"),
    ("a_comment_line_after_the_maxval", b"P5\n3 3\n255\n# x\nAAAAKAAAA", "trailing byte at 20"),
    ("a_comment_behind_the_maxval", b"P5\n3 3\n255 # x\nAAAAKAAAA", "trailing byte at 20"),
    ("two_images_in_a_file", b"P5\n3 3\n255\nAAAAKAAAAP5\n3 3\n255\nAAAAKAAAA", "trailing byte at 20"),
    ("plain_samples_after_a_raw_header", b"P5\n3 3\n255\n0 0 0 0 0 0 0 0 0\n", "trailing byte at 20"),
    ("a_sample_of_one_byte_above_the_maxval", b"P5\n3 3\n74\nAAAAKAAAA", "above maxval at sample 4"),
    ("a_sample_of_two_bytes_above_the_maxval", b"P5\n3 3\n256\n\x01\x01\x00\x00", "above maxval at sample 0"),
    ("a_last_sample_of_two_bytes_above_the_maxval", b"P5\n3 3\n300\n" + bytes(16) + b"\x01\x2d\0",
     "above maxval at sample 8"),
    ("a_trailing_byte_above_the_maxval", b"P5\n3 3\n75\nAAAAKAAAAZ", "trailing byte at 19"),
    ("half_a_sample_is_no_sample", b"P5\n3 3\n256\n\x02", "truncated"),
    ("above_maxval_comes_before_truncated", b"P5\n3 3\n74\nAAAAK", "above maxval at sample 4"),
    ("above_maxval_comes_before_a_trailing_byte", b"P5\n3 3\n74\nAAAAAAAAKAA", "above maxval at sample 8"),
    ("least_significant_byte_first", b"P5\n3 3\n1000\n\x01\x00\xff\x00", "above maxval at sample 1"),
    ("raw_samples_after_a_plain_header", b"P2\n3 3\n255\nAAAAKAAAA", "bad sample at 11"),
    ("a_letter_in_a_plain_raster", b"P2\n3 3\n9\n0 0 0\n0 x 0\n0 0 0\n", "bad sample at 17"),
    ("a_sign_in_a_plain_raster", b"P2\n3 3\n9\n-1 0 0 0 0 0 0 0 0\n", "bad sample at 9"),
    ("a_comment_line_in_a_plain_raster", b"P2\n3 3\n9\n# x\n0 0 0 0 0 0 0 0 0\n", "bad sample at 9"),
    ("a_comment_between_plain_samples", b"P2\n3 3\n9\n0 0 0 # top\n0 0 0 0 0 0\n", "bad sample at 15"),
    ("a_tenth_digit_of_a_sample", b"P2\n3 3\n9\n0000000000 0 0 0 0 0 0 0 0\n", "bad sample at 18"),
    ("a_sample_of_nine_digits_above_the_maxval", b"P2\n3 3\n9\n999999999 0 0 0 0 0 0 0 0\n",
     "above maxval at sample 0"),
    ("a_plain_sample_above_the_maxval", b"P2\n3 3\n9\n0 0 0\n0 10 0\n0 0 0\n", "above maxval at sample 4"),
    ("a_pending_sample_above_the_maxval", b"P2\n3 3\n9\n0 0 0 0 0 0 0 0 10", "above maxval at sample 8"),
    ("a_pending_sample_comes_before_truncated", b"P2\n3 3\n9\n0 0 0 0 10", "above maxval at sample 4"),
    ("above_maxval_comes_before_a_later_bad_sample", b"P2\n3 3\n9\n0 0 0 0 10 x", "above maxval at sample 4"),
    ("a_bad_sample_comes_before_above_maxval", b"P2\n3 3\n9\n10x", "bad sample at 11"),
    ("eight_plain_samples", b"P2\n3 3\n9\n0 0 0 0 0 0 0 0\n", "truncated"),
    ("a_plain_header_alone", b"P2\n3 3\n9\n", "truncated"),
    ("ten_plain_samples", b"P2\n3 3\n9\n0 0 0 0 0 0 0 0 0 0\n", "trailing byte at 27"),
    ("a_letter_directly_after_the_last_plain_sample", b"P2\n3 3\n9\n0 0 0 0 0 0 0 0 0x", "bad sample at 26"),
    ("a_comment_after_the_last_plain_sample", b"P2\n3 3\n9\n0 0 0 0 0 0 0 0 0\n# end\n", "trailing byte at 27"),
)
def test_refused(place: Place, grid: bytes, refusal: str) -> None:
    place.write("g", grid)
    place.run("info", "g")
    place.expect(3, f"grid refused: {refusal}\n".encode())


@table(
    "grid",
    ("each_prefix_of_a_raw_grid_is_truncated", b"P5\n3 3\n65535\n" + bytes(18)),
    ("each_prefix_of_a_header_with_a_comment_is_truncated", b"P5 # a comment\n 3 3 65535 "),
    ("each_prefix_of_a_plain_grid_is_truncated", b"P2 3 3 9\n5 0 0 0 0 0 0 0 0"),
)
def test_prefixes(place: Place, grid: bytes) -> None:
    for length in range(len(grid)):
        place.write("g", grid[:length])
        place.run("info", "g")
        place.expect(3, b"grid refused: truncated\n")


# 4,225 samples, each the last two digits of its place and so much more: longer than a block of a kernel and than a chunk of the
# reader. The thickness is that of terrain.py; and the first of the greatest is refused where it is too large.
@table(
    "more, written",
    ("many_samples_of_one_byte", 0, lambda samples, maxval: b"P5 65 65 %d " % maxval + bytes(samples)),
    ("many_samples_of_two_bytes", 300,
     lambda samples, maxval: b"P5 65 65 %d " % maxval + b"".join(it.to_bytes(2, "big") for it in samples)),
    ("many_plain_samples", 1000, lambda samples, maxval: b"P2 65 65 %d\n" % maxval + b"\n".join(b"%d" % it for it in samples)),
)
def test_many_samples(place: Place, more: int, written: Callable[[list[int], int], bytes]) -> None:
    samples = [more + at % 100 for at in range(65 * 65)]
    plain = Terrain((6, 65535, {(x, 64 - row): samples[65 * row + x] for row in range(65) for x in range(65)}), 1, 2)
    thickness = max(plain.wedge(2)[0], plain.wedge(3)[0])
    place.write("g", written(samples, more + 99))
    place.run("info", "g")
    place.expect(0, b"side 65 maxval %d low %d high %d thickness %d\n" % (more + 99, more, more + 99, thickness))
    place.write("g", written(samples, more + 98))
    place.run("info", "g")
    place.expect(3, b"grid refused: above maxval at sample 99\n")


# A header with a comment of so many bytes has 13 bytes more than the comment's text.
@table(
    "length, status, line",
    ("a_header_of_65536_bytes", 65_523, 0, b"side 3 maxval 255 low 65 high 75 thickness 20\n"),
    ("a_header_of_65537_bytes", 65_524, 3, b"grid refused: header too long\n"),
    ("a_header_that_is_one_comment", 1_000_000, 3, b"grid refused: header too long\n"),
)
def test_long_header(place: Place, length: int, status: int, line: bytes) -> None:
    place.write("g", b"P5\n#" + length * b"x" + b"\n3 3\n255\nAAAAKAAAA")
    place.run("info", "g")
    place.expect(status, line)


# A plain grid has 34 bytes with whitespace behind its last sample; further whitespace fills the file.
@table(
    "more, status, line",
    ("a_plain_grid_of_the_most_bytes", b"", 0, b"side 3 maxval 9 low 0 high 9 thickness 18\n"),
    ("a_plain_grid_of_one_byte_more", b"x", 3, b"grid refused: file too long\n"),
)
def test_longest_file(place: Place, request: Any, more: bytes, status: int, line: bytes) -> None:
    grid = place.folder / "g"
    request.addfinalizer(grid.unlink)
    blanks, left = 2 ** 20 * b" ", 268_435_456 - 34
    with open(grid, "wb") as out:
        out.write(b"P2\n3 3\n9\n0 0 0 0 9 0 0 0 0\n\n\n\n\n\n\n\n")
        while left:
            left -= out.write(blanks[:left])
        out.write(more)
    place.run("info", "g")
    place.expect(status, line)


# --- What standard error adds to a refusal. ---

# Of each the file, the refusal, and the hint.
@table(
    "grid, refusal, hint",
    ("hint_png", b"\x89PNG\r\n", "bad magic", "the file looks like a PNG image; a grid begins with P5 or P2"),
    ("hint_tiff", b"II*\x00", "bad magic", "the file looks like a TIFF image; a grid begins with P5 or P2"),
    ("hint_tiff_of_the_other_order", b"MM\x00*", "bad magic",
     "the file looks like a TIFF image; a grid begins with P5 or P2"),
    ("hint_gzip", b"\x1f\x8b\x08", "bad magic",
     "the file looks like gzip data, which has to be unpacked; a grid begins with P5 or P2"),
    ("hint_zip", b"PK\x03\x04", "bad magic",
     "the file looks like a zip archive, which has to be unpacked; a grid begins with P5 or P2"),
    ("hint_script", b"camera 0 0 0\nframe\n", "bad magic",
     "the file looks like a script, whose name stands behind that of the grid; a grid begins with P5 or P2"),
    ("hint_colour_image", b"P6\n3 3\n255\n", "bad magic",
     "the file looks like a Netpbm colour image, and not a PGM file; a grid begins with P5 or P2"),
    ("hint_other_bytes", b"\x01\x02\x03", "bad magic", "the file is no PGM file; a grid begins with P5 or P2"),
    ("hint_side_of_3601", b"P5\n3601 3601\n65535\n", "bad side",
     "the side is 3601; 3, 5, 9, 17, 33, 65, 129, 257, 513, 1025 and 2049 are accepted, of which 2049 is nearest"),
    ("hint_side_of_1000", b"P5\n# made\n1000 1000\n255\n", "bad side",
     "the side is 1000; 3, 5, 9, 17, 33, 65, 129, 257, 513, 1025 and 2049 are accepted, of which 513 and 1025 are nearest"),
    ("hint_side_of_1", b"P5\n1 1\n255\nA", "bad side",
     "the side is 1; 3, 5, 9, 17, 33, 65, 129, 257, 513, 1025 and 2049 are accepted, of which 3 is nearest"),
    ("hint_rectangle", b"P5\n1201 1202\n255\n", "not square",
     "the grid is 1201 by 1202; width and height have to be equal"),
    ("hint_maxval_of_0", b"P5\n3 3\n0\n", "bad maxval", "the maxval is 0; 1 to 65535 is accepted"),
    ("hint_maxval_of_70000", b"P5\n3 3\n70000\n", "bad maxval", "the maxval is 70000; 1 to 65535 is accepted"),
    ("hint_header_with_a_sign", b"P5\n-3 3\n255\nAAAAKAAAA", "bad header at 3",
     "a header is P5 or P2, width, height and maxval, with whitespace behind each of them"),
    ("hint_little_endian", b"P5\n3 3\n1000\n\x01\x00\xff\x00", "above maxval at sample 1",
     "the maxval is 1000; of a sample's two bytes the most significant comes first, and these may stand the other way round"),
    ("hint_one_byte_above_the_maxval", b"P5\n3 3\n74\nAAAAKAAAA", "above maxval at sample 4", "the maxval is 74"),
    ("hint_empty", b"", "truncated", "the file is empty"),
    ("hint_too_short", b"P5\n3 3\n65535\nAAA", "truncated", "the file has 16 bytes, and its header asks for 31"),
    ("hint_within_the_header", b"P5\n3 3", "truncated",
     "the file has 6 bytes, and ends before its header or its samples do"),
    ("hint_plain_and_too_short", b"P2\n3 3\n9\n0 0 0 0 0 0 0 0\n", "truncated",
     "the file has 25 bytes, and ends before its header or its samples do"),
    ("hint_two_bytes_where_one_is_read", b"P5\n3 3\n255\nAAAAKAAAAA", "trailing byte at 20",
     "the header asks for 20 bytes, and the file goes on; with a maxval of at most 255 a raw sample is one byte"),
    ("hint_raw_behind_p2", b"P2\n3 3\n255\nAAAAKAAAA", "bad sample at 11",
     "behind a header of P2 stand decimal samples with whitespace between them, and no comments; raw ones want P5"),
)
def test_hint(place: Place, grid: bytes, refusal: str, hint: str) -> None:
    place.write("g", grid)
    place.run("info", "g")
    place.expect(3, f"grid refused: {refusal}\n".encode(), f"roam: {hint}")

"""The flight behind the viewer's page; checks/viewer.py flies it in a browser."""
import struct

import numpy as np
import pytest
from click.testing import CliRunner
from made import hills, write_tif

from calfrewin.flight import FRAME_HEAD, GROUND_HEAD, PAGE_HEAD, GridFlight
from calfrewin.fly import fly
from calfrewin.mesh import array_of


def flight(heights, most=2000, cell=30.0):
    return GridFlight(array_of(heights, cell=cell), most)


def pages_of(ground):
    """The head of an answer; of each page where it lies, and of those that came the heights."""
    head = GROUND_HEAD.unpack_from(ground)
    side, count = head[-2:]
    at = GROUND_HEAD.size + PAGE_HEAD.size * count
    squares = [PAGE_HEAD.unpack_from(ground, GROUND_HEAD.size + PAGE_HEAD.size * k) for k in range(count)]
    return head, squares, np.frombuffer(ground, "<u2", offset=at).reshape(-1, side, side)


def names_of(frame):
    return np.frombuffer(frame, "<u4", offset=FRAME_HEAD.size)


def test_a_raster_of_any_shape_lies_at_the_far_left_of_the_square():
    heights = hills(100, 70)
    it = flight(heights)
    (side, spacing, most, edits, columns, rows, of_page, _), squares, (numbers,) = pages_of(it.ground((-1,)))
    assert (side, most, edits, columns, rows, of_page) == (129, 2000, 0, 70, 100, 129) and squares == [(0, 0, 0, 0)]
    assert len(it.ground((0,))) == GROUND_HEAD.size + PAGE_HEAD.size
    unit = 30.0 / spacing
    assert np.abs(np.diff(numbers[:100, :70] * unit - heights, axis=1)).max() < 0.11


def test_a_frame_is_the_engines_mesh_with_its_names():
    it = flight(hills(65, 65), 500)
    frame = it.frame((500, 0, 1000, 1000, 5000))
    names = names_of(frame)
    assert struct.unpack_from("<I", frame, 8)[0] == len(names) <= 500
    assert sum(2.0 / 2 ** int(name).bit_length() for name in names) == 1
    assert np.array_equal(np.sort(it.engine.leaves()), np.sort(names))


def test_above_a_threshold_a_frame_has_fewer_triangles():
    it = flight(hills(65, 65), 8192)
    where = 1000, 1000, 5000
    finest, coarser = (it.frame((8192, threshold, *where)) for threshold in (0, 2000))
    assert len(names_of(coarser)) < len(names_of(finest)) and struct.unpack_from("<Q", coarser)[0] == 0
    assert np.array_equal(names_of(it.frame((8192, 0, *where))), names_of(finest))


def test_a_hill_stands_in_the_engine_and_on_the_page():
    it = flight(np.zeros((9, 9)), 128, 1.0)
    it.lift((4, 4, 2, 100))
    (*_, edits, _, _, _, _), _, (ground,) = pages_of(it.ground((0,)))
    assert edits == 1 and len(it.ground((1,))) == GROUND_HEAD.size + PAGE_HEAD.size
    assert ground[3:6, 3:6].tolist() == [[50, 50, 50], [50, 100, 50], [50, 50, 50]]
    it.frame((128, 0, 4, 4, 10))
    assert it.engine.deviation() == 0


@pytest.mark.parametrize("numbers, told", [((1, 2), "with 2 numbers"), ((1, 0, 0, 0, 0), "from 2 to"),
                                           ((2, 0, 1 << 31, 0, 0), "x is 2147483648"), ((2, -1, 0, 0, 0), "ratio is -1")])
def test_a_wrong_frame_names_what_is_wrong(numbers, told):
    with pytest.raises(ValueError, match=told):
        flight(np.zeros((9, 9)), 128, 1.0).frame(numbers)


@pytest.mark.parametrize("numbers, told", [((1, 2, 3), "with 3 numbers"), ((9, 0, 1, 1), "from 0 to 8"),
                                           ((0, 0, 65, 1), "radius from 1 to 64")])
def test_a_wrong_hill_names_what_is_wrong(numbers, told):
    with pytest.raises(ValueError, match=told):
        flight(np.zeros((9, 9)), 128, 1.0).lift(numbers)


def test_wrong_words_end_with_one_message(tmp_path):
    path = write_tif(tmp_path / "my.tif", hills(20, 30))
    for words, status, told in (([path, "--triangles", "1"], 2, "2<=x<=1048576"), ([path, "--window", "1,2"], 2, "COLUMN,ROW"),
                                ([str(tmp_path / "none.tif")], 1, "none.tif")):
        found = CliRunner().invoke(fly, words)
        assert found.exit_code == status and told in found.output, found.output

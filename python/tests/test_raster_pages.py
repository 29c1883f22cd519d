"""Pages of a raster: what they have at each point, and a flight over them."""
import tempfile

import numpy as np
import pytest
from click.testing import CliRunner
from hypothesis import given, strategies as st
from made import hills, write_tif
from test_fly import names_of, pages_of

from calfrewin import Square, World
from calfrewin.flight import GridFlight, WorldFlight
from calfrewin.fly import flight_of, fly
from calfrewin.heights import MOST_POINTS
from calfrewin.raster import open_raster
from calfrewin.raster_pages import RasterPages

numbers = st.integers(0, 2 ** 32 - 1)


def squares_of(it):
    n = (it.side - 1).bit_length() - 1
    return [Square(q, *place) for q in range(it.large - n, -1, -1) for place in np.ndindex(*2 * [2 ** (it.large - n - q)])]


def steps_of(it, square):
    """Rows and columns of the square's points, from the far left one of the terrain."""
    q, column, row = square
    span, at = (it.side - 1) << q, np.arange(it.side) << q
    return 2 ** it.large - (row + 1) * span + at, column * span + at


@given(st.tuples(*2 * [st.integers(2, 90)]), st.sampled_from([3, 5, 17]), st.integers(1, 3), numbers,
       st.sampled_from(["f4", "i2"]), st.sampled_from([0, 0.02, 0.5]), st.sampled_from([5, 33, 2049]))
def test_pages_have_the_rasters_heights_and_agree_at_points_that_they_share(shape, side, every, seed, kind, holes, kept):
    rng = np.random.default_rng(seed)
    heights = rng.uniform(-50, 900, shape).astype(kind)
    is_hole = rng.random(shape) < holes
    is_hole[::2 ** 6 * every, ::2 ** 6 * every] = False  # whatever is taken has some height
    heights[is_hole] = -99
    with tempfile.TemporaryDirectory() as folder, pytest.MonkeyPatch.context() as patch:
        patch.setattr("calfrewin.raster_pages.MOST_POINTS", kept)
        raster = open_raster(write_tif(f"{folder}/a.tif", heights, nodata=-99.0))
        it = RasterPages(raster, 30.0 * every, side=side, every=every)
        assert (it.rows, it.columns) == heights[::every, ::every].shape
        taken, hole, found = heights[::every, ::every].astype(float), is_hole[::every, ::every], {}
        for square in squares_of(it):
            page = it(*square)
            assert page.dtype == np.uint16 and page.shape == (side, side)
            at = [np.minimum(its, count - 1) for its, count in zip(steps_of(it, square), taken.shape)]
            mine = it.base + it.unit * page
            assert np.where(hole[np.ix_(*at)], 0, np.abs(mine - taken[np.ix_(*at)])).max() <= it.unit / 2 + 1e-3
            assert mine.min() >= heights[~is_hole].min() - it.unit and mine.max() <= heights[~is_hole].max() + it.unit
            for row, across in zip(steps_of(it, square)[0], page.tolist()):
                for column, height in zip(steps_of(it, square)[1], across):
                    assert found.setdefault((row, column), height) == height
        assert it.unit == 1 if kind == "i2" else it.unit <= 0.1


def test_all_pages_of_a_raster_with_holes_are_loaded(tmp_path):
    heights = hills(150, 300)
    heights[40:90, 100:140] = np.nan
    it = RasterPages(open_raster(write_tif(tmp_path / "a.tif", heights)), 30.0, side=33)
    with World(it(it.large - 5, 0, 0), it.large, 500, it.spacing) as world:
        for square in squares_of(it)[1:]:
            world.load(*square, it(*square))
        assert len(world.pages) == 1 + 4 + 16 + 64 + 256 and world.frame().triangles > 2


def test_a_flight_over_pages_tells_the_page_what_came_and_what_went(tmp_path):
    heights = hills(700, 1000)
    source = RasterPages(open_raster(write_tif(tmp_path / "a.tif", heights)), 30.0, side=33)
    it, known, shown = WorldFlight(source, 3000), -1, {}
    far = source.spacing * 1024
    try:
        for place in [(far // 5, far // 2)] * 40 + [(far, far)] * 60:
            frame = it.frame((3000, 0, *place, 600))
            assert sum(2.0 / 2 ** int(name).bit_length() for name in names_of(frame)) == 1
            (side, _, _, edits, columns, rows, of_page, _), squares, came = pages_of(it.ground((known,)))
            assert (side, of_page, columns, rows) == (1025, 33, 1000, 700)
            fresh = [tuple(square[:3]) for square in squares if square[3] > known]
            assert len(fresh) == len(came)
            shown = {square: page for square, page in shown.items() if square in {tuple(at[:3]) for at in squares}}
            shown.update(zip(fresh, came))
            assert shown.keys() == it.world.pages and edits >= known
            known = edits
        assert all(np.array_equal(page, source(*square)) for square, page in shown.items())
        assert {q for q, _, _ in shown} == set(range(6)) and len(it.names) == 3000
        places, tall = it.corners()
        y, x = np.divmod(places, 1025)
        inside = (y < 700) & (x < 1000)
        assert np.abs(source.base + source.unit * tall[inside] - heights[y[inside], x[inside]]).max() <= source.unit
    finally:
        it.close()


def test_few_points_are_one_grid_and_many_are_pages(tmp_path, monkeypatch):
    monkeypatch.setattr("calfrewin.fly.MOST_POINTS", 257)
    path = write_tif(tmp_path / "a.tif", hills(258, 520))
    for every, window, kind, columns in ((None, None, WorldFlight, 520), (3, None, GridFlight, 174), (2, None, WorldFlight, 260),
                                         (None, (0, 0, 257, 257), GridFlight, 257)):
        it = flight_of(path, 500, window, every, None, None, False)
        assert type(it) is kind and it.columns == columns and len(names_of(it.frame((500, 0, 0, 0, 900)))) > 2
        it.close()


def test_ground_of_pages_is_not_raised_and_wrong_words_are_told(tmp_path):
    it = flight_of(write_tif(tmp_path / "a.tif", hills(MOST_POINTS + 1, 40)), 500, None, None, None, None, False)
    assert type(it) is WorldFlight
    with pytest.raises(ValueError, match="2049 points a side"):
        it.lift((1, 1, 1, 1))
    with pytest.raises(ValueError, match="with 0 numbers"):
        it.ground(())
    it.close()
    found = CliRunner().invoke(fly, [write_tif(tmp_path / "b.tif", np.full((9, 9), np.nan, np.float32)), "--every", "0"])
    assert found.exit_code == 2

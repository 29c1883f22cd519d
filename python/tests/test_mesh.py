"""fit and view: what they take, what they give, how far off it is."""
import math
import re

import numpy as np
import pytest
from hypothesis import given, strategies as st

import calfrewin
from made import hills, write_tif
from readers import has_no_cracks, heights_from_vertices, heights_of

SHAPES = st.tuples(st.integers(2, 40), st.integers(2, 40))
SEEDS = st.integers(0, 10 ** 6)


@given(SHAPES, SEEDS, st.floats(0.05, 100))
def test_any_shape_is_within_the_error_and_without_cracks(shape, seed, error):
    heights = hills(*shape, seed)
    mesh = calfrewin.fit(heights, error=error)
    found, times = heights_of(mesh)
    assert mesh.error <= error
    assert np.abs(found - heights).max() <= mesh.error + 1e-9
    assert (times == 1).all() and has_no_cracks(mesh)
    assert np.allclose(mesh.surface(), found, rtol=0, atol=1e-9)


@given(SHAPES, SEEDS, st.integers(2, 300))
def test_any_shape_is_within_the_budget(shape, seed, triangles):
    heights = hills(*shape, seed)
    try:
        mesh = calfrewin.fit(heights, triangles=triangles)
    except ValueError as why:
        # Two base triangles, cut twice, are 2 to 5.
        assert re.fullmatch(r"triangles is [2-4], and has to be at least [3-5] for this shape", str(why))
        return
    assert len(mesh.triangles) <= triangles
    assert np.abs(heights_of(mesh)[0] - heights).max() <= mesh.error + 1e-9


@pytest.mark.parametrize("shape", [(100, 150), (65, 66), (3, 100), (257, 257)])
def test_most_of_a_budget_is_used(shape):
    assert 0.95 * 400 < len(calfrewin.fit(hills(*shape), triangles=400).triangles) <= 400 or min(shape) == 3


@given(st.integers(1, 5), SEEDS, st.floats(0, 300), st.integers(1, 1000))
def test_heights_from_vertices_alone_are_off_by_what_is_told(n, seed, error, relief):
    side = 2 ** n + 1
    heights = np.random.default_rng(seed).integers(0, relief + 1, (side, side))
    mesh = calfrewin.fit(heights, error=error)
    found = heights_from_vertices(heights, mesh.grid.is_vertex)
    assert np.abs(found - heights).max() == mesh.error <= error
    assert np.array_equal(found, mesh.surface())
    assert set(zip(mesh.row, mesh.column)) == set(zip(*np.nonzero(mesh.grid.is_vertex)))


@given(st.sampled_from(["u1", "i1", "<u2", ">u2", "<i2", ">i2", "<i4", "<u4", "<i8", "<u8", "<f2", ">f4", "<f4", "<f8"]),
       st.sampled_from(["C", "F", "stepped", "list"]), SEEDS)
def test_any_dtype_and_order_is_taken(dtype, order, seed):
    heights = np.random.default_rng(seed).integers(0, 100, (20, 30)).astype(dtype)
    given_ = {"C": heights, "F": np.asfortranarray(heights), "stepped": np.repeat(heights, 2, 0)[::2],
              "list": heights.tolist()}[order]
    mesh = calfrewin.fit(given_, error=10)
    assert (mesh.unit, mesh.rounding) == (1, 0)
    assert np.abs(heights_of(mesh)[0] - heights.astype(float)).max() <= 10


@given(st.floats(1e-6, 1e6), st.floats(-1e4, 1e4), st.sampled_from([np.float32, np.float64]), SEEDS)
def test_the_rounding_is_in_the_error(relief, base, dtype, seed):
    heights = (base + relief * np.random.default_rng(seed).random((17, 23))).astype(dtype)
    if np.ptp(heights) > 65_534:
        with pytest.raises(ValueError, match="more than 65535 steps of 1.*give a unit of"):
            calfrewin.fit(heights, error=1)
        mesh = calfrewin.fit(heights, error=relief / 10, unit=relief / 1000)
    else:
        mesh = calfrewin.fit(heights, error=max(relief / 10, 1e-4))
    slack = 1e-12 * (abs(base) + relief)
    assert np.abs(heights_of(mesh)[0] - heights).max() <= mesh.error + slack
    assert mesh.rounding <= mesh.unit / 2 + slack and mesh.error <= max(relief / 10, 1e-4)


@pytest.mark.parametrize("error", [0.29, 0.57, 1.005, 0.1, 0.3])
def test_an_error_is_taken_by_the_decimals_that_print(error):
    # A hill of exactly that height over a plane: it may be left out, and one of a thousandth more may not.
    for rise, count in ((error, 2), (error + 0.001, 4)):
        assert len(calfrewin.fit([[0, 0, 0], [0, rise, 0], [0, 0, 0]], error=error, unit=0.001).triangles) == count


def test_the_rounding_is_taken_off_an_error():
    # A hill of 10.4 is 10 and a rounding of 0.4: left out, it is off by 10.4 and not by 10.
    for error, count in ((10.45, 2), (10.3, 4)):
        mesh = calfrewin.fit([[0, 0, 0], [0, 10.4, 0], [0, 0, 0]], error=error, unit=1)
        assert len(mesh.triangles) == count and mesh.rounding == pytest.approx(0.4) and mesh.error <= error


@given(SHAPES, SEEDS, st.floats(0.01, 0.95))
def test_holes_of_any_kind_are_filled_alike(shape, seed, share):
    rng = np.random.default_rng(seed)
    whole = np.rint(hills(*shape, seed)).astype(np.int16)
    holes = rng.random(shape) < share
    holes[rng.integers(shape[0]), rng.integers(shape[1])] = False
    with_nan = np.where(holes, np.nan, whole)
    meshes = [calfrewin.fit(np.where(holes, -32768, whole), error=5, nodata=-32768, fill="smooth"),
              calfrewin.fit(np.ma.array(whole, mask=holes), error=5, fill="smooth")]
    assert len({(mesh.filled, mesh.unit, len(mesh.triangles)) for mesh in meshes}) == 1 and meshes[0].unit == 1
    for mesh in (*meshes, calfrewin.fit(with_nan, error=5, fill="smooth")):
        assert mesh.filled == holes.sum() and mesh.holes == 0
        found = heights_of(mesh)[0]
        assert np.abs(found - whole)[~holes].max() <= mesh.error + 1e-9
        # What is filled lies between the least and the greatest height.
        assert whole[~holes].min() - 5 <= found.min() and found.max() <= whole[~holes].max() + 5


@given(SHAPES, SEEDS, st.sampled_from(["some", "half", "islands", "one"]), st.sampled_from([0.5, 5, 60]), st.booleans())
def test_what_has_no_height_has_no_triangles(shape, seed, kind, error, is_budget):
    rng = np.random.default_rng(seed)
    heights = hills(*shape, seed)
    holes = {"some": rng.random(shape) < 0.03, "half": np.add.outer(np.arange(shape[0]), np.arange(shape[1])) < sum(shape) / 2,
             "islands": rng.random(shape) < 0.9, "one": np.zeros(shape, bool)}[kind]
    holes[rng.integers(shape[0]), rng.integers(shape[1])] = True
    if holes.all():
        return
    try:
        mesh = calfrewin.fit(np.where(holes, np.nan, heights), **{"triangles": 60} if is_budget else {"error": error})
    except ValueError as why:
        assert is_budget and "has to be at least" in str(why)
        return
    found, times = heights_of(mesh)
    assert mesh.holes == holes.sum() and mesh.filled == 0 and (is_budget or mesh.error <= error)
    # Each point with a height is met, and near enough; no cell is covered twice; triangles have a point with a height.
    assert np.abs(found - heights)[~holes].max() <= mesh.error + 1e-9 and times.max(initial=0) <= 1
    assert np.allclose(mesh.surface(), found, rtol=0, atol=1e-9, equal_nan=True)
    for corners in mesh.triangles:
        row, column = mesh.row[corners], mesh.column[corners]
        i, j = np.mgrid[int(row.min()):int(row.max()) + 1, int(column.min()):int(column.max()) + 1]
        area = (column[1] - column[0]) * (row[2] - row[0]) - (column[2] - column[0]) * (row[1] - row[0])
        u = ((j - column[0]) * (row[2] - row[0]) - (i - row[0]) * (column[2] - column[0])) / area
        v = ((column[1] - column[0]) * (i - row[0]) - (row[1] - row[0]) * (j - column[0])) / area
        is_in = (u >= -1e-9) & (v >= -1e-9) & (u + v <= 1 + 1e-9)
        # What was cut at the last row or column may have been a part of a larger one.
        is_at_end = row.max() == shape[0] - 1 or column.max() == shape[1] - 1
        assert is_at_end or not holes[i[is_in], j[is_in]].all()
    assert mesh.is_clipped or (times == 1).all()


def test_what_a_hole_is_filled_with_takes_no_triangles():
    heights = np.zeros((65, 65))
    heights[:, 8:40], heights[:, 40:] = np.nan, 500
    assert len(calfrewin.fit(heights, error=1).triangles) < 400  # 484 of them would follow the slope in the hole


def test_single_points_without_a_height_are_counted_and_met():
    heights = hills(33, 50)
    heights[5, 7] = heights[20, 20] = heights[0, 0] = np.nan
    heights[10:14, 30:36] = np.nan
    mesh = calfrewin.fit(heights, error=2)
    assert (mesh.holes, mesh.alone) == (27, 3)
    assert np.isnan(mesh.surface()[10:14, 30:36]).any() and np.isfinite(mesh.surface()[5, 7])


def test_an_error_for_each_point():
    heights = hills(60, 90)
    error = np.full(heights.shape, 20.0)
    error[20:40, 30:50], error[:, 80:] = 0.5, np.inf
    mesh = calfrewin.fit(heights, error=error)
    off = np.abs(heights_of(mesh)[0] - heights)
    assert (off <= error + 1e-9).all() and off.max() == pytest.approx(mesh.error, abs=0.01) and off[20:40, 30:50].max() > 0.3
    coarse, fine = calfrewin.fit(heights, error=20.0), calfrewin.fit(heights, error=0.5)
    assert len(coarse.triangles) / 2 < len(mesh.triangles) < len(fine.triangles) / 2
    with pytest.raises(ValueError, match=r"error has the shape \(3,\), and the heights have \(60, 90\)"):
        calfrewin.fit(heights, error=[1.0, 2, 3])
    error[3, 3] = -1
    with pytest.raises(ValueError, match="error has -1.0 among its numbers"):
        calfrewin.fit(heights, error=error)
    with pytest.raises(ValueError, match="error is 0, and has to be at least 0.00"):
        calfrewin.fit(heights, error=np.zeros(heights.shape))


@pytest.mark.parametrize("shape", [(2050, 12), (9, 2100)])
def test_an_array_of_any_size_is_joined_of_tiles(shape):
    heights, holes = np.full(shape, 100, np.int16), np.zeros(shape, bool)
    rows, columns = min(shape[0], 40), min(shape[1], 40)
    heights[-rows:, -columns:] = np.rint(hills(rows, columns))
    mesh = calfrewin.fit(heights, error=3, crs="EPSG:32632", cell=10)
    found, times = heights_of(mesh)
    assert np.abs(found - heights).max() <= mesh.error <= 3 and (times == 1).all() and has_no_cracks(mesh)
    assert mesh.crs == "EPSG:32632" and mesh.shape == shape and not mesh.is_clipped
    assert len(calfrewin.fit(heights, triangles=150).triangles) <= 150
    holes[-rows + 1:-2, 1:-2] = True
    cut = [calfrewin.fit(np.ma.array(heights, mask=holes), error=3),
           calfrewin.fit(np.where(holes, -9999, heights), error=3, nodata=-9999),
           calfrewin.fit(np.where(holes, np.nan, heights), error=3)]
    for mesh in cut:
        found, times = heights_of(mesh)
        assert mesh.holes == holes.sum() and mesh.is_clipped and mesh.cells() < times.size and cut[0] == cut[1]
        assert np.abs(found - heights)[~holes].max() <= mesh.error <= 3
    assert calfrewin.fit(np.where(holes, np.nan, heights), error=3, fill="smooth").filled == holes.sum()


def test_the_program_and_the_package_join_alike(tmp_path):
    heights = hills(20, 2100)
    path = write_tif(tmp_path / "a.tif", heights, cell=10)
    mesh, own = calfrewin.fit_file(path, error=3), calfrewin.fit(heights, error=3)
    assert np.array_equal(mesh.triangles, own.triangles) and np.array_equal(mesh.height, own.height) and "32N" in mesh.crs


def test_a_mesh_is_equal_to_one_like_it_and_its_pickle_is_small():
    import pickle
    heights = np.zeros((1025, 1025), np.int16)
    heights[500:520, 300:400] = 40
    mesh = calfrewin.fit(heights, error=1)
    copy = pickle.loads(pickle.dumps(mesh))
    assert (mesh == mesh) is True and mesh == copy and hash(mesh) == hash(copy) and not mesh != copy
    assert mesh != calfrewin.fit(heights, error=100) and mesh != 1
    assert len(pickle.dumps(mesh)) < 120 * len(mesh.triangles)
    assert np.array_equal(copy.surface(), mesh.surface()) and np.array_equal(copy.rises, mesh.rises)


def test_an_edge_that_may_be_none_is_warned_of():
    heights = np.full((40, 50), -9999.0)
    heights[5:30, 5:30] = 100
    with pytest.warns(UserWarning, match="100 % of the edge has the height -9999, .*nodata=-9999"):
        calfrewin.fit(heights, error=5)


def test_holes_get_the_height_that_is_said():
    heights = np.rint(hills(33, 50)).astype(np.int16)
    heights[5:9, 5:9] = -32768
    assert calfrewin.fit(heights, error=3, nodata=-32768, fill=0).surface()[6, 6] <= 3
    assert calfrewin.fit(heights, error=3, nodata=-32768, fill=0.5).unit < 1


@pytest.mark.parametrize("dtype, height", [(np.int16, 7), (np.float32, 7), (np.float32, 7.5)])
def test_a_hole_in_a_plain_is_filled_level(dtype, height):
    heights = np.full((50, 70), height, dtype)
    heights[10:33, 5:60] = -99
    mesh = calfrewin.fit(heights, error=0, nodata=-99, fill="smooth")
    assert (mesh.surface() == height).all() and len(mesh.triangles) < 6


def test_a_fill_is_smooth_over_a_great_hole():
    y, x = np.mgrid[0:300, 0:300].astype(float)
    plane = 2 * x + 3 * y
    heights = plane.copy()
    heights[50:250, 50:250] = np.nan
    found = calfrewin.fit(heights, error=1, fill="smooth").surface()
    assert np.abs(found - plane).max() < 150 and np.abs(np.diff(found, axis=0)).max() < 20


@pytest.mark.parametrize("heights, options, kind, text", [
    (hills(33, 33), {}, ValueError, "one of error and triangles is wanted"),
    (hills(33, 33), {"error": 1, "triangles": 5}, ValueError, "one of error and triangles is wanted"),
    (hills(33, 33), {"error": -1}, ValueError, "error is -1, and has to be 0 or more"),
    (hills(33, 33), {"error": math.nan}, ValueError, "error is nan, and has to be 0 or more"),
    (hills(33, 33), {"error": math.inf}, ValueError, "error is inf, and has to be 0 or more"),
    (hills(33, 33), {"triangles": 1}, ValueError, "triangles is 1, and has to be from 2 to 4294967295"),
    (hills(33, 33), {"triangles": 2.5}, TypeError, "triangles is 2.5, and has to be a whole number"),
    (hills(33, 33), {"error": 1, "unit": 1e-6}, ValueError, "unit is 1e-06, and has to be at least 0.00"),
    (hills(33, 33), {"error": 1, "unit": -1}, ValueError, "unit is -1, and has to be above 0"),
    (hills(33, 33), {"error": 0}, ValueError, "error is 0, and has to be at least 0.00.* by which heights are rounded"),
    (hills(33, 33), {"error": 1, "cell": 0}, ValueError, "cell is 0, and has to be above 0"),
    (hills(33, 33), {"error": 1, "transform": (1, 2, 0, 2, 4, 0)}, ValueError, "puts all points on one line"),
    (hills(33, 33), {"error": 1, "globe": True}, ValueError, "globe: the heights have no coordinate system"),
    (hills(33, 33), {"error": 1, "globe": True, "crs": "EPSG:1"}, ValueError, "crs is 'EPSG:1', and PROJ knows no such"),
    (np.zeros((2050, 3)), {"error": 1, "globe": True, "crs": "EPSG:32632"}, ValueError,
     r"shape \(2050, 3\), .*2 to 2049 of each.*heights\[::2, ::2\]"),
    (np.zeros((2050, 3)), {"error": np.ones((2050, 3))}, ValueError, "error is an array, which is for 2049 points a side"),
    (hills(33, 33), {"error": 1, "fill": "flat"}, ValueError, "fill is 'flat', and has to be a height or 'smooth'"),
    (hills(33, 33), {"error": 1, "fill": math.nan}, ValueError, "fill is nan, and has to be a height or 'smooth'"),
    (hills(33, 33), {"error": "1"}, TypeError, "error is '1', and has to be a number, or an array of numbers"),
    (np.zeros((1, 9)), {"error": 1}, ValueError, r"shape \(1, 9\)"),
    (np.zeros(9), {"error": 1}, ValueError, r"shape \(9,\)"),
    (np.zeros((3, 3, 3)), {"error": 1}, ValueError, r"shape \(3, 3, 3\)"),
    (np.zeros((0, 0)), {"error": 1}, ValueError, r"shape \(0, 0\)"),
    (np.full((3, 3), np.nan), {"error": 1}, ValueError, "no point has one"),
    (np.full((3, 3), 7), {"error": 1, "nodata": 7}, ValueError, "no point has one"),
    (np.array([[1, np.inf], [0, 1]]), {"error": 1}, ValueError, "from 0 to inf, and have to be finite"),
    (np.array([[0, 3.4e38], [0, 0]]), {"error": 1}, ValueError, r"is a value among them that stands for none \(nodata\)"),
    (np.zeros((3, 3), complex), {"error": 1}, TypeError, "of type complex128"),
    (np.zeros((3, 3), "M8[s]"), {"error": 1}, TypeError, "of type datetime64"),
    (np.array([["a", "b"]]), {"error": 1}, TypeError, "of type <U1"),
    ([[1, 2], [3, None]], {"error": 1}, TypeError, "of type object"),
])
def test_a_refusal_names_the_argument_its_value_and_its_range(heights, options, kind, text):
    with pytest.raises(kind, match=text):
        calfrewin.fit(heights, **options)


def test_no_budget_caps_an_error():
    heights = np.random.default_rng(1).integers(0, 60000, (1025, 1025))
    mesh = calfrewin.fit(heights, error=1)
    assert mesh.error <= 1 and len(mesh.triangles) > 1_048_576


def test_the_best_mesh_has_no_more_triangles_than_the_engine_says_and_a_lower_error_more():
    heights = hills(129, 129)
    counts = [len(calfrewin.fit(heights, error=error).triangles) for error in (1, 2, 4, 8, 16)]
    assert counts == sorted(counts, reverse=True)
    errors = [calfrewin.fit(heights, triangles=count).error for count in (100, 200, 400)]
    assert errors == sorted(errors, reverse=True)


def test_padding_costs_few_triangles():
    heights = np.full((40, 70), 1000.0)
    heights[0, 0] = 0
    assert len(calfrewin.fit(heights, error=1).triangles) < 60


@pytest.mark.parametrize("transform", [(30, 0, 5, 0, -30, 7), (30, 0, 5, 0, 30, 7), (0, 30, 5, 30, 0, 7), (20, 5, 0, -5, -20, 9)])
def test_triangles_are_counterclockwise_wherever_they_lie(transform):
    mesh = calfrewin.fit(hills(20, 30), error=2, transform=transform)
    for placed in (mesh, calfrewin.fit(hills(20, 30), error=2).at(transform)):
        a, b, c = (placed.vertices[placed.triangles[:, k], :2] for k in range(3))
        assert (np.cross(b - a, c - a) > 0).all()
        assert np.array_equal(placed.vertices, mesh.vertices)
    a, b, c, d, e, f = transform
    assert np.allclose(mesh.vertices[:, 0], a * mesh.column + b * mesh.row + c)


def test_xarray_brings_its_place():
    xarray = pytest.importorskip("xarray")
    heights = hills(20, 30)
    array = xarray.DataArray(heights, dims=("y", "x"), coords={"y": 1000 - 10 * np.arange(20), "x": 500 + 10 * np.arange(30)})
    for given_ in (array, array[::-1], array.expand_dims("band")):
        mesh = calfrewin.fit(given_, error=1)
        assert mesh.vertices[:, 0].max() == 790 and mesh.vertices[:, 1].min() == 810
        a, b, c = (mesh.vertices[mesh.triangles[:, k], :2] for k in range(3))
        assert (np.cross(b - a, c - a) > 0).all()
    with pytest.raises(ValueError, match="a coordinate x whose steps are not even"):
        calfrewin.fit(array.assign_coords(x=np.arange(30) ** 2), error=1)
    with pytest.raises(ValueError, match="choose a band"):
        calfrewin.fit(xarray.concat([array, array], "band"), error=1)


@pytest.mark.parametrize("names, said", [
    (("lat", "lon"), {}), (("latitude", "longitude"), {}), (("Y", "X"), {}), (("northing", "easting"), {}), (("row", "x"), {}),
    (("a", "b"), {"a": {"axis": "Y"}, "b": {"standard_name": "projection_x_coordinate"}}), (("a", "x"), {}), (("y", "b"), {}),
])
def test_dimensions_are_told_by_their_names(names, said):
    xarray = pytest.importorskip("xarray")
    heights = hills(20, 30)
    heights[3, 25] = 2000  # a summit
    coords = {names[0]: (names[0], 44 + 0.1 * np.arange(20), said.get(names[0], {})),
              names[1]: (names[1], 7 + 0.01 * np.arange(30), said.get(names[1], {}))}
    array = xarray.DataArray(heights, dims=names, coords=coords)
    for given_ in (array, array.T, array.transpose(*names[::-1]).expand_dims("time")):
        mesh = calfrewin.fit(given_, error=1)
        assert mesh.vertices[mesh.height.argmax()].tolist() == pytest.approx([7.25, 44.3, 2000]) and mesh.shape == (20, 30)


def test_an_array_that_does_not_tell_its_rows_is_told_of():
    xarray = pytest.importorskip("xarray")
    heights = hills(20, 30)
    with pytest.raises(ValueError, match="both lie one way"):
        calfrewin.fit(xarray.DataArray(heights, dims=("lon", "x")), error=1)
    with pytest.raises(TypeError, match=r"a Dataset of ground, sea, .*: heights\['ground'\]"):
        calfrewin.fit(xarray.Dataset({"ground": (("y", "x"), heights), "sea": (("y", "x"), heights)}), error=1)
    assert calfrewin.fit(xarray.DataArray(heights, dims=("a", "b")), error=1).shape == (20, 30)


@given(SHAPES, SEEDS, st.integers(10, 500))
def test_a_view_of_any_shape_is_off_by_what_it_tells(shape, seed, triangles):
    heights = hills(*shape, seed)
    mesh = calfrewin.view(heights, (100, 100, 400), triangles, cell=30)
    assert len(mesh.triangles) <= triangles
    found, times = heights_of(mesh)
    assert np.abs(found - heights).max() <= mesh.error + 1e-9
    assert (times == 1).all() and has_no_cracks(mesh)


def test_a_view_is_fine_where_the_camera_is():
    heights = np.random.default_rng(1).integers(0, 100, (200, 300)).astype(float)
    for x, y, rows, columns in ((0, 0, slice(150, 200), slice(0, 50)), (8970, 5970, slice(0, 50), slice(250, 300))):
        mesh = calfrewin.view(heights, (x, y, 50), 2000, cell=30)
        near = np.zeros((200, 300), bool)
        near[rows, columns] = True
        is_near = near[np.rint(mesh.row).astype(int), np.rint(mesh.column).astype(int)]
        assert is_near.sum() > 5 * is_near.size * 2500 / 60000


def test_a_mesh_for_the_globe_has_no_surface_over_the_map():
    with pytest.raises(ValueError, match="it was made for the globe"):
        calfrewin.fit(hills(9, 9), error=3, cell=30, crs="EPSG:32632", globe=True).surface()


def test_all_steps_of_16_bits_are_taken():
    heights = np.array([[0, 65_535], [32_768, 1]], np.uint16)
    assert calfrewin.fit(heights, error=0).unit == 1 and calfrewin.fit(heights, error=0, unit=1).height.max() == 65_535
    with pytest.raises(ValueError, match="more than 65535 steps of 1.*a unit of 1.01 or more"):
        calfrewin.fit(np.array([[0.5, 65_536], [1, 2]]), error=1)


@pytest.mark.parametrize("options, kind, text", [
    ({"triangles": 1}, ValueError, "triangles is 1, and has to be from 2 to 1048576"),
    ({"triangles": 100, "camera": (1, 2, math.nan)}, TypeError, "z is nan"),
    ({"triangles": 100, "cell": 1e6}, ValueError, "cell / unit is 1000000, and has to be from 1 to 1024"),
])
def test_a_refusal_of_view_names_the_argument(options, kind, text):
    with pytest.raises(kind, match=text):
        calfrewin.view(hills(20, 30), **{"camera": (0, 0, 100)} | options)


def test_a_plot_has_the_triangles():
    matplotlib = pytest.importorskip("matplotlib")
    matplotlib.use("agg")
    mesh = calfrewin.fit(hills(20, 30), error=10)
    axes = mesh.plot(cmap="gray")
    assert len(axes.collections[0]._triangulation.triangles) == len(mesh.triangles)
    assert "triangles" in repr(mesh) and "20 x 30 points" in repr(mesh)


def test_each_public_name_has_an_example():
    def public(it):
        return [value for name, value in vars(it).items() if not name.startswith("_") and callable(value)]
    named = [getattr(calfrewin, name) for name in calfrewin.__all__]
    named = [it for it in named if callable(it) and not (isinstance(it, type) and issubclass(it, (tuple, Exception)))]
    assert len(named) >= 6
    from calfrewin import export, raster
    for it in [*named, *public(calfrewin.Engine), *public(calfrewin.Mesh), export.save, raster.open_raster]:
        assert ">>>" in it.__doc__, it

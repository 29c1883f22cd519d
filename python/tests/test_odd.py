"""Odd rasters and arrays: each ends in a mesh that is right at all its points, or in one good line."""
import re

import numpy as np
import pytest
from hypothesis import HealthCheck, given, settings, strategies as st

import calfrewin
from made import hills, write_tif

SHAPES = st.tuples(st.integers(1, 12), st.integers(1, 12))
ODD = [np.nan, np.inf, -np.inf, -9999.0, -32768.0, 0.0, 1e9, 1e30, 3.4e38, -3.4028235e38, 65_535.0, 1e-30, -1e-9]
DTYPES = ["u1", "i2", "u2", "i4", "u4", "i8", "u8", "f2", "f4", ">f4", "f8", "c8", "?", "U1"]
LINE = re.compile(r"^(?=.{20,400}$).*\b(heights|error|triangles|unit|fill|nodata|transform|cell|crs|window|odd\.tif)\b")


@st.composite
def heights(draw):
    """Hills, some of whose points have odd numbers, in a type that may not hold them."""
    shape, dtype = draw(SHAPES), draw(st.sampled_from(DTYPES))
    found = hills(*shape, draw(st.integers(0, 99))).astype(np.float64) if min(shape) > 1 else np.zeros(shape)
    for _ in range(draw(st.integers(0, 4))):
        row, column = draw(st.integers(0, shape[0] - 1)), draw(st.integers(0, shape[1] - 1))
        high, wide = draw(st.integers(1, shape[0])), draw(st.integers(1, shape[1]))
        found[row:row + high, column:column + wide] = draw(st.sampled_from(ODD))
    with np.errstate(all="ignore"):
        return found.astype(dtype)


WORDS = st.fixed_dictionaries({}, optional={
    "nodata": st.sampled_from([-9999, 0, np.nan, np.inf, -3.4e38, 255]),
    "fill": st.sampled_from(["smooth", "flat", 0, 7.5, np.nan]),
    "unit": st.sampled_from([1, 0.1, 0, -1, 1e9])})
GOALS = st.sampled_from([
    {"error": 0}, {"error": 1.5}, {"error": 1e9}, {"error": np.nan}, {"triangles": 2}, {"triangles": 40}, {}])


def ends_well(call, heights, words):
    """Makes a mesh of heights, and measures it at each point that has one."""
    try:
        mesh = call()
    except (ValueError, TypeError) as why:
        assert LINE.match(str(why)) and "\n" not in str(why), repr(why)
        return
    found, given_ = mesh.surface(), np.asarray(heights, np.float64)
    nodata = words.get("nodata")
    with np.errstate(all="ignore"):
        is_there = np.isfinite(given_) & (given_ > -3.4e38) & ((given_ != nodata) if nodata is not None else True)
    assert np.isfinite(mesh.vertices).all() and np.isfinite(mesh.error) and len(mesh.triangles)
    slack = 1e-9 + 1e-6 * np.abs(given_[is_there]).max(initial=0)
    assert np.abs(found - given_)[is_there].max(initial=0) <= mesh.error + slack
    assert mesh.holes + mesh.filled == (~is_there).sum() and (mesh.holes == 0 or not mesh.filled)


@settings(max_examples=400, suppress_health_check=list(HealthCheck))
@given(heights(), GOALS, WORDS)
@pytest.mark.filterwarnings("ignore:.*of the edge")
def test_an_odd_array_ends_in_a_right_mesh_or_one_good_line(heights, goal, words):
    ends_well(lambda: calfrewin.fit(heights, **goal, **words), heights, words)


@settings(max_examples=200, suppress_health_check=list(HealthCheck))
@given(heights(), GOALS, WORDS, st.sampled_from([None, -9999, 0, -3.40282306074e38]), st.sampled_from(
    [None, "EPSG:4326", "EPSG:3857", 'LOCAL_CS["site",UNIT["metre",1]]']), st.sampled_from([30.0, 1e-4, 20.0]))
@pytest.mark.filterwarnings("ignore:.*of the edge", "ignore:.*Affine.identity", "ignore:.*geotransform")
def test_an_odd_raster_ends_in_a_right_mesh_or_one_good_line(tmp_path_factory, heights, goal, words, declared, crs, cell):
    if heights.dtype.kind not in "iufc" or heights.dtype.str[1:] in ("f2", "i8", "u8"):
        return
    try:
        path = write_tif(tmp_path_factory.getbasetemp() / "odd.tif", heights.astype(heights.dtype.newbyteorder("=")), crs=crs,
                         cell=cell, x=7.0, y=45.0, nodata=declared)
    except ValueError:  # a number that stands for none and does not fit the type
        return
    nodata = {"nodata": words.get("nodata", declared)}
    ends_well(lambda: calfrewin.fit_file(path, **goal, **words), heights, {k: v for k, v in nodata.items() if v is not None})

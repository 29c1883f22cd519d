import glob
import gzip
import hashlib
import json
import os

import numpy as np
import pytest
from hypothesis import given, strategies as st

from calfrewin import blocks, quantized, systems, tiles
from calfrewin.ground import ground_of
from calfrewin.raster import open_raster
from readers import check_tileset, read_glb, up_of
from made import hills, write_tif


class Place:
    def __init__(self, path):
        import rasterio
        from pyproj import Transformer
        self.it = rasterio.open(path)
        self.to = Transformer.from_crs(self.it.crs, 4326, always_xy=True)
        self.back = Transformer.from_crs(4326, self.it.crs, always_xy=True)

    def __call__(self, column, row):
        return self.to.transform(*(self.it.transform * (column + 0.5, row + 0.5)))

    def random(self, rng, west, south, east, north):
        while True:
            x, y = self.back.transform(rng.uniform(west, east), rng.uniform(south, north))
            column, row = (round(it - 0.5) for it in ~self.it.transform * (x, y))
            if 0 <= column < self.it.width and 0 <= row < self.it.height:
                return column, row


def digest(folder):
    found = hashlib.sha256()
    for path in sorted(glob.glob(f"{folder}/**/*.*", recursive=True)):
        found.update(os.path.relpath(path, folder).encode() + open(path, "rb").read())
    return found.hexdigest()


@pytest.mark.parametrize("crs, cell, x, y", [("EPSG:32632", 90.0, 400000.0, 5300000.0), ("EPSG:4326", 1 / 1200, 7.0, 60.0),
                                             ("EPSG:3857", 90.0, 800000.0, 6000000.0)])
def test_the_ground_is_within_the_errors_on_the_earth(tmp_path, rng, crs, cell, x, y):
    heights = hills(300, 500, relief=900)
    path = write_tif(tmp_path / "a.tif", heights, crs=crs, cell=cell, x=x, y=y)
    plan = tiles.plan_of(open_raster(path), str(tmp_path / "t"), error=2.0, tile=65, depth=1)
    told = tiles.build(plan)
    count, worst = check_tileset(str(tmp_path / "t"), lambda c, r: float(heights[r, c]), Place(path), rng, tiles=15, points=40)
    assert count == told["tiles"] and 0.5 < worst <= 1.0 and told["error"] <= 2.0 + 1e-9


def test_equal_points_of_neighbours_are_equal_and_bytes_do_not_hang_on_how_they_were_made(tmp_path):
    heights = hills(257, 257)
    heights[60:70, 100:140] = np.nan
    path = write_tif(tmp_path / "a.tif", heights)
    raster = open_raster(path)
    found = []
    for name, words in (("one", {}), ("depth", {"depth": 0}), ("two", {"workers": 2})):
        out = str(tmp_path / name)
        depth = {k: v for k, v in words.items() if k == "depth"}
        tiles.build(tiles.plan_of(raster, out, error=1.0, tile=65, skirts=False, **depth), workers=words.get("workers", 1))
        found.append(out)
    assert digest(found[0]) == digest(found[1]) == digest(found[2])
    root = np.array(json.load(open(found[0] + "/tileset.json"))["root"]["transform"]).reshape(4, 4).T
    places = {}
    for path in glob.glob(found[0] + "/2/*/*.glb"):
        it = read_glb(open(path, "rb").read())
        for p in up_of(it["points"]) @ root[:3, :3].T + root[:3, 3]:
            places.setdefault(tuple(np.rint(p / 5).astype(int)), []).append(p)
    shared = [np.ptp(it, axis=0).max() for it in places.values() if len(it) > 1]
    assert len(shared) > 300 and max(shared) < 0.002


def test_heights_over_a_geoid_are_brought_to_the_ellipsoid(tmp_path):
    path = write_tif(tmp_path / "a.tif", hills(65, 65), crs="EPSG:4326", cell=1 / 1200, x=7.0, y=45.0)
    found = []
    for k, vertical in enumerate((None, "EPSG:5773")):
        try:
            tiles.build(tiles.plan_of(open_raster(path), str(tmp_path / f"{k}"), error=1.0, tile=65, vertical=vertical))
        except ValueError as why:
            pytest.skip(str(why))
        found.append(json.load(open(tmp_path / f"{k}/tileset.json"))["root"]["boundingVolume"]["region"])
    assert found[1][5] - found[0][5] == pytest.approx(52.9, abs=0.5) and found[1][4] - found[0][4] == pytest.approx(52.9, abs=0.5)
    with pytest.raises(ValueError, match="projsync"):
        tiles.plan_of(open_raster(path), str(tmp_path), error=1.0, vertical="EPSG:8051")


def test_without_a_system_boxes_hold_the_tiles(tmp_path):
    np.save(tmp_path / "a.npy", hills(100, 200))
    plan = tiles.plan_of(open_raster(str(tmp_path / "a.npy"), spacing=10.0), str(tmp_path / "t"), error=1.0, tile=33)
    tiles.build(plan)
    it = json.load(open(tmp_path / "t/tileset.json"))
    assert len(it["root"]["boundingVolume"]["box"]) == 12 and plan.levels == 3
    p = up_of(read_glb(open(tmp_path / "t/0/0/0.glb", "rb").read())["points"])
    box = np.array(it["root"]["boundingVolume"]["box"])
    assert (np.abs(p - box[:3]) <= [box[3], box[7], box[11]] + np.array(1e-3)).all()


@pytest.mark.parametrize("crs", [None, "EPSG:32632"])
def test_normals_of_a_plane_are_its_own_at_each_level(tmp_path, crs):
    down, right = np.mgrid[0:129, 0:129] * 30.0  # on the middle meridian of the zone, so rows lie along the east
    path = write_tif(tmp_path / "a.tif", (0.1 * right + 0.2 * down).astype(np.float32), crs=crs)
    tiles.build(tiles.plan_of(open_raster(path), str(tmp_path / "t"), error=1.0, tile=33))
    wanted = np.array([-0.1, 0.2, 1]) / np.sqrt(1.05)  # it rises to the east and falls to the north
    files = glob.glob(f"{tmp_path}/t/*/*/*.glb")
    assert {os.path.relpath(it, tmp_path / "t").split("/")[0] for it in files} == {"0", "1", "2"}
    for path in files:
        assert np.abs(up_of(read_glb(open(path, "rb").read())["normals"]) - wanted).max() < 0.01, path


def walls_of(it):
    """The upright triangles of a tile, and how deep they are below each vertex of its border, by its place."""
    points = up_of(it["points"])
    a, b, c = (points[it["triangles"][:, k]] for k in range(3))
    normals = np.cross(b - a, c - a)
    is_wall = np.abs(normals[:, 2]) < 1e-3 * np.linalg.norm(normals, axis=1)
    assert (normals[~is_wall, 2] > 0).all()
    out = (a + b + c)[is_wall] / 3 - (points.min(0) + points.max(0)) / 2
    heights = {}
    for x, y, z in points[np.unique(it["triangles"][is_wall])]:
        heights.setdefault((round(x), round(y)), []).append(z)
    return normals[is_wall], out, {at: max(its) - min(its) for at, its in heights.items()}


def test_walls_look_out_and_are_as_deep_as_two_tiles_of_a_level_may_be_apart(tmp_path):
    path = write_tif(tmp_path / "a.tif", hills(129, 129, relief=900), crs=None)
    tiles.build(tiles.plan_of(open_raster(path), str(tmp_path / "t"), error=20.0, tile=33, skirts=True))
    for level in range(3):
        found = [read_glb(open(it, "rb").read()) for it in glob.glob(f"{tmp_path}/t/{2 - level}/*/*.glb")]
        assert len(found) == 16 // 4 ** level
        for it in found:
            normals, out, depths = walls_of(it)
            assert (normals[:, :2] * out[:, :2]).sum(1).min() > 0
            # Each is within 20 m of the points of its border, of which the next level takes half, with twice the error.
            assert len(depths) >= 4 and min(depths.values()) >= 2 * 20 * 2 ** level - 0.01


def off_of_halves(heights):
    """How far the points of a square are from its two halves, which meet from the first point to the last."""
    down, right = np.mgrid[0:len(heights), 0:len(heights)] / (len(heights) - 1)
    (nw, ne), (sw, se) = heights[0, [0, -1]], heights[-1, [0, -1]]
    flat = np.where(right >= down, nw + right * (ne - nw) + down * (se - ne), nw + down * (sw - nw) + right * (se - sw))
    return np.abs(flat - heights).max()


def test_what_one_form_of_the_earth_leaves_out_is_in_the_error_of_each_level(tmp_path):
    path = write_tif(tmp_path / "a.tif", np.zeros((257, 257), np.float32), cell=1500.0)
    plan = tiles.plan_of(open_raster(path), "", error=2.0, tile=9)
    assert plan.form is not None and plan.left_out > plan.unit / 8 and plan.levels == 5
    sea = blocks.Points(np.zeros((9, 9), np.int32), None)
    for level in range(6):
        at = (np.arange(9) - 4.0) * 2 ** level
        for row, column in np.ndindex(*plan.count(level)):
            ground = ground_of(plan, level, row, column, sea)
            earth = plan.curvature((8 * column + 4) * 2 ** level, (8 * row + 4) * 2 ** level, level)
            off = off_of_halves(earth.drop(at[None, :], at[:, None]))
            assert abs(off - off_of_halves(ground.grid * ground.unit)) <= ground.rounding, (level, row, column)


@given(st.integers(1, 5), st.integers(0, 10 ** 6))
def test_halved_tells_how_far_the_others_are(n, seed):
    from calfrewin import surface
    side = 2 ** n + 1
    numbers = np.random.default_rng(seed).integers(-500, 500, (side, side)).astype(np.int32)
    is_vertex = np.zeros((side, side), bool)
    is_vertex[::2, ::2] = True
    off = np.abs(surface(numbers, is_vertex) - numbers)
    points, away = tiles.halved(tiles.Points(numbers, None), 0.5)
    assert away == 0.5 * off.max() and np.array_equal(points.numbers, numbers[::2, ::2])
    counts = np.random.default_rng(seed + 1).random(numbers.shape) < 0.5
    points, away = tiles.halved(tiles.Points(numbers, counts), 0.5)
    assert away == 0.5 * off[counts].max(initial=0) and np.array_equal(points.counts, counts[::2, ::2])


@given(st.integers(1, 6), st.integers(0, 10 ** 6), st.floats(0.1, 50))
def test_quantized_mesh_comes_back(n, seed, error):
    side = 2 ** n + 1
    heights = hills(side, side, seed).astype(np.float64)
    data, told, triangles = quantized.tile_of(heights, (7.0, 44.0, 7.01, 44.01), error)
    it = quantized.decode(data)
    assert len(it["triangles"]) == triangles
    p = np.column_stack((it["u"], it["v"]))
    a, b, c = (p[it["triangles"][:, k]] for k in range(3))
    area = (b - a)[:, 0] * (c - a)[:, 1] - (b - a)[:, 1] * (c - a)[:, 0]
    assert (area > 0).all() and area.sum() == 2 * 32767 ** 2
    for edge, (axis, end) in zip(it["edges"], ((0, 0), (1, 0), (0, 32767), (1, 32767))):
        assert set(edge) == set(np.flatnonzero(p[:, axis] == end))
    row, column = np.rint((32767 - p[:, 1]) * (side - 1) / 32767).astype(int), np.rint(p[:, 0] * (side - 1) / 32767).astype(int)
    places = np.column_stack((column, side - 1 - row)) * 32767 / (side - 1)
    assert np.abs(p - places).max() <= 0.5  # of 1/32767 of the tile
    assert np.abs(it["height"] - heights[row, column]).max() <= np.ptp(heights) / 32767 + 1e-3
    points = systems.geocentric(7 + 0.01 * it["u"] / 32767, 44 + 0.01 * it["v"] / 32767, it["height"])
    assert np.linalg.norm(points - it["sphere"][:3], axis=1).max() <= it["sphere"][3] + 0.5


def octahedron(data):
    """Normals of length 1 from two bytes each, as the extension of quantized-mesh has them."""
    xy = np.frombuffer(data, np.uint8).reshape(-1, 2) / 255 * 2 - 1
    z = 1 - np.abs(xy).sum(1)
    folded = (1 - np.abs(xy[:, ::-1])) * np.where(xy < 0, -1, 1)
    found = np.column_stack((np.where(z[:, None] < 0, folded, xy), z))
    return found / np.linalg.norm(found, axis=1, keepdims=True)


@pytest.mark.parametrize("east, north", [(0.5, 0.0), (0.0, 0.5), (-0.2, 0.4)])
def test_normals_of_quantized_mesh_are_those_of_the_slope(east, north):
    from pyproj import Geod, Transformer
    to_earth, inverse = Transformer.from_crs(4979, 4978, always_xy=True), Geod(ellps="WGS84").inv
    west, south, side = 7.0, 44.0, 17
    width, depth = inverse(west, south + 0.005, west + 0.01, south + 0.005)[2], inverse(west, south, west, south + 0.01)[2]
    parts = np.arange(side) / (side - 1)
    heights = east * width * parts[None, :] + north * depth * (1 - parts[:, None])
    it = quantized.decode(quantized.tile_of(heights, (west, south, west + 0.01, south + 0.01), 1.0)[0])
    at = west + 0.01 * it["u"] / 32767, south + 0.01 * it["v"] / 32767, it["height"]
    here = np.column_stack(to_earth.transform(*at))
    axes = [np.column_stack(to_earth.transform(*(it + step for it, step in zip(at, steps)))) - here
            for steps in ((1e-6, 0, 0), (0, 1e-6, 0), (0, 0, 1))]
    axes = [it / np.linalg.norm(it, axis=1, keepdims=True) for it in axes]
    wanted = (axes[2] - east * axes[0] - north * axes[1]) / np.sqrt(1 + east * east + north * north)
    assert np.abs(octahedron(it["extensions"][1]) - wanted).max() < 0.02  # a byte is 0.008


def test_geocentric_is_that_of_proj(rng):
    from pyproj import Transformer
    lon, lat, h = rng.uniform(-180, 180, 50), rng.uniform(-90, 90, 50), rng.uniform(-100, 9000, 50)
    want = np.column_stack(Transformer.from_crs(4979, 4978, always_xy=True).transform(lon, lat, h))
    assert np.allclose(systems.geocentric(lon, lat, h), want, atol=1e-6)


# Of each the unit of a raster of the number 1000, its scale and offset, and how many metres that are.
@pytest.mark.parametrize("unit, scale, metres", [(None, None, 1000.0), ("ft", None, 304.8), (None, (0.5, 100), 600.0),
                                                 ("ft", (0.5, 100), 182.88)])
def test_terrain_is_in_metres(tmp_path, unit, scale, metres):
    path = write_tif(tmp_path / "a.tif", np.full((200, 200), 1000, np.float32), unit=unit, scale=scale)
    zoom = quantized.terrain(open_raster(path), str(tmp_path / "q"), side=33)["zoom"]
    found = [quantized.decode(gzip.open(it).read()) for it in glob.glob(f"{tmp_path}/q/{zoom}/*/*.terrain")]
    assert max(it["high"] for it in found) == pytest.approx(metres, abs=0.01)


def test_terrain(tmp_path):
    path = write_tif(tmp_path / "a.tif", hills(200, 200))
    told = quantized.terrain(open_raster(path), str(tmp_path / "q"), side=33)
    layer = json.load(open(tmp_path / "q/layer.json"))
    assert layer["maxzoom"] == told["zoom"] == len(layer["available"]) - 1
    there = sum((it["endX"] - it["startX"] + 1) * (it["endY"] - it["startY"] + 1) for (it,) in layer["available"])
    assert len(glob.glob(str(tmp_path / "q/*/*/*.terrain"))) == told["tiles"] == there
    quantized.decode(gzip.open(tmp_path / "q/0/1/0.terrain").read())

"""What is read, where it lies, and how far its points are from the mesh."""
import gzip
import json
import subprocess
import zipfile

import numpy as np
import pytest

import calfrewin
from calfrewin import raster as r
from calfrewin import tiles
from calfrewin.quantized import terrain
from calfrewin.systems import metres_crs, refuse_unplaced, sideways, transformer, with_heights
from made import hills, write_pgm, write_tif
from readers import heights_of


def opened(path, **options):
    return r.open_raster(str(path), **options)


def all_of(raster):
    return raster.heights(0, 0, *raster.shape)


def test_a_window_in_metres_lies_where_the_file_says(tmp_path):
    heights = hills(150, 200)
    raster = opened(write_tif(tmp_path / "a.tif", heights))
    mesh, window, every = r.fit_raster(raster, error=1.0, window=(10, 20, 101, 151))
    assert every == 1 and window == (10, 20, 101, 151) and mesh.shape == (101, 151)
    assert metres_crs(raster.crs, raster.transform, raster.shape) == raster.crs
    v = mesh.vertices
    assert v[:, 0].min() == 500000 + 20.5 * 30 and v[:, 1].max() == 5000000 - 10.5 * 30
    assert np.abs(heights_of(mesh)[0] - heights[10:111, 20:171]).max() <= mesh.error + 1e-9 <= 1.0 + 1e-9


@pytest.mark.parametrize("form, of", [
    ("a.tif", lambda path, heights: write_tif(path, heights)),
    ("a.npy", lambda path, heights: np.save(path, heights)),
    ("a.pgm", lambda path, heights: write_pgm(path, heights)),
    ("plain.pgm", lambda path, heights: write_pgm(path, heights, is_plain=True)),
    ("bytes.pgm", lambda path, heights: write_pgm(path, heights, most=255)),
])
def test_each_format_gives_the_same_heights(tmp_path, form, of):
    heights = np.rint(hills(70, 90) / 2).astype(np.uint16)
    of(tmp_path / form, heights)
    raster = opened(tmp_path / form, spacing=30.0)
    assert raster.shape == (70, 90) and raster.is_whole
    assert np.array_equal(all_of(raster), heights)
    assert np.array_equal(raster.heights(10, 20, 30, 40), heights[10:40, 20:60])
    assert np.array_equal(raster.points(raster.window((3, 4, 50, 60)), 7), heights[3:53:7, 4:64:7])
    mesh = r.fit_raster(raster, error=2).mesh
    assert mesh.vertices[:, 0].max() == 89 * 30 and mesh.unit == 1 and mesh.rounding == 0


def test_a_raster_is_read_by_strips(tmp_path, monkeypatch):
    heights = hills(100, 90)
    raster = opened(write_tif(tmp_path / "a.tif", heights))
    monkeypatch.setattr(r, "AT_ONCE", 90 * 14)
    told = []
    for every in (1, 3, 20):
        assert np.array_equal(raster.points(raster.window(), every, lambda *it: told.append(it)), heights[::every, ::every])
    assert told[-1] == (100, 100) and len(told) > 12


@pytest.mark.parametrize("side", [101, 1201])
def test_an_srtm_tile_lies_by_its_name(tmp_path, side):
    heights = np.rint(hills(side, side)).astype(np.int16)
    heights[5:8, 7:9] = -32768
    heights.astype(">i2").tofile(tmp_path / "S01W085.hgt")
    raster = opened(tmp_path / "S01W085.hgt")
    a, b, c, d, e, f = raster.transform
    assert (c, f, c + a * (side - 1), f + e * (side - 1)) == pytest.approx((-85, 0, -84, -1))
    assert np.isnan(all_of(raster)).sum() == 6 and metres_crs(raster.crs, raster.transform, raster.shape) == "EPSG:32716"
    if side == 1201:  # GDAL reads these, too
        import rasterio
        with rasterio.open(tmp_path / "S01W085.hgt") as it:
            assert it.transform.c + it.transform.a / 2 == pytest.approx(c) and np.array_equal(it.read(1), heights)


def test_a_tile_in_a_zip_and_a_virtual_raster_are_read(tmp_path):
    heights = hills(60, 80)
    write_tif(tmp_path / "a.tif", heights)
    with zipfile.ZipFile(tmp_path / "a.zip", "w") as archive:
        archive.write(tmp_path / "a.tif", "a.tif")
    subprocess.run(["gdal_translate", "-q", "-of", "VRT", tmp_path / "a.tif", tmp_path / "a.vrt"], check=True)
    for path in (f"zip://{tmp_path}/a.zip!a.tif", tmp_path / "a.vrt", f"/vsizip/{tmp_path}/a.zip/a.tif"):
        assert np.array_equal(all_of(opened(path)), heights)
    tile = np.rint(hills(1201, 1201)).astype(">i2")
    with gzip.open(tmp_path / "N44E007.hgt.gz", "wb") as file:
        file.write(tile.tobytes())
    assert np.array_equal(all_of(opened(f"/vsigzip/{tmp_path}/N44E007.hgt.gz")), tile)


@pytest.mark.parametrize("encoding, code", [
    ("terrain-rgb", lambda h: np.rint((h + 10_000) * 10).astype(int)),
    ("terrarium", lambda h: np.rint((h + 32_768) * 256).astype(int)),
])
def test_colours_are_heights(tmp_path, encoding, code):
    heights = hills(40, 60)
    number = code(heights.astype(float))
    write_tif(tmp_path / "a.tif", np.stack([number >> 16, number >> 8 & 255, number & 255]).astype(np.uint8), crs="EPSG:3857")
    subprocess.run(["gdal_translate", "-q", "-of", "PNG", tmp_path / "a.tif", tmp_path / "a.png"], check=True)
    raster = opened(tmp_path / "a.png", encoding=encoding)
    assert np.abs(all_of(raster) - heights).max() <= 0.051 and not raster.is_whole
    with pytest.raises(ValueError, match="encoding is 'rgb', and has to be one of terrain-rgb, terrarium"):
        opened(tmp_path / "a.png", encoding="rgb")
    with pytest.raises(ValueError, match="wants 3 bands"):
        opened(write_tif(tmp_path / "b.tif", heights), encoding=encoding)


def test_points_left_out_are_measured(tmp_path):
    heights = hills(100, 131)
    raster = opened(write_tif(tmp_path / "a.tif", heights))
    found = r.fit_raster(raster, error=1.0, every=3)
    mesh = found.mesh
    assert mesh.shape == (34, 44) == mesh.surface().shape
    # Brute force: each point of the file in its triangle of the mesh.
    x, y, z = mesh.column * 3, -mesh.row * 3, mesh.height
    worst = 0.0
    for a, b, c in mesh.triangles.astype(int):
        area = (x[b] - x[a]) * (y[c] - y[a]) - (y[b] - y[a]) * (x[c] - x[a])
        i, j = np.mgrid[int(-max(y[[a, b, c]])):int(-min(y[[a, b, c]])) + 1, int(min(x[[a, b, c]])):int(max(x[[a, b, c]])) + 1]
        u = ((j - x[a]) * (y[c] - y[a]) - (-i - y[a]) * (x[c] - x[a])) / area
        v = ((x[b] - x[a]) * (-i - y[a]) - (y[b] - y[a]) * (j - x[a])) / area
        hit = (u >= -1e-9) & (v >= -1e-9) & (u + v <= 1 + 1e-9)
        worst = max(worst, np.abs(z[a] + u * (z[b] - z[a]) + v * (z[c] - z[a]) - heights[i, j])[hit].max(initial=0))
    assert r.measured(raster, found) == pytest.approx(worst, abs=1e-6) and worst > mesh.error
    whole = r.fit_raster(raster, error=1.0)
    assert r.measured(raster, whole) == pytest.approx(np.abs(whole.mesh.surface() - heights).max(), abs=1e-6)


@pytest.mark.parametrize("row, column", [(99, 100), (50, 129), (0, 1), (1, 0)])
def test_points_left_out_are_measured_in_the_first_and_last_row_and_column(tmp_path, row, column):
    heights = np.zeros((100, 130), np.float32)  # rows 0, 3, .. 99 and columns 0, 3, .. 129 are taken
    heights[row, column] = 50
    raster = opened(write_tif(tmp_path / "a.tif", heights))
    found = r.fit_raster(raster, error=1.0, every=3)
    assert found.mesh.height.max() == 0 and r.measured(raster, found) == 50


def test_more_points_than_the_engine_has_are_left_out_evenly(tmp_path):
    np.save(tmp_path / "a.npy", np.zeros((10, 4100), np.float32))
    mesh, _, every = r.fit_raster(opened(tmp_path / "a.npy", spacing=5.0), error=1)
    assert every == 3 and mesh.shape == (4, 1367) and mesh.vertices[:, 0].max() == 1366 * 15


@pytest.mark.parametrize("x, y, code", [(7.0, 45.0, 32632), (-70.0, -33.0, 32719), (6.0, 60.5, 32632), (15.0, 78.0, 32633)])
def test_degrees_go_to_utm(tmp_path, x, y, code):
    raster = opened(write_tif(tmp_path / "a.tif", hills(50, 50), crs="EPSG:4326", cell=1 / 3600, x=x, y=y))
    crs = metres_crs(raster.crs, raster.transform, raster.shape)
    assert crs == f"EPSG:{code}"
    mesh = r.fit_raster(raster, error=2.0).mesh
    east, north = transformer(mesh.crs, crs).transform(*mesh.xy())
    assert 160000 < east.min() < east.max() < 840000 and np.ptp(north) == pytest.approx(49 * 30.9, rel=0.04)
    assert 0 < sideways(mesh, crs) < 0.1 and sideways(mesh, mesh.crs) == 0


def test_a_map_of_the_world_goes_to_utm_and_feet_go_to_metres(tmp_path):
    for crs, goal in (("EPSG:3857", "EPSG:32631"), ("EPSG:2263", "EPSG:32618"), ("EPSG:25832", None), ("EPSG:2056", None)):
        x, y = {"EPSG:2263": (981000, 199000), "EPSG:2056": (2600000, 1200000)}.get(crs, (500000, 5500000))
        raster = opened(write_tif(tmp_path / "a.tif", hills(20, 20), crs=crs, x=x, y=y))
        assert metres_crs(raster.crs, raster.transform, raster.shape) == (goal or raster.crs)


def test_the_poles_want_a_system(tmp_path):
    raster = opened(write_tif(tmp_path / "a.tif", hills(50, 50), crs="EPSG:4326", cell=1 / 3600, x=7, y=87))
    with pytest.raises(ValueError, match="no zone of UTM at 87.0 degrees.*EPSG:3413"):
        metres_crs(raster.crs, raster.transform, raster.shape)


def test_units_scales_and_holes(tmp_path):
    heights = hills(20, 20)
    feet = opened(write_tif(tmp_path / "a.tif", heights, unit="ft"))
    assert np.allclose(all_of(feet), heights * 0.3048) and not feet.is_whole
    numbers = np.rint(heights).astype(np.int16)
    scaled = opened(write_tif(tmp_path / "b.tif", numbers, nodata=90, scale=(0.1, 100)))
    want = np.where(numbers == 90, np.nan, 100 + 0.1 * numbers)
    assert np.allclose(all_of(scaled), want, equal_nan=True) and np.isnan(want).sum() > 9 and not scaled.is_whole
    both = opened(write_tif(tmp_path / "f.tif", numbers, scale=(0.1, 100), unit="ft"))
    assert np.allclose(all_of(both), (100 + 0.1 * numbers) * 0.3048)
    with pytest.raises(r.Unreadable, match="'furlong'"):
        opened(write_tif(tmp_path / "c.tif", heights, unit="furlong"))
    raster = opened(write_tif(tmp_path / "d.tif", heights, crs="EPSG:2263+6360"))
    assert raster.factor == pytest.approx(0.3048006)
    # Its heights are metres then, and so is the system that goes with them to the globe.
    from pyproj import CRS
    assert [axis.unit_name for axis in CRS(raster.crs).axis_info] == ["US survey foot", "US survey foot", "metre"]
    assert opened(tmp_path / "b.tif", nodata=200).nodata == 200


def written(path, bands, mask=None, colorinterp=None, colormap=None, **profile):
    """A GeoTIFF of bands that are said to be something, in a folder of its own."""
    import rasterio
    with rasterio.Env(GDAL_TIFF_INTERNAL_MASK=True), rasterio.open(
            path, "w", driver="GTiff", width=bands[0].shape[1], height=bands[0].shape[0], count=len(bands), dtype=bands[0].dtype,
            crs="EPSG:32632", transform=rasterio.Affine(30, 0, 5e5, 0, -30, 5e6), **profile) as file:
        if colorinterp:
            file.colorinterp = [rasterio.enums.ColorInterp[name] for name in colorinterp]
        file.write(np.stack(bands))
        if mask is not None:
            file.write_mask(mask)
        if colormap:
            file.write_colormap(1, colormap)
    return path


def test_a_mask_and_an_alpha_band_say_where_heights_are(tmp_path):
    heights = hills(30, 40)
    mask = np.full(heights.shape, 255, np.uint8)
    mask[:10, :10] = 0
    for raster in (opened(written(tmp_path / "a.tif", [heights], mask)),
                   opened(written(tmp_path / "b.tif", [heights, mask.astype(np.float32)], colorinterp=["gray", "alpha"])),
                   opened(written(tmp_path / "c.tif", [mask] * 3 + [mask], colorinterp=["red", "green", "blue", "alpha"]),
                          encoding="terrarium")):
        assert np.array_equal(np.isnan(all_of(raster)), mask == 0) and raster.suspect() is None
        assert r.fit_raster(raster.part((0, 0, 20, 30)), error=500).mesh.holes == 100


@pytest.mark.parametrize("nodata", [None, -3.40282306074e38])
def test_the_least_float_stands_for_no_height(tmp_path, nodata):
    heights = hills(30, 40)
    heights[:10, :10], heights[20, 20] = np.float32(-3.4028235e38), np.float32(-3.40282306074e38)
    assert np.isnan(all_of(opened(written(tmp_path / "a.tif", [heights], nodata=nodata)))).sum() == 101


@pytest.mark.parametrize("number", [-9999, -32768, 0])
def test_an_edge_of_one_number_is_warned_of(tmp_path, number):
    heights = np.pad(np.rint(hills(30, 40)).astype(np.int16), 5, constant_values=number)
    raster = opened(write_tif(tmp_path / "a.tif", heights))
    assert f"100 % of the edge has the height {number}, " in raster.suspect()
    with pytest.warns(UserWarning, match="of the edge has the height"):
        calfrewin.fit_file(tmp_path / "a.tif", error=5)
    assert opened(tmp_path / "a.tif", nodata=number).suspect() is None
    for plain in (hills(30, 40), np.zeros((30, 40), np.float32)):
        assert opened(write_tif(tmp_path / "b.tif", plain)).suspect() is None


def test_what_is_no_height_is_refused(tmp_path):
    heights, colours = hills(30, 40), np.zeros((30, 40), np.uint8)
    for number in (np.inf, -np.inf, 1e30):
        heights[3, 4] = number
        path = written(tmp_path / "a.tif", [heights])
        with pytest.raises(r.Unreadable, match="at column 4, row 3, and heights have to be finite.*--nodata"):
            all_of(opened(path))
        assert np.isnan(all_of(opened(path, nodata=float(heights[3, 4])))).sum() == 1
    path = written(tmp_path / "b.tif", [colours] * 3)
    with pytest.raises(r.Unreadable, match="three bands of bytes, as a photograph has .*--encoding terrain-rgb or terrarium"):
        opened(path)
    assert all_of(opened(path, band=2)).max() == 0
    with pytest.raises(r.Unreadable, match="has a palette"):
        opened(written(tmp_path / "c.tif", [colours], colorinterp=["palette"], colormap={0: (1, 2, 3)}))
    with pytest.raises(ValueError, match="a corner of the heights is at 99.5 degrees of latitude, and there are 90"):
        opened(write_tif(tmp_path / "d.tif", hills(9, 9), crs="EPSG:4326", cell=1, x=0, y=100))
    with pytest.raises(ValueError, match="degrees of longitude, more than once around"):
        opened(write_tif(tmp_path / "e.tif", hills(9, 80), crs="EPSG:4326", cell=5, x=0, y=60))


def test_all_of_16_bits_with_a_scale(tmp_path):
    numbers = np.arange(1200, dtype=np.uint16).reshape(30, 40)
    numbers[0, 0] = 65_535
    path = written(tmp_path / "a.tif", [numbers])
    assert r.fit_raster(opened(path), error=1).mesh.unit == 1
    assert np.allclose(all_of(opened(path, scale=0.01, offset=-100)), numbers * 0.01 - 100, atol=1e-4)


def test_a_grid_of_a_site_is_metres_without_a_system(tmp_path):
    raster = opened(write_tif(tmp_path / "a.tif", hills(9, 9), crs='LOCAL_CS["site",UNIT["foot",0.3048]]', x=1000, y=2000))
    assert raster.crs is None and raster.transform[0] == pytest.approx(30 * 0.3048)


def test_the_world_and_180_degrees(tmp_path):
    world = opened(write_tif(tmp_path / "a.tif", hills(18, 36), crs="EPSG:4326", cell=10, x=-180, y=90))
    with pytest.raises(ValueError, match="crs is EPSG:32631, and has no place, or no single one, for x = .*--bounds"):
        refuse_unplaced(world.crs, "EPSG:32631", world.transform, world.shape)
    mesh = r.fit_raster(world, error=20).mesh
    with pytest.raises(ValueError, match=r"has no place for \d+ of \d+ vertices, as for x = .*--bounds"):
        mesh.save(tmp_path / "a.glb")
    assert not (tmp_path / "a.glb").exists()
    with pytest.raises(ValueError, match="is beyond a pole"):
        tiles.plan_of(world, str(tmp_path / "t"), error=10.0, tile=9)
    fiji = opened(write_tif(tmp_path / "b.tif", hills(30, 40), crs="EPSG:4326", cell=1 / 60, x=179.8, y=-17))
    crs = metres_crs(fiji.crs, fiji.transform, fiji.shape)
    refuse_unplaced(fiji.crs, crs, fiji.transform, fiji.shape)
    assert crs in ("EPSG:32760", "EPSG:32701")
    tiles.build(tiles.plan_of(fiji, str(tmp_path / "f"), error=10.0, tile=33))
    west, _, east, *_ = json.loads((tmp_path / "f/tileset.json").read_text())["root"]["boundingVolume"]["region"]
    assert np.degrees([west, east]) == pytest.approx([179.8, 180.466 - 360], abs=0.02)
    told = terrain(fiji, str(tmp_path / "q"), zoom=5)
    assert told["zoom"] == 5 and sorted(it.name for it in (tmp_path / "q/5").iterdir()) == ["0", "63"]
    *_, last = json.loads((tmp_path / "q/layer.json").read_text())["available"]
    assert [(it["startX"], it["endX"]) for it in last] == [(63, 63), (0, 0)]


def test_a_smooth_fill_is_the_same_by_any_windows(tmp_path):
    heights = hills(90, 120)
    heights[20:70, 30:110] = np.nan
    raster = opened(write_tif(tmp_path / "a.tif", heights)).filled("smooth")
    whole = all_of(raster)
    assert np.isfinite(whole).all() and np.array_equal(whole[~np.isnan(heights)], heights[~np.isnan(heights)])
    assert np.array_equal(raster.heights(25, 40, 30, 50), whole[25:55, 40:90])
    assert np.nanmin(heights) - 1 <= whole.min() and whole.max() <= np.nanmax(heights) + 1
    assert all_of(raster.filled(7)).max(where=np.isnan(heights), initial=0) == 7 and not opened(
        write_tif(tmp_path / "b.tif", np.rint(hills(9, 9)).astype(np.int16))).filled(0.5).is_whole


def test_bounds_are_a_window(tmp_path):
    raster = opened(write_tif(tmp_path / "a.tif", hills(50, 60)))  # points from 500015 and 4999985 on
    assert raster.window_of((500015, 4998515, 501785, 4999985)) == (0, 0, 50, 60)
    assert raster.window_of((500046, 4999800, 500135, 4999924)) == (3, 2, 4, 3)
    assert raster.window_of((0, 0, 1e9, 1e9)) == (0, 0, 50, 60)
    with pytest.raises(ValueError, match="bounds are 0,0,1,1, and have to hold .* of 500015,4998515,501785,4999985"):
        raster.window_of((0, 0, 1, 1))


@pytest.mark.parametrize("name, content, text", [
    ("a.npy", b"nothing", "a.npy"),
    ("a.npz", b"PK", "a.npz"),
    ("a.pgm", b"P5\n3 3\n", "has no columns, rows and maxval"),
    ("a.pgm", b"P5 3 3 255\n12345678", "ends early: 8 bytes for 3 x 3 heights, and 9 are wanted"),
    ("a.pgm", b"P5 3 3 65535\n" + bytes(17), "ends early: 17 bytes"),
    ("a.pgm", b"P5 3 3 70000\n" + bytes(18), "maxval of 70000"),
    ("a.pgm", b"P2 2 2 255\n1 2 3", "ends early: 3 heights of 2 x 2"),
    ("a.pgm", b"P2 2 2 255\n1 2 3 # comment", "something that is no number"),
    ("rome.hgt", bytes(18), "has to be named as N36W085.hgt"),
    ("N36W085.hgt", bytes(20), "no SRTM tile"),
    ("a.tif", b"II*\0nothing", "a.tif"),
    ("a.txt", b"some words", "a.txt"),
])
def test_a_file_that_is_none_is_refused(tmp_path, name, content, text):
    (tmp_path / name).write_bytes(content)
    with pytest.raises(r.Unreadable, match=text):
        opened(tmp_path / name, spacing=1.0)


def test_a_truncated_file_is_refused(tmp_path):
    path = write_tif(tmp_path / "a.tif", hills(300, 300))
    data = (tmp_path / "a.tif").read_bytes()
    (tmp_path / "a.tif").write_bytes(data[:len(data) // 2])
    with pytest.raises(r.Unreadable, match="a.tif"):
        all_of(opened(path))


def test_what_the_file_does_not_say_has_to_be_said(tmp_path):
    np.save(tmp_path / "a.npy", hills(40, 40))
    np.save(tmp_path / "cube.npy", np.zeros((3, 3, 3)))
    with pytest.raises(r.Unreadable, match="give --spacing METRES"):
        opened(tmp_path / "a.npy")
    with pytest.raises(r.Unreadable, match=r"shape \(3, 3, 3\)"):
        opened(tmp_path / "cube.npy", spacing=1.0)
    with pytest.raises(ValueError, match="band is 2, and .* has 1"):
        opened(write_tif(tmp_path / "a.tif", hills(9, 9)), band=2)
    with pytest.raises(r.Unreadable, match="complex numbers"):
        opened(write_tif(tmp_path / "b.tif", hills(9, 9).astype(np.complex64)))
    with pytest.raises(ValueError, match="window is 5 columns from 7 and 2 rows from 0, .* within 9 columns and 9 rows"):
        opened(tmp_path / "a.tif").window((0, 7, 2, 5))


def test_rioxarray_brings_place_system_and_nodata(tmp_path):
    rioxarray = pytest.importorskip("rioxarray")
    heights = hills(40, 60)
    heights[3:5, 6:9] = -9999
    path = write_tif(tmp_path / "a.tif", heights, nodata=-9999)
    mesh = calfrewin.fit(rioxarray.open_rasterio(path), error=1)
    own = r.fit_raster(opened(path), error=1).mesh
    assert np.allclose(mesh.vertices, own.vertices) and "32N" in mesh.crs and mesh.holes == own.holes == 6


def off_on_the_globe(raster, mesh, heights, folder, rng, rays):
    """How far the ground is from the mesh on the globe, straight up or down, at some points of the raster."""
    told = mesh.save(str(folder / "a.npz"), crs="globe")
    frame = np.array(told["to_EPSG:4978"]).reshape(4, 4).T
    vertices = np.load(folder / "a.npz")["vertices"] @ frame[:3, :3].T + frame[:3, 3]
    a, b, c = (vertices[mesh.triangles[:, k]] for k in range(3))
    e1, e2 = b - a, c - a
    geodetic, geocentric = transformer(raster.crs, "EPSG:4979"), transformer("EPSG:4979", "EPSG:4978")
    worst, t = 0.0, raster.transform
    rows, columns = (rng.integers(count, size=rays) for count in heights.shape)
    lon, lat, _ = geodetic.transform(t[0] * columns + t[2], t[4] * rows + t[5], np.zeros(rays))
    feet, tops = (np.column_stack(geocentric.transform(lon, lat, np.full(rays, z))) for z in (0.0, 1.0))
    for row, column, foot, top in zip(rows, columns, feet, tops):
        # The ray foot + s d against all triangles (Moeller, Trumbore).
        d, o = top - foot, foot - a
        q = np.cross(d, e2)
        det = (e1 * q).sum(1)
        u, w = (o * q).sum(1) / det, np.cross(o, e1)
        v, s = (w @ d) / det, (e2 * w).sum(1) / det
        hit = (u >= -1e-6) & (v >= -1e-6) & (u + v <= 1 + 1e-6)
        if hit.any():
            worst = max(worst, np.abs(s[hit] - heights[row, column]).min())
    return worst


@pytest.mark.parametrize("crs, cell, x, y", [
    ("EPSG:32632", 90.0, 400000.0, 5300000.0),
    ("EPSG:4326", 1 / 1200, 7.0, 60.0),
    ("EPSG:3857", 90.0, 800000.0, 6000000.0),
    ("EPSG:4326", 1 / 120, 7.0, 60.0),
])
@pytest.mark.parametrize("is_sea", [False, True])
def test_on_the_globe_the_ground_is_within_the_error(tmp_path, rng, crs, cell, x, y, is_sea):
    heights = np.zeros((300, 500), np.float32) if is_sea else hills(300, 500, relief=900)
    raster = opened(write_tif(tmp_path / "a.tif", heights, crs=crs, cell=cell, x=x, y=y))
    mesh = r.fit_raster(raster, error=4.0, globe=True).mesh
    worst = off_on_the_globe(raster, mesh, heights, tmp_path, rng, 1000 if is_sea else 70)
    assert 0.3 * mesh.error < worst <= mesh.error <= 4.0


@pytest.mark.parametrize("triangles", [16, 128])
def test_on_the_globe_a_coarse_mesh_is_off_by_what_it_tells(tmp_path, rng, triangles):
    heights = np.zeros((257, 257), np.float32)  # of the sea between 55 and 65 degrees
    raster = opened(write_tif(tmp_path / "a.tif", heights, crs="EPSG:4326", cell=10 / 257, x=7.0, y=65.0))
    mesh = r.fit_raster(raster, triangles=triangles, globe=True).mesh
    worst = off_on_the_globe(raster, mesh, heights, tmp_path, rng, 2000)
    assert 0.5 * mesh.error < worst <= mesh.error


def test_heights_over_a_geoid_are_brought_to_the_ellipsoid(tmp_path):
    path = write_tif(tmp_path / "a.tif", hills(65, 65), crs="EPSG:4326", cell=1 / 1200, x=7.0, y=45.0)
    flat, over = opened(path), opened(path, vertical="EPSG:5773")
    x, y = 7.03, 44.97
    # EGM96's undulation there, by the table of PROJ's own grid egm96_15.
    assert transformer(over.crs, "EPSG:4979").transform(x, y, 0)[2] == pytest.approx(52.9, abs=0.5)
    assert transformer(flat.crs, "EPSG:4979").transform(x, y, 0)[2] == 0
    # A map has no heights of its own, so they stay as they are.
    assert len(transformer(over.crs, "EPSG:32632").transform(x, y)) == 2
    with pytest.raises(ValueError, match="projsync --file"):
        opened(path, vertical="EPSG:8051")
    with pytest.raises(ValueError, match="has to be a system of heights, as EPSG:5773"):
        with_heights("EPSG:4326", "EPSG:32632")
    with pytest.raises(ValueError, match="the raster has no coordinate system"):
        with_heights(None, "EPSG:5773")

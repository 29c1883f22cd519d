"""What is written, read back by other readers: our own of GLB, meshio, assimp, f3d, admesh, numpy."""
import json
import re
import subprocess

import numpy as np
import pytest

import calfrewin
from calfrewin import export, files
from calfrewin.normals import ground_normals, normals_of
from calfrewin.solid import solid
from made import hills, write_tif
from readers import is_closed, read_glb, up_of

PLACE = {"transform": (30, 0, 500000, 0, -30, 5000000), "crs": "EPSG:32632"}
PNG = bytes.fromhex("89504e470d0a1a0a0000000d49484452000000010000000108000000003a7e9b550000000a49444154789c63680000008200"
                    "81775cd2b50000000049454e44ae426082")


@pytest.fixture
def mesh():
    return calfrewin.fit(hills(60, 90), error=2, **PLACE)


def names(folder):
    return sorted(it.name for it in folder.iterdir())


def test_a_glb_is_by_the_rules_and_has_the_mesh(mesh, tmp_path):
    told = mesh.save(str(tmp_path / "a.glb"), uv=True)
    it = read_glb((tmp_path / "a.glb").read_bytes())
    assert np.allclose(up_of(it["points"]) + told["origin"], mesh.vertices, rtol=0, atol=2e-3)
    assert np.array_equal(it["triangles"], mesh.triangles)
    assert np.allclose(it["uv"], np.column_stack((mesh.column / 89, mesh.row / 59)), atol=1e-6)
    assert it["extras"] == told == json.loads((tmp_path / "a.glb.json").read_text())
    assert told["origin"] == [501335, 4999115, 0] and told["crs"] == "EPSG:32632" and told["error"] == mesh.error
    material = it["head"]["materials"][0]["pbrMetallicRoughness"]
    assert material["metallicFactor"] == 0 and min(material["baseColorFactor"]) > 0.5
    assert names(tmp_path) == ["a.glb", "a.glb.json"]


def test_a_glb_has_the_normals_of_the_ground(tmp_path):
    y, x = np.mgrid[0:40, 0:50] * 10.0
    ground = 50 * np.sin(x / 100) + 40 * np.cos(y / 70)
    mesh = calfrewin.fit(ground[::-1], error=0.1, cell=10)  # the first row is the northern one
    mesh.save(str(tmp_path / "a.glb"), exaggerate=2)
    it = read_glb((tmp_path / "a.glb").read_bytes())
    px, py = mesh.xy()
    want = np.column_stack((-100 * np.cos(px / 100) / 100, 80 * np.sin(py / 70) / 70, np.ones(len(px))))
    want /= np.linalg.norm(want, axis=1, keepdims=True)
    inner = (mesh.column > 0) & (mesh.column < 49) & (mesh.row > 0) & (mesh.row < 39)
    assert np.abs(up_of(it["normals"]) - want)[inner].max() < 0.01
    # Where every point is a vertex, the triangles around it have nearly the same mean.
    fine = calfrewin.fit(ground[::-1], error=0.01, cell=10)
    assert np.abs(ground_normals(fine) - normals_of(fine.vertices, fine.triangles)).max() < 0.15
    placed = calfrewin.fit(ground[::-1], error=1, transform=(0, -10, 400, 10, 0, 5))
    assert np.abs(ground_normals(placed)[:, 2] - normals_of(placed.vertices, placed.triangles)[:, 2]).max() < 0.2


def test_normals_in_another_system_are_turned_with_it(tmp_path):
    mesh = calfrewin.fit(hills(60, 90), error=0.5, transform=(1 / 3600, 0, 12, 0, -1 / 3600, 60), crs="EPSG:4326")
    told = mesh.save(str(tmp_path / "a.glb"), crs="EPSG:32632")  # 3 degrees from its meridian, so north is turned by 2.6
    it = read_glb((tmp_path / "a.glb").read_bytes())
    own = normals_of(up_of(it["points"]), it["triangles"])
    assert np.abs((up_of(it["normals"]) * own).sum(1)).mean() > 0.98 and told["crs"] == "EPSG:32632"
    level = ground_normals(mesh.at((15.5, 0, 0, 0, -30.95, 0)))  # of cells of the same size that are not turned
    angles = [np.arctan2(normals[:, 1], normals[:, 0]) for normals in (up_of(it["normals"]), level)]
    turn = (angles[0] - angles[1] + np.pi) % (2 * np.pi) - np.pi
    assert np.degrees(np.median(turn[level[:, 2] < 0.99])) == pytest.approx(3 * np.sin(np.radians(60)), abs=0.1)


def test_a_quantized_glb_loses_nothing(tmp_path):
    mesh = calfrewin.fit(hills(65, 65), error=2, cell=30)
    told = mesh.save(str(tmp_path / "a.glb"), quantize=True)
    it = read_glb((tmp_path / "a.glb").read_bytes())
    assert np.abs(up_of(it["points"]) + told["origin"] - mesh.vertices).max() < 1e-6
    assert (tmp_path / "a.glb").stat().st_size < 0.7 * 24 * len(mesh.height) + 6 * len(mesh.triangles) + 3000
    assert "quantized" not in told


@pytest.mark.parametrize("transform, crs", [
    ((30, 0, 5e5, 0, -30, 5e6), None), ((30, 0, 5e5, 0, 30, 5e6), None), ((20, 5, 5e5, 5, -20, 5e6), None),
    ((1 / 3600, 0, 7, 0, -1 / 3600, 45), "EPSG:32632"),
])
def test_any_mesh_is_quantized_and_what_it_loses_is_told(tmp_path, transform, crs):
    mesh = calfrewin.fit(hills(40, 70), error=2, transform=transform, crs="EPSG:4326" if crs else "EPSG:32632")
    told = mesh.save(str(tmp_path / "a.glb"), quantize=True)
    plain = mesh.save(str(tmp_path / "b.glb"))
    one, two = (read_glb((tmp_path / name).read_bytes()) for name in ("a.glb", "b.glb"))
    assert told["crs"] == plain["crs"] == (crs or "EPSG:32632") and np.array_equal(one["triangles"], two["triangles"])
    assert np.abs(one["points"] - two["points"]).max() < 0.05
    lost = told.get("quantized", 0.0)
    assert told["error"] == pytest.approx(mesh.error + lost) and 0 <= lost < 0.5


def test_degrees_are_written_in_metres(tmp_path):
    mesh = calfrewin.fit(hills(40, 70), error=2, transform=(1 / 3600, 0, 7, 0, -1 / 3600, 45), crs="EPSG:4326")
    told = mesh.save(str(tmp_path / "a.glb"))
    assert told["crs"] == "EPSG:32632" and 1000 < np.ptp(read_glb((tmp_path / "a.glb").read_bytes())["points"][:, 0]) < 2500
    assert mesh.save(str(tmp_path / "a.ply"), crs="EPSG:4326")["crs"] == "EPSG:4326"


def test_what_is_written_beside_a_mesh_has_no_infinity(tmp_path):
    with pytest.raises(ValueError, match="not JSON compliant"):
        files.json_of({"origin": [float("inf")]})


def test_the_floor_of_a_print_is_at_0_and_parts_that_meet_at_a_point_are_closed(mesh, tmp_path):
    import meshio
    told = mesh.save(tmp_path / "a.stl", size=100)
    assert meshio.read(tmp_path / "a.stl").points[:, 2].min() == 0
    scale = told["millimetres_to_a_metre"]
    assert told["origin"][2] == pytest.approx(mesh.height.min() - 2 / scale)
    heights = hills(9, 9)
    heights[:4, 5:], heights[5:, :4] = np.nan, np.nan
    apart = calfrewin.fit(heights, error=0.5)
    apart.save(tmp_path / "b.stl", size=100)
    said = subprocess.run(["admesh", str(tmp_path / "b.stl")], stdout=subprocess.PIPE, text=True, check=True).stdout
    assert re.search(r"Total disconnected facets +: +0 +0", said) and apart.is_clipped


def test_a_picture_is_laid_where_it_belongs(tmp_path):
    import rasterio
    mesh = calfrewin.fit(hills(40, 60), error=2, **PLACE)  # x from 500000 to 501770, y from 4998830 to 5000000
    red = np.zeros((3, 100, 100), np.uint8)
    red[0, :, 50:] = 255  # in the eastern half, of 0 to 3000 m
    write_tif(tmp_path / "a.tif", red, cell=30, x=499500, y=5000500)
    mesh.save(tmp_path / "a.glb", texture=tmp_path / "a.tif")
    data = (tmp_path / "a.glb").read_bytes()
    it = read_glb(data)["head"]
    view = it["bufferViews"][it["images"][0]["bufferView"]]
    begin = data.index(b"\x89PNG")
    with rasterio.MemoryFile(data[begin:begin + view["byteLength"]]) as file, file.open() as picture:
        found = picture.read(1)
    # The middle of the file is at x = 501000, 1000 of 1770 m from the first point.
    assert found.shape == (39, 59) and (found[:, :32] == 0).all() and (found[:, 35:] == 255).all()
    write_tif(tmp_path / "b.tif", red, x=900000)
    with pytest.raises(ValueError, match="lies elsewhere than the heights"):
        mesh.save(tmp_path / "b.glb", texture=tmp_path / "b.tif")
    write_tif(tmp_path / "c.tif", red.astype(np.float32))
    with pytest.raises(ValueError, match="whose bands are float32, and have to be bytes"):
        mesh.save(tmp_path / "b.glb", texture=tmp_path / "c.tif")


def test_a_texture_is_in_the_glb(mesh, tmp_path):
    mesh.save(tmp_path / "a.glb", texture=PNG)
    data = (tmp_path / "a.glb").read_bytes()
    it = read_glb(data)
    assert it["head"]["images"][0]["mimeType"] == "image/png" and PNG in data and "uv" in it


@pytest.mark.parametrize("kind", export.BY_MESHIO)
def test_meshio_reads_what_was_written(mesh, tmp_path, kind):
    import meshio
    told = mesh.save(str(tmp_path / ("a" + kind)))
    found = meshio.read(tmp_path / ("a" + kind))
    corners = np.concatenate([found.points[it.data] for it in found.cells if it.type == "triangle"])
    want = (mesh.vertices - told["origin"])[mesh.triangles]
    assert np.allclose(corners, want, rtol=0, atol=2e-3)
    assert (told["origin"] == [0, 0, 0]) == (kind in (".vtk", ".vtu", ".off"))


@pytest.mark.parametrize("kind", [".glb", ".ply", ".stl", ".obj", ".off"])
def test_assimp_reads_what_was_written(mesh, tmp_path, kind):
    path = tmp_path / ("a" + kind)
    mesh.save(str(path), texture=PNG if kind == ".glb" else None)
    said = subprocess.run(["assimp", "info", str(path)], stdout=subprocess.PIPE, text=True, check=True).stdout
    assert int(re.search(r"^Faces: +(\d+)", said, re.M)[1]) == len(mesh.triangles)
    low, high = (np.array(re.search(rf"^{word} point +\((.*)\)", said, re.M)[1].split(), float)
                 for word in ("Minimum", "Maximum"))
    assert high[0] - low[0] == pytest.approx(89 * 30, rel=1e-4)
    assert abs(high[0] + low[0]) <= 2 or kind == ".off"  # which has its origin at 0


@pytest.mark.parametrize("kind", [".glb", ".ply", ".stl", ".obj", ".vtu"])
def test_f3d_draws_what_was_written(mesh, tmp_path, kind):
    path, picture = tmp_path / ("a" + kind), tmp_path / "a.png"
    mesh.save(str(path))
    words = ["f3d", str(path), f"--output={picture}", "--resolution=160,120", "--up=+Y" if kind == ".glb" else "--up=+Z"]
    said = subprocess.run(["xvfb-run", "-a", *words], stdout=subprocess.PIPE, stderr=subprocess.STDOUT, text=True)
    assert said.returncode == 0, said.stdout
    import rasterio
    with rasterio.open(picture) as it:
        assert len(np.unique(it.read(1))) > 20


def test_many_vertices_have_wide_indices(tmp_path):
    mesh = calfrewin.fit(np.random.default_rng(1).integers(0, 999, (257, 257)), error=0)
    mesh.save(str(tmp_path / "a.glb"))
    assert len(mesh.height) > 65_535 and len(read_glb((tmp_path / "a.glb").read_bytes())["points"]) == len(mesh.height)


def test_an_npz_has_all(mesh, tmp_path):
    mesh.save(str(tmp_path / "a.npz"))
    it = np.load(tmp_path / "a.npz")
    assert np.array_equal(it["vertices"], mesh.vertices) and np.array_equal(it["triangles"], mesh.triangles)
    assert (it["origin"].tolist(), str(it["crs"]), float(it["error"])) == ([0, 0, 0], "EPSG:32632", mesh.error)


def test_an_origin_is_where_it_is_said(mesh, tmp_path):
    told = mesh.save(str(tmp_path / "a.glb"), origin=(500000, 4999000, 50))
    it = read_glb((tmp_path / "a.glb").read_bytes())
    assert told["origin"] == [500000, 4999000, 50]
    assert np.allclose(up_of(it["points"]) + told["origin"], mesh.vertices, rtol=0, atol=2e-3)


@pytest.mark.parametrize("is_rectangle", [True, False])
def test_a_solid_is_closed(mesh, is_rectangle):
    points, triangles = solid(mesh.vertices - (500000, 5000000, 0), mesh.triangles, -50.0, is_rectangle)
    a, b, c = (mesh.vertices[mesh.triangles[:, k]] for k in range(3))
    over = (np.cross((b - a)[:, :2], (c - a)[:, :2]) / 2 * ((a + b + c)[:, 2] / 3 + 50)).sum()
    assert is_closed(points, triangles) == pytest.approx(over, rel=1e-9)


def test_a_print_has_the_size_in_millimetres_and_admesh_finds_it_closed(mesh, tmp_path):
    told = mesh.save(str(tmp_path / "a.stl"), size=120, exaggerate=3)
    said = subprocess.run(["admesh", str(tmp_path / "a.stl")], stdout=subprocess.PIPE, text=True, check=True).stdout
    assert re.search(r"Total disconnected facets +: +0 +0", said)
    (x, x2), (y, y2), (z, z2) = (map(float, re.search(rf"Min {a} = +(\S+), Max {a} = +(\S+)", said).groups()) for a in "XYZ")
    scale = 120 / (89 * 30)
    assert x2 - x == pytest.approx(120, abs=1e-3) and y2 - y == pytest.approx(120 * 59 / 89, abs=1e-3)
    assert z2 - z == pytest.approx(np.ptp(mesh.height) * 3 * scale + 2, abs=1e-3)
    assert told["millimetres_to_a_metre"] == pytest.approx(scale) and told["error"] == mesh.error
    assert int(re.search(r"Number of facets +: +(\d+)", said)[1]) == told["triangles"] > len(mesh.triangles)
    assert int(re.search(r"Number of parts +: +(\d+)", said)[1]) == 1


def test_a_base_is_where_it_is_said(mesh, tmp_path):
    import meshio
    mesh.save(str(tmp_path / "a.ply"), base=10, exaggerate=2)
    points = meshio.read(tmp_path / "a.ply").points
    assert points[:, 2].min() == 20 and points[:, 2].max() == pytest.approx(2 * mesh.height.max(), abs=1e-3)
    with pytest.raises(ValueError, match="base is 100, and has to be below the lowest height, 9"):
        mesh.save(str(tmp_path / "b.ply"), base=100)


@pytest.mark.parametrize("path, options, text", [
    ("a.xyz", {}, "path is 'a.xyz', and has to end in one of .glb .npz .ply"),
    ("a.ply", {"uv": True}, "uv, texture and quantize are for .glb alone"),
    ("a.glb", {"texture": PNG, "base": 0}, "base and size make a solid"),
    ("a.glb", {"quantize": True, "size": 9}, "base and size make a solid"),
    ("a.glb", {"texture": b"GIF89a"}, "texture is no PNG and no JPEG"),
    ("a.glb", {"crs": "EPSG:99"}, "crs is 'EPSG:99', and PROJ knows no such system"),
    ("a.glb", {"crs": "globe"}, "the mesh was not made with globe=True"),
    ("a.glb", {"crs": "globe", "size": 9}, "crs globe is no system for base, size and origin"),
])
def test_a_refusal_of_save_names_the_option(mesh, tmp_path, monkeypatch, path, options, text):
    monkeypatch.chdir(tmp_path)
    with pytest.raises(ValueError, match=re.escape(text)):
        mesh.save(path, **options)
    assert names(tmp_path) == []


def test_a_mesh_without_a_system_is_brought_to_none(tmp_path):
    with pytest.raises(ValueError, match="has no system from which it could be brought there"):
        calfrewin.fit(hills(5, 5), error=2).save(str(tmp_path / "a.glb"), crs="EPSG:32632")


def test_a_glb_that_is_too_long_is_refused():
    from calfrewin.glb import Buffer, _chunks
    buffer = Buffer()
    buffer.length = 1 << 32
    with pytest.raises(ValueError, match="more than its 32-bit length can say"):
        _chunks({}, buffer)


@pytest.mark.parametrize("kind", [".glb", ".ply", ".npz"])
def test_after_a_failed_write_the_old_file_is_there(mesh, tmp_path, monkeypatch, kind):
    path = tmp_path / ("a" + kind)
    mesh.save(str(path))
    before = path.read_bytes()

    def fail(*_):
        raise OSError("no space left")
    monkeypatch.setattr(files.os, "replace", fail)
    with pytest.raises(OSError, match="no space left"):
        mesh.save(str(path))
    assert path.read_bytes() == before and names(tmp_path) == ["a" + kind, f"a{kind}.json"]


def test_a_folder_and_a_device_are_not_replaced(mesh, tmp_path):
    (tmp_path / "a.glb").mkdir()
    with pytest.raises(OSError, match="is a folder"):
        mesh.save(str(tmp_path / "a.glb"))
    (tmp_path / "b.glb").symlink_to("/dev/null")
    with pytest.raises(OSError, match="is no regular file"):
        mesh.save(str(tmp_path / "b.glb"))
    assert names(tmp_path) == ["a.glb", "b.glb"]


def test_what_a_link_leads_to_is_replaced(mesh, tmp_path):
    (tmp_path / "real.glb").write_bytes(b"old")
    (tmp_path / "a.glb").symlink_to("real.glb")
    mesh.save(str(tmp_path / "a.glb"))
    assert (tmp_path / "a.glb").is_symlink() and (tmp_path / "real.glb").read_bytes()[:4] == b"glTF"

"""The program: what it makes, says and refuses, as a process of its own where that matters."""
import json
import os
import pathlib
import pty
import re
import subprocess
import sys

import numpy as np
import pytest
from click.testing import CliRunner

from calfrewin.command import mesh
from made import hills, write_pgm, write_tif
from readers import read_glb, up_of


@pytest.fixture
def run(tmp_path, monkeypatch):
    """The program in a folder with a.tif, in degrees, and a.npy."""
    monkeypatch.chdir(tmp_path)
    write_tif("a.tif", hills(100, 150), crs="EPSG:4326", cell=1 / 3600, x=7.0, y=45.0)
    np.save("a.npy", hills(65, 65))
    return lambda *words: CliRunner(mix_stderr=False).invoke(mesh, words)


def report(result):
    assert result.exit_code == 0, result.stderr
    return json.loads(result.stdout)


def process(*words, program=("-m", "calfrewin"), **options):
    """The program as a process."""
    env = os.environ | {"PYTHONPATH": os.pathsep.join(sys.path)}
    return subprocess.Popen([sys.executable, *program, *words], env=env, stdout=subprocess.PIPE, text=True,
                            **{"stderr": subprocess.PIPE} | options)


def names():
    return sorted(os.listdir())


def test_a_file_and_what_is_said_of_it(run):
    it = run("a.tif", "a.glb", "--error", "2")
    assert it.exit_code == 0
    first, error, bent, covers, origin, look = it.stdout.splitlines()
    assert look == "to look at it: Blender, or a viewer of glTF"
    told = json.loads(open("a.glb.json").read())
    triangles, vertices = re.fullmatch(r"a\.glb: (\d+) triangles, (\d+) vertices, [\d.]+ s", first).groups()
    found = read_glb(open("a.glb", "rb").read())
    assert (len(found["triangles"]), len(found["points"])) == (int(triangles), int(vertices))
    assert (told["triangles"], told["vertices"]) == (int(triangles), int(vertices))
    assert re.fullmatch(r"error at most (1\.9\d*|2) m at all points, of which 0\.00\d+ m for rounding to 0\.005 m", error)
    assert re.fullmatch(r"the middles of the longest edges lie 0\.\d+ m sideways of their ground, as the two systems bend", bent)
    assert covers == "covers 100 % of the file's 150 x 100 points"
    assert re.fullmatch(r"origin \d+ \d+ 0; EPSG:32632, WGS 84 / UTM zone 32N", origin)
    assert it.stderr.splitlines() == ["calfrewin: reading a.tif, 150 x 100 points, and meshing", "calfrewin: writing a.glb"]
    assert names() == ["a.glb", "a.glb.json", "a.npy", "a.tif"]
    assert run("a.tif", "a.glb", "--error", "2", "--overwrite", "--quiet").stderr == ""


def test_the_report_as_json(run):
    told = report(run("a.tif", "a.ply", "--triangles", "500", "--json"))
    assert told["triangles"] <= 500 and told["of"] == told["points"] == [100, 150] and told["every"] == 1
    assert told["covered"] == 1 and told["filled"] == 0 and told["crs"] == "EPSG:32632" and told["out"] == "a.ply"


def test_points_left_out_are_told_and_measured(run):
    it = run("a.tif", "a.glb", "--error", "2", "--every", "4")
    assert "m at the 38 x 25 points taken, one of 4 each way" in it.stdout and "--measure tells the error there" in it.stdout
    assert "covers 96.32 % of the file's" in it.stdout  # 148 of 149 columns, 96 of 99 rows
    told = report(run("a.tif", "a.glb", "--error", "2", "--every", "4", "--measure", "--json", "--overwrite"))
    assert told["error_at_all_points"] > 2 >= told["error"]


def test_what_was_filled_is_told_and_much_of_it_is_warned_of(run):
    for holes, fill, text in (
            (10, "smooth", "100 points, 0.67 %, had no height and were filled"),
            (40, "100", "warning: 1600 points, 11 %, had no height and were filled"),
            (40, None, "1600 points, 11 %, have no height and get no triangles: --fill METRES or --fill smooth gives them some")):
        heights = hills(100, 150)
        heights[:holes, :holes] = -9999
        write_tif("b.tif", heights, nodata=-9999)
        words = ("--fill", fill) if fill else ()
        said = run("b.tif", "b.glb", "--error", "2", "--overwrite", *words).stdout.splitlines()
        assert text in said and ("covers 100 % of the file's 150 x 100 points" in said) == bool(fill)


def test_parts_of_a_file(run):
    write_tif("b.tif", hills(100, 150))  # points from 500015 and 4999985 on, 30 m apart
    by_window = report(run("b.tif", "b.npz", "--error", "2", "--window", "20,10,51,41", "--json"))
    by_bounds = report(run("b.tif", "c.npz", "--error", "2", "--bounds", "500600,4998480,502120,4999700", "--json"))
    assert by_window["points"] == by_bounds["points"] == [41, 51]
    assert by_window["covered"] == pytest.approx(50 * 40 / (149 * 99), abs=1e-4)
    one, two = (np.load(name)["vertices"] for name in ("b.npz", "c.npz"))
    assert np.array_equal(one, two) and one[:, 0].min() == 500615 and one[:, 1].max() == 4999685


def test_a_mask(run):
    corners = [[7.01, 44.98], [7.03, 44.98], [7.02, 44.99], [7.01, 44.98]]
    open("mask.geojson", "w").write(json.dumps({"type": "Polygon", "coordinates": [corners]}))
    told = report(run("a.tif", "b.stl", "--error", "2", "--mask", "mask.geojson", "--size", "100", "--json"))
    said = subprocess.run(["admesh", "b.stl"], stdout=subprocess.PIPE, text=True, check=True).stdout
    assert re.search(r"Total disconnected facets +: +0 +0", said) and told["filled"] == 0
    assert told["covered"] == pytest.approx(72 * 36 / 2 / (149 * 99), rel=1e-3)  # of a triangle of 72 x 36 cells


def test_a_camera_stands_where_the_file_is_written(run):
    from pyproj import Transformer
    to_utm = Transformer.from_crs("EPSG:4326", "EPSG:32632", always_xy=True)
    corners = [to_utm.transform(*corner) for corner in ((7.0, 44.9725), (7.0415, 45.0))]
    near = []
    for x, y in corners:
        report(run("a.tif", "a.npz", "--triangles", "300", "--camera", f"{x},{y},300", "--json", "--overwrite"))
        vertices = np.load("a.npz")["vertices"]
        near.append([(np.hypot(vertices[:, 0] - x, vertices[:, 1] - y) < 1000).sum() for x, y in corners])
    assert near[0][0] > 2 * near[1][0] and near[1][1] > 2 * near[0][1]
    assert run("a.npy", "a.stl", "--spacing", "5", "--triangles", "300", "--camera", "1,2,400").exit_code == 0


def test_a_system_an_origin_and_the_globe(run):
    told = report(run("a.tif", "a.glb", "--error", "2", "--crs", "EPSG:25832", "--origin", "380000,4980000,100", "--json"))
    assert (told["crs"], told["origin"]) == ("EPSG:25832", [380000, 4980000, 100])
    told = report(run("a.tif", "b.glb", "--error", "2", "--crs", "globe", "--vertical", "EPSG:5773", "--json"))
    assert told["crs"] == "globe" and len(told["to_EPSG:4978"]) == 16
    # 52.9 m from the ellipsoid to the geoid.
    from pyproj import Transformer
    frame = np.array(told["to_EPSG:4978"]).reshape(4, 4).T
    places = up_of(read_glb(open("b.glb", "rb").read())["points"]) @ frame[:3, :3].T + frame[:3, 3]
    _, _, heights = Transformer.from_crs("EPSG:4978", "EPSG:4979", always_xy=True).transform(*places.T)
    assert heights.min() == pytest.approx(hills(100, 150).min() + 52.9, abs=2)
    assert np.ptp(heights) == pytest.approx(np.ptp(hills(100, 150)), abs=3)


def test_texture_and_print(run):
    from test_export import PNG
    open("a.png", "wb").write(PNG)
    report(run("a.tif", "a.glb", "--error", "2", "--texture", "a.png", "--json"))
    assert "uv" in read_glb(open("a.glb", "rb").read())
    told = report(run("a.npy", "b.stl", "--spacing", "5", "--error", "3", "--base", "0", "--exaggerate", "2", "--json"))
    assert told["error"] <= 3 and told["exaggerate"] == 2


def test_pictures_and_pgm(run):
    path = write_pgm(pathlib.Path("a.pgm"), np.rint(hills(40, 50)).astype(int))
    assert report(run(path, "a.obj", "--error", "2", "--spacing", "90", "--json"))["points"] == [40, 50]


USAGE, DATA = 2, 1


@pytest.mark.parametrize("words, status, text", [
    ((), USAGE, "Missing argument 'IN'"),
    (("a.tif",), USAGE, "Missing argument 'OUT'"),
    (("a.tif", "a.glb", "--nonsense"), USAGE, "No such option: --nonsense"),
    (("a.tif", "a.glb"), USAGE, "one of --error METRES and --triangles N is wanted"),
    (("a.tif", "a.glb", "--error", "1", "--triangles", "9"), USAGE, "one of --error METRES and --triangles N is wanted"),
    (("a.tif", "a.glb", "--error", "-1"), USAGE, "-1.0 is not in the range x>=0"),
    (("a.tif", "a.glb", "--error", "much"), USAGE, "'much' is not a valid float"),
    (("a.tif", "a.glb", "--error", "nan"), DATA, "error is nan, and has to be 0 or more"),
    (("a.tif", "a.glb", "--triangles", "1"), USAGE, "1 is not in the range x>=2"),
    (("a.tif", "a.xyz", "--error", "1"), USAGE, "has to end in one of .glb"),
    (("a.tif", "no/a.glb", "--error", "1"), USAGE, "no such folder"),
    (("a.tif", "a.glb", "--error", "1", "--window", "1,2"), USAGE, "COLUMN,ROW,COLUMNS,ROWS"),
    (("a.tif", "a.glb", "--error", "1", "--window", "1,2,3,x"), USAGE, "COLUMN,ROW,COLUMNS,ROWS"),
    (("a.tif", "a.glb", "--error", "1", "--window", "1,2,3,4", "--bounds", "1,2,3,4"), USAGE, "one of --window and --bounds"),
    (("a.tif", "a.glb", "--error", "1", "--camera", "1,2,3"), USAGE, "--camera is for --triangles"),
    (("a.tif", "a.glb", "--triangles", "9", "--camera", "1,2,3", "--crs", "globe"), USAGE, "not for --crs globe or --mask"),
    (("a.tif", "a.glb", "--error", "1", "--measure", "--crs", "globe"), USAGE, "--measure is for a map"),
    (("a.tif", "tiles/", "--error", "1", "--origin", "1,2,3", "--size", "9"), USAGE, "--origin and --size: for one file"),
    (("a.tif", "tiles/", "--format", "quantized-mesh", "--mask", "a.tif"), USAGE, "--mask is for 3D Tiles"),
    (("a.tif", "a.glb", "--error", "1", "--fill", "deep"), USAGE, "'deep' has to be METRES or smooth"),
    (("a.tif", "a.glb", "--error", "1", "--fill", "nan"), USAGE, "--fill is nan, and has to be a finite height, or smooth"),
    (("a.tif", "tiles/", "--error", "1", "--exaggerate", "2"), USAGE, "--exaggerate: for one file, and OUT is a folder of tiles"),
    (("a.tif", "tiles/", "--triangles", "9", "--format", "quantized-mesh"), USAGE,
     "--triangles: for 3D Tiles, and not for quantized"),
    (("a.tif", "tiles/", "--error", "1", "--skirts", "--certify"), USAGE, "--skirts has no certificate"),
    (("a.tif", "a.glb", "--error", "1", "--skirts"), USAGE, "--skirts: for a folder of tiles, and OUT is one file"),
    (("a.tif", "a.glb", "--error", "1", "--workers", "2"), USAGE,
     "--workers and --dask: for tiles, and for a .glb of more than 2049"),
    (("a.tif", "a.glb", "--error", "1", "--zoom", "0"), USAGE, "--zoom: for a folder of tiles, and OUT is one file"),
    (("a.tif", "there/", "--error", "1"), DATA, "there/tileset.json is there already: --overwrite replaces it"),
    (("a.tif", "a.ply", "--error", "1", "--texture", "a.tif"), USAGE, "--texture, --uv and --quantize are for .glb only"),
    (("a.tif", "a.glb", "--error", "1", "--uv", "--base", "1"), USAGE, "--base and --size make a solid"),
    (("a.tif", "a.stl", "--error", "1", "--crs", "globe", "--size", "1"), USAGE, "--base and --size make a print of a map"),
    (("a.tif", "a.glb", "--error", "1", "--texture", "b.png"), USAGE, "'b.png' does not exist"),
    (("a.tif", "a.glb", "--error", "1", "--mask", "b.geojson"), USAGE, "'b.geojson' does not exist"),
    (("a.tif", "a.glb", "--error", "1", "--window", "1,2,3000,4"), DATA, "within 150 columns and 100 rows"),
    (("a.tif", "a.glb", "--error", "1", "--bounds", "0,0,1,1"), DATA, "bounds are 0,0,1,1, and have to hold"),
    (("b.tif", "a.glb", "--error", "1"), DATA, "b.tif"),
    (("a.npy", "a.glb", "--error", "1"), DATA, "give --spacing METRES"),
    (("a.tif", "a.glb", "--error", "1", "--band", "3"), DATA, "band is 3, and a.tif has 1"),
    (("a.tif", "a.glb", "--error", "0"), DATA, "error is 0, and has to be at least 0.0025, by which heights are rounded"),
    (("a.tif", "a.glb", "--error", "1", "--crs", "EPSG:99"), DATA, "crs is 'EPSG:99', and PROJ knows no such system"),
    (("a.npy", "a.glb", "--error", "1", "--spacing", "9", "--crs", "EPSG:32632"), DATA, "has no system from which"),
    (("a.tif", "a.glb", "--error", "1", "--vertical", "EPSG:8051"), DATA, "projsync --file"),
    (("a.tif", "a.stl", "--error", "1", "--base", "200"), DATA, "base is 200, and has to be below the lowest height"),
    (("a.tif", "there.glb", "--error", "1"), DATA, "there.glb is there already: --overwrite replaces it"),
    (("a.tif", "folder.glb", "--error", "1", "--overwrite"), USAGE, "OUT is 'folder.glb', and a folder is there"),
    (("a.tif", "a.glb", "--error", "1", "--mask", "there.glb"), DATA, "there.glb"),
    (("a.tif", "a.glb", "--triangles", "2", "--camera", "1,2,nan"), DATA, "z is nan"),
    ((".", "a.glb", "--error", "1"), DATA, "."),
])
def test_what_is_refused_and_what_mends_it(run, words, status, text):
    open("there.glb", "w").write("old")
    os.mkdir("folder.glb")
    os.mkdir("there")
    open("there/tileset.json", "w").write("old")
    before = names()
    it = run(*words)
    assert it.exit_code == status and text in it.stderr and "Traceback" not in it.stderr
    assert it.exception is None or isinstance(it.exception, SystemExit)
    assert it.stdout == "" and names() == before and open("there.glb").read() == "old"


def test_a_raster_without_heights_or_a_band_is_refused(run):
    write_tif("none.tif", np.full((20, 30), -9999, np.float32), nodata=-9999)
    write_tif("infinite.tif", np.full((20, 30), np.inf, np.float32))
    open("cut.tif", "wb").write(open("a.tif", "rb").read()[:2000])
    for name, text in (("none.tif", "no point has one"), ("infinite.tif", "have to be finite"), ("cut.tif", "cut.tif")):
        it = run(name, "b.glb", "--error", "1")
        assert it.exit_code == 1 and text in it.stderr and not os.path.exists("b.glb")


def test_a_full_disk_leaves_the_old_file(run):
    run("a.tif", "a.glb", "--error", "50")
    old = open("a.glb", "rb").read()
    before = names()
    words = [sys.executable, "-m", "calfrewin", "a.tif", "a.glb", "--error", "1", "--overwrite"]
    script = "ulimit -f 8; exec \"$@\""  # blocks of 1024 bytes; Python ignores the signal and gets an error
    env = os.environ | {"PYTHONPATH": os.pathsep.join(sys.path)}
    it = subprocess.run(["bash", "-c", script, "bash", *words], env=env, capture_output=True, text=True)
    assert it.returncode == 1 and "File too large" in it.stderr and "Traceback" not in it.stderr and it.stdout == ""
    assert open("a.glb", "rb").read() == old and names() == before


# The program, that is interrupted as a file is to take its place. What a shell runs in the background does not heed SIGINT,
# unless it says so.
STRUCK = """import os, signal
from calfrewin.__main__ import main
signal.signal(signal.SIGINT, signal.default_int_handler)
os.replace = lambda *_: os.kill(os.getpid(), signal.SIGINT)
main()"""


def test_an_interrupt_leaves_the_old_file(run):
    np.save("big.npy", np.random.default_rng(1).integers(0, 60000, (129, 129)).astype(np.uint16))
    open("a.glb", "w").write("old")
    before = names()
    it = process("big.npy", "a.glb", "--error", "1", "--spacing", "10", "--overwrite", program=("-c", STRUCK))
    out, said = it.communicate()
    assert it.returncode == 1 and out == "" and "interrupted; a.glb is as it was" in said and "Traceback" not in said
    assert open("a.glb").read() == "old" and names() == before


def test_a_terminal_gets_a_progress_bar(run):
    leader, follower = pty.openpty()
    it = process("a.tif", "a.glb", "--error", "1", stderr=follower)
    out, _ = it.communicate()
    os.close(follower)
    said = os.read(leader, 1 << 16).decode()
    os.close(leader)
    assert it.returncode == 0 and "100%" in said and "[####" in said and "a.glb:" in out


def test_it_is_a_command_of_rio(run):
    from importlib import metadata
    text = (pathlib.Path(__file__).resolve().parents[1] / "pyproject.toml").read_text()
    target = re.search(r'rio_plugins"\]\nmesh = "(.*)"', text)[1]
    entry = metadata.EntryPoint("mesh", target, "rasterio.rio_plugins")
    from rasterio.rio.main import main_group
    main_group.add_command(entry.load(), "mesh")
    it = CliRunner(mix_stderr=False).invoke(main_group, ["mesh", "a.tif", "a.ply", "--error", "2"])
    assert it.exit_code == 0 and it.stdout.startswith("a.ply:")


def test_help_tells_each_option_and_the_import_is_quick(run):
    said = run("--help").stdout
    for word in ("error triangles bounds window every camera normals texture base size exaggerate overwrite json measure mask "
                 "encoding fill nodata spacing crs vertical origin quantize uv band unit quiet").split():
        assert f"--{word}" in said
    listed = subprocess.run([sys.executable, "-X", "importtime", "-c", "import calfrewin"], stderr=subprocess.PIPE, text=True,
                            env=os.environ | {"PYTHONPATH": os.pathsep.join(sys.path)}, check=True).stderr
    assert not re.search(r"\| +(rasterio|pyproj|click|meshio|shapely|matplotlib)$", listed, re.M)

"""Terrain of more tiles than one: rounds, resuming, faults, the check that trusts nothing, and one file of the whole."""
import glob
import hashlib
import json
import os
import re
import shutil
import signal
import struct
import subprocess
import sys
import time
from dataclasses import fields, replace

import numpy as np
import pytest
from hypothesis import example, given, settings, strategies as st

from calfrewin import ANY, blocks, join, run, tiles
from calfrewin.check import check
from calfrewin.ground import Ground
from calfrewin.raster import open_raster
from made import hills, triangles_changed, vertex_moved, write_tif
from readers import read_glb, up_of


def digest(folder):
    """Of the names and bytes of all files."""
    found = hashlib.sha256()
    for path in sorted(glob.glob(f"{folder}/**/*", recursive=True)):
        if os.path.isfile(path):
            found.update(os.path.relpath(path, folder).encode() + open(path, "rb").read())
    return found.hexdigest()


def built(path, out, error=2.0, tile=33, **words):
    options = {key: words.pop(key) for key in ("workers", "client", "triangles", "overwrite", "progress") if key in words}
    raster = open_raster(str(path), **{key: words.pop(key) for key in ("spacing",) if key in words})
    error = None if "triangles" in options else error
    return tiles.build(tiles.plan_of(raster, str(out), error=error, tile=tile, **words), **options)


def checked(path, out, **words):
    return check(str(out), open_raster(str(path)), **words)


@pytest.fixture(scope="module")
def terrain(tmp_path_factory):
    """180 x 250 points, no multiple of a tile."""
    folder = tmp_path_factory.mktemp("terrain")
    return write_tif(folder / "a.tif", hills(180, 250, relief=900))


@pytest.mark.parametrize("crs, cell, x, y", [("EPSG:32632", 90.0, 400000.0, 5300000.0), ("EPSG:4326", 1 / 1200, 7.0, 60.0),
                                             ("EPSG:3857", 90.0, 800000.0, 6000000.0), (None, 30.0, 0.0, 0.0)])
def test_tiles_pass_the_check_in_any_system(tmp_path, crs, cell, x, y):
    path = write_tif(tmp_path / "a.tif", hills(200, 300, relief=900), crs=crs, cell=cell, x=x, y=y)
    told = built(path, tmp_path / "t")
    found = checked(path, tmp_path / "t", error=2.0)
    assert found["wrong"] == [] and found["tiles"] == told["tiles"] and found["triangles"] == told["triangles"]
    assert 0.9 < found["off"] <= 2.0 and 0.9 < found["part"] <= 1.0 + 1e-6
    assert not os.path.exists(tmp_path / "t/.calfrewin") and not os.path.exists(tmp_path / "t/.calfrewin.lock")


@settings(max_examples=12)
@given(st.integers(2, 150), st.integers(2, 150), st.integers(0, 10 ** 6), st.sampled_from([9, 17]), st.integers(0, 2),
       st.sampled_from([0.5, 5.0, 60.0]), st.sampled_from(["none", "some", "half", "islands"]))
@example(127, 16, 0, 9, 0, 0.5, "none")  # a mesh is cut at a point of the last row and 0.02 of a cell beside it
def test_any_shape_and_any_holes_pass_the_check(tmp_path_factory, rows, columns, seed, tile, depth, error, holes):
    folder = tmp_path_factory.mktemp("shape")
    rng = np.random.default_rng(seed)
    heights = hills(rows, columns, seed)
    if holes == "some":
        heights[rng.random(heights.shape) < 0.02] = np.nan
    elif holes == "half":
        heights[np.add.outer(np.arange(rows), np.arange(columns)) < (rows + columns) / 2] = np.nan
    elif holes == "islands":
        heights[rng.random(heights.shape) < 0.98] = np.nan
    if np.isnan(heights).all():
        heights[0, 0] = 1.0
    path = write_tif(folder / "a.tif", heights)
    told = built(path, folder / "t", error=error, tile=tile, depth=depth)
    found = checked(path, folder / "t", error=error)
    assert found["wrong"] == [] and found["triangles"] == told["triangles"]
    shutil.rmtree(folder)


def test_six_levels_of_small_tiles_meet(tmp_path):
    path = write_tif(tmp_path / "a.tif", hills(40, 200))
    assert built(path, tmp_path / "t", error=20.0, tile=9)["levels"] == 6
    assert checked(path, tmp_path / "t", error=20.0)["wrong"] == []


def test_bytes_do_not_hang_on_workers_blocks_or_order(tmp_path, terrain):
    for name, words in (("one", {}), ("alone", {"depth": 0}), ("pairs", {"depth": 1}), ("two", {"workers": 2})):
        built(terrain, tmp_path / name, **words)
    assert len({digest(tmp_path / name) for name in ("one", "alone", "pairs", "two")}) == 1


def test_where_nothing_has_a_height_there_are_no_triangles(tmp_path):
    heights = hills(129, 129)
    heights[:70, :70] = np.nan
    path = write_tif(tmp_path / "a.tif", heights)
    built(path, tmp_path / "t")
    filled = built(path, tmp_path / "f", fill=100.0)
    assert not os.path.exists(tmp_path / "t/2/0/0.glb") and os.path.exists(tmp_path / "f/2/0/0.glb")
    assert checked(path, tmp_path / "f")["wrong"] == [] and filled["tiles"] == 21
    assert read_glb(open(tmp_path / "f/2/0/0.glb", "rb").read())["points"][:, 1].min() > 50
    high = np.where(np.isnan(heights), np.nan, heights + 1000)
    built(write_tif(tmp_path / "high.tif", high), tmp_path / "h")
    for glb in glob.glob(f"{tmp_path}/h/*/*/*.glb"):  # what meets the hole does not fall to its floor
        assert read_glb(open(glb, "rb").read())["points"][:, 1].min() > 1000
    counts = np.array([[True, False], [True, True]])
    tolerances = Ground(np.zeros((3, 3), np.uint16), 0.5, 0.0).tolerances(1.0, blocks.Points(np.zeros((2, 2), np.int32), counts))
    assert tolerances.tolist() == [[2000, ANY], [2000, 2000]]


@pytest.mark.parametrize("cell, has_one_form", [(500.0, True), (4000.0, False)])
def test_flat_sea_is_cut_as_the_earth_is_round(tmp_path, cell, has_one_form):
    path = write_tif(tmp_path / "a.tif", np.zeros((129, 129), np.float32), cell=cell)
    assert (tiles.plan_of(open_raster(path), "", error=2.0, tile=33).form is not None) == has_one_form
    built(path, tmp_path / "t", error=2.0, tile=65)
    found = checked(path, tmp_path / "t", error=2.0)
    assert found["wrong"] == [] and found["triangles"] > 64


def test_with_skirts_there_are_fewer_triangles_and_the_check_says_why_not(tmp_path, terrain):
    fewer, told = (built(terrain, tmp_path / name, error=20.0, skirts=skirts) for name, skirts in (("s", True), ("m", False)))
    ends = [sum(struct.unpack("<I", open(path, "rb").read()[8:12])[0] > 0 for path in glob.glob(f"{tmp_path}/{it}/*/*/*.glb"))
            for it in "sm"]
    assert ends[0] == ends[1] == told["tiles"] and "rounds" not in fewer
    with pytest.raises(ValueError, match="skirts"):
        checked(terrain, tmp_path / "s")


def test_the_check_finds_what_is_planted(tmp_path, terrain):
    built(terrain, tmp_path / "t")
    built(terrain, tmp_path / "other", error=1.0)
    built(terrain, tmp_path / "skirts", skirts=True, normals=False)
    inner = "3/3/2.glb"

    def replaced(folder, by):
        shutil.copy(f"{by}/{inner}", f"{folder}/{inner}")

    def doubled(triangles):
        triangles[0] = triangles[1]

    def turned(triangles):
        triangles[3] = triangles[3, ::-1]

    def beyond(triangles):
        triangles[1, 2] = 60_000

    def raised(points):
        points[len(points) // 2, 1] += 9

    def no_number(points):
        points[0, 1] = np.nan

    def lifted(points):
        points[0, 1] += 300

    def between(points):  # two of its level's points, in the first row, where other levels have a vertex
        points[len(points) // 2, 1] += 300

    def moved(points):
        points[len(points) // 2, 0] += 31

    def shifted(points):
        points[:, 0] += 30

    plants = {
        "crack": (lambda it: replaced(it, tmp_path / "other"), "a crack: within its edge along"),
        "hole": (lambda it: os.unlink(f"{it}/{inner}"), "No such file"),
        "gap": (lambda it: triangles_changed(f"{it}/{inner}", doubled),
                "an edge has two triangles on one side|have a triangle on one side"),
        "turn": (lambda it: triangles_changed(f"{it}/{inner}", turned), "turned over"),
        "index": (lambda it: triangles_changed(f"{it}/{inner}", beyond), "a triangle has vertex 60000, and there are"),
        "error": (lambda it: vertex_moved(f"{it}/{inner}", raised), "is off by"),
        "nan": (lambda it: vertex_moved(f"{it}/{inner}", no_number), "lie at no point"),
        "place": (lambda it: vertex_moved(f"{it}/{inner}", moved), "turned over|lie at no point|is off by"),
        "shift": (lambda it: vertex_moved(f"{it}/{inner}", shifted), "lie at no point"),
        "cut": (lambda it: open(f"{it}/{inner}", "r+b").truncate(500), "cut off|buffer|is no GLB"),
        "coarse": (lambda it: shutil.copy(f"{tmp_path}/other/2/1/1.glb", f"{it}/2/1/1.glb"), "a crack"),
        "top": (lambda it: vertex_moved(f"{it}/0/0/0.glb", lifted), "0/0/0.glb is off by"),
        "fan": (lambda it: vertex_moved(f"{it}/0/0/0.glb", between), "row 0: the vertices of two tiles at 28 are 3.* m apart"),
    }
    for name, (plant, text) in plants.items():
        shutil.copytree(tmp_path / "t", tmp_path / name)
        plant(tmp_path / name)
        wrong = checked(terrain, tmp_path / name)["wrong"]
        assert wrong and re.search(text, " ".join(wrong)), (name, wrong)
        shutil.rmtree(tmp_path / name)
    tree = json.load(open(tmp_path / "t/tileset.json"))

    def without_a_child(node):
        node["children"][0]["children"] = node["children"][0]["children"][1:]

    def too_great(node):
        node["children"][0]["geometricError"] *= 3

    def with_one_beyond(node):  # a fourth quarter of a tile of which the raster has two
        over = next(it for it in node["children"] if it["content"]["uri"] == "1/0/1.glb")
        over["children"].append(over["children"][0] | {"content": {"uri": "2/0/3.glb"}, "children": []})

    for change, text in ((without_a_child, "is not there"), (too_great, "greater geometricError"),
                         (with_one_beyond, "2/0/3.glb lies beyond the raster")):
        changed = json.loads(json.dumps(tree))
        change(changed["root"])
        json.dump(changed, open(tmp_path / "t/tileset.json", "w"))
        assert text in " ".join(checked(terrain, tmp_path / "t")["wrong"])
    whole = json.dumps(tree)
    for text in (whole[:-1], whole.replace("geometricError", "geometricErrer"), whole.replace("1/0/1.glb", "1/0/l.glb")):
        open(tmp_path / "t/tileset.json", "w").write(text)
        with pytest.raises(ValueError, match="t/tileset.json is damaged"):
            checked(terrain, tmp_path / "t")
    open(tmp_path / "t/tileset.json", "w").write(whole)
    assert "is off by" in " ".join(checked(terrain, tmp_path / "t", error=1.0)["wrong"])
    assert checked(terrain, tmp_path / "t", workers=2)["wrong"] == []


def test_the_check_finds_a_vertex_that_is_off_by_half_as_much_again_as_is_told(tmp_path):
    path = write_tif(tmp_path / "a.tif", hills(65, 65, relief=900))  # up to 900 m from the middle of a tile
    built(path, tmp_path / "t", error=0.2)

    def raised(points):
        points[len(points) // 2, 1] += 0.3

    vertex_moved(f"{tmp_path}/t/1/0/0.glb", raised)
    assert re.search("1/0/0.glb is off by 0.[34].* and tells 0.[12]", " ".join(checked(path, tmp_path / "t")["wrong"]))


@pytest.mark.parametrize("most", [260, 2000])
def test_a_number_of_triangles_gets_the_least_error(tmp_path, terrain, most):
    told = built(terrain, tmp_path / "t", triangles=most)
    last = told["tried"][-1]
    assert told["triangles"] <= most
    tried = {it["error"]: it["triangles"] for it in told["tried"]}
    error = min(it for it, count in tried.items() if count is not None)
    below = max(it for it, count in tried.items() if count is None)
    step = tiles.plan_of(open_raster(terrain), str(tmp_path / "x"), error=None, tile=33).unit / 1000
    assert error - below == pytest.approx(step, rel=1e-3) and tried[error] == told["triangles"] and last["error"] <= error
    assert checked(terrain, tmp_path / "t", error=error)["wrong"] == []
    fixed = built(terrain, tmp_path / "f", error=error, unit=step * 1000)
    assert digest(tmp_path / "f") == digest(tmp_path / "t") and fixed["triangles"] == told["triangles"]


def test_fewer_triangles_than_the_tiles_have_are_refused(tmp_path, terrain):
    with pytest.raises(ValueError, match="triangles is 50, and has to be more"):
        built(terrain, tmp_path / "t", triangles=50)


class Stop(Exception):
    pass


def stopping(after):
    """A progress that stops the run."""
    def tell(done, total, text):
        tell.left -= 1
        if tell.left < 0:
            raise Stop
    tell.left = after
    return tell


def test_a_run_that_was_stopped_goes_on(tmp_path, terrain):
    built(terrain, tmp_path / "whole")
    for after in (0, 3, 7, 9, 2, 4):
        with pytest.raises(Stop):
            built(terrain, tmp_path / "t", depth=1, progress=stopping(after))
        assert not os.path.exists(tmp_path / "t/tileset.json")
    told = built(terrain, tmp_path / "t", depth=1)
    assert digest(tmp_path / "t") == digest(tmp_path / "whole") and sum(it["tiles"] for it in told["rounds"]) == 0


def test_what_is_damaged_of_a_stopped_run_is_made_anew(tmp_path, terrain):
    built(terrain, tmp_path / "whole")
    with pytest.raises(Stop):
        built(terrain, tmp_path / "t", depth=1, progress=stopping(24))
    kept = glob.glob(f"{tmp_path}/t/.calfrewin/*/*")
    assert {path.split("/")[-2].split("_")[0] for path in kept} == {"points", "meshes", "made"}
    for number, path in enumerate(sorted(kept)):
        data = bytearray(open(path, "rb").read())
        if number % 3 == 0:
            data = data[:len(data) // 2]
        elif number % 3 == 1:
            data[-1] ^= 1
        open(path, "wb").write(data)
    for path in glob.glob(f"{tmp_path}/t/*/*/*.glb")[::3]:
        open(path, "ab").write(b"more")
    built(terrain, tmp_path / "t", depth=1)
    assert digest(tmp_path / "t") == digest(tmp_path / "whole")


def test_another_plan_a_changed_raster_and_a_second_run_are_refused(tmp_path, terrain):
    path = str(shutil.copy(terrain, tmp_path / "a.tif"))
    with pytest.raises(Stop):
        built(path, tmp_path / "t", progress=stopping(2))
    for other in ({"error": 3.0}, {"depth": 1}, {"tile": 17}, {"unit": 0.05}, {"fill": 1.0}, {"normals": False}, {"skirts": True},
                  {"flat": True}, {"certify": True}, {"triangles": 2000}):
        with pytest.raises(run.Other, match="--overwrite"):
            built(path, tmp_path / "t", **other)
    plan = tiles.plan_of(open_raster(path), str(tmp_path / "t"), error=2.0, tile=33)
    with run.locked(plan, False):
        with pytest.raises(run.Busy, match="another run"):
            built(path, tmp_path / "t")
    os.utime(path, (1, 1))
    with pytest.raises(run.Other, match="another state of the raster"):
        built(path, tmp_path / "t")
    with pytest.raises(blocks.Changed, match="has changed since"):
        tiles.build(plan, overwrite=True)
    assert not os.path.exists(tmp_path / "t/tileset.json")
    built(path, tmp_path / "t", overwrite=True)
    assert checked(path, tmp_path / "t")["wrong"] == []


def test_all_of_a_plan_except_its_folder_and_its_blocks_is_in_its_digest(terrain):
    plan = tiles.plan_of(open_raster(terrain), "t", error=2.0, tile=33)
    other = {"raster": replace(plan.raster, band=2), "out": "u", "steps": 64, "levels": 4, "error": 3.0, "unit": 0.5, "fill": 7.0,
             "depth": 0, "normals": False, "skirts": True, "crs": "EPSG:4326", "root": plan.root[::-1], "form": None,
             "left_out": 0.5, "stamps": (), "certify": True}
    assert other.keys() == {it.name for it in fields(plan)}
    assert {name for name, it in other.items() if replace(plan, **{name: it}).digest == plan.digest} == {"out", "depth"}


def test_a_full_disk_leaves_nothing_that_looks_finished(tmp_path, terrain, monkeypatch):
    from calfrewin import files
    write = files.write_bytes

    def full(path, *data):
        if full.left <= 0:
            raise OSError(28, "No space left on device")
        full.left -= 1
        write(path, *data)

    monkeypatch.setattr(files, "write_bytes", full)
    for room in (1, 5, 9, 20, 50):
        full.left = room
        with pytest.raises(OSError, match="No space"):
            built(terrain, tmp_path / "t")
        assert not os.path.exists(tmp_path / "t/tileset.json")
    monkeypatch.undo()
    built(terrain, tmp_path / "t")
    built(terrain, tmp_path / "whole")
    assert digest(tmp_path / "t") == digest(tmp_path / "whole")


def killed_once(path):
    """Kills the worker of the first task that comes here."""
    try:
        os.close(os.open(path, os.O_CREAT | os.O_EXCL))
    except FileExistsError:
        return
    os.kill(os.getpid(), signal.SIGKILL)


def test_a_worker_that_is_killed_makes_no_difference(tmp_path, terrain):
    built(terrain, tmp_path / "whole")
    import multiprocessing

    def tell(done, total, text):
        if done in (2, 9) and tell.killed < 4:
            children = multiprocessing.active_children()
            os.kill(children[done % len(children)].pid, signal.SIGKILL)
            tell.killed += 1

    tell.killed = 0
    built(terrain, tmp_path / "t", depth=1, workers=2, progress=tell)
    assert digest(tmp_path / "t") == digest(tmp_path / "whole") and tell.killed >= 2


def test_workers_that_die_at_each_task_are_given_up():
    from calfrewin.workers import Lost, Pool
    pool = Pool(1)
    with pytest.raises(Lost, match="died 4 times"):
        list(pool.do({1: (os.abort, ())}))
    pool.close()


def words_of(*words, program=("-m", "calfrewin"), stdin=None):
    return subprocess.Popen([sys.executable, *program, *map(str, words)], stdin=stdin, stderr=subprocess.PIPE,
                            stdout=subprocess.PIPE, text=True, env=os.environ | {"PYTHONPATH": os.pathsep.join(sys.path)})


# The program, that gets a signal as soon as it has written a file into a folder; and that waits as soon as a task is done. What a
# shell runs in the background does not heed SIGINT, unless it says so.
STRUCK = """import os, signal, sys
from calfrewin import files
from calfrewin.__main__ import main
write, part, number = files.write_bytes, sys.argv.pop(1), int(sys.argv.pop(1))
def struck(path, *data):
    write(path, *data)
    if part in path:
        os.kill(os.getpid(), number)
files.write_bytes = struck
signal.signal(signal.SIGINT, signal.default_int_handler)
main()"""
HELD = """import sys
from calfrewin.__main__ import main
from calfrewin.workers import Dask
do = Dask.do
def held(self, tasks):
    for it in do(self, tasks):
        yield it
        print("held", flush=True)
        sys.stdin.read()
Dask.do = held
main()"""


def test_a_run_that_is_killed_goes_on_and_the_same_call_says_so(tmp_path, terrain):
    built(terrain, tmp_path / "whole", tile=33)
    words = (terrain, tmp_path / "t/", "--error", 2, "--tile", 33, "--quiet")
    said_of = {}
    for number, part in ((signal.SIGINT, "/meshes_"), (signal.SIGKILL, "/made/")):
        it = words_of(part, int(number), *words, program=("-c", STRUCK))
        _, said_of[number] = it.communicate()
        assert it.returncode != 0 and not os.path.exists(tmp_path / "t/tileset.json")
        assert glob.glob(f"{tmp_path}/t/.calfrewin{part}*")
    assert "the same call goes on" in said_of[signal.SIGINT]
    it = words_of(*words, "--json")
    told = json.loads(it.communicate()[0])
    assert it.returncode == 0 and told["triangles"] > 0 and digest(tmp_path / "t") == digest(tmp_path / "whole")
    it = words_of("check", tmp_path / "t", "--raster", terrain, "--error", 2)
    said, _ = it.communicate()
    assert it.returncode == 0 and "without a crack or a hole" in said
    os.unlink(tmp_path / "t/3/3/3.glb")
    it = words_of("check", tmp_path / "t", "--raster", terrain, "--json")
    assert "No such file" in json.loads(it.communicate()[0])["wrong"][0] and it.returncode == 1


@pytest.mark.xdist_group("dask")
def test_a_cluster_makes_the_same_with_a_worker_killed_and_with_its_scheduler_killed(tmp_path, terrain):
    distributed = pytest.importorskip("distributed")
    built(terrain, tmp_path / "whole")
    words = {"n_workers": 2, "threads_per_worker": 1, "host": "127.0.0.1", "dashboard_address": None,
             "local_directory": str(tmp_path / "d")}
    with distributed.LocalCluster(**words) as cluster, distributed.Client(cluster) as client:
        client.wait_for_workers(2)

        def tell(done, total, text):
            if done == 4 and not tell.killed:
                tell.killed = True
                tell.killer = client.submit(killed_once, str(tmp_path / "killed"), pure=False, retries=3, priority=99)

        tell.killed = False
        built(terrain, tmp_path / "t", depth=1, client=client, progress=tell)
        assert digest(tmp_path / "t") == digest(tmp_path / "whole") and os.path.exists(tmp_path / "killed")
    env = os.environ | {"PYTHONPATH": os.pathsep.join(sys.path)}

    def started(name, *words):
        return subprocess.Popen([sys.executable, "-m", f"distributed.cli.{name}", *words], env=env, stdout=subprocess.DEVNULL,
                                stderr=subprocess.DEVNULL)

    def cluster(name):
        """A scheduler that listens, on a port of its own, two workers, and the words that go to them."""
        file = str(tmp_path / name)
        processes = [started("dask_scheduler", "--host", "127.0.0.1", "--port", "0", "--no-dashboard", "--scheduler-file", file)]
        while not os.path.exists(file):
            assert processes[0].poll() is None
            time.sleep(0.01)
        processes += [started("dask_worker", "--scheduler-file", file, "--no-dashboard", "--nthreads", "1", "--no-nanny",
                              "--local-directory", f"{file}_{k}") for k in range(2)]
        address = json.load(open(file))["address"]
        return processes, (terrain, tmp_path / "s/", "--error", 2, "--tile", 33, "--dask", address, "--quiet")

    def killed(processes):
        for process in processes:
            process.kill()
            process.wait()

    processes, words = cluster("one.json")
    try:
        it = words_of(*words, program=("-c", HELD), stdin=subprocess.PIPE)
        assert it.stdout.readline() == "held\n"
        killed(processes)
        it.kill()
        it.communicate()
        assert not os.path.exists(tmp_path / "s/tileset.json") and glob.glob(f"{tmp_path}/s/.calfrewin/meshes_*/*")
        processes, words = cluster("two.json")
        it = words_of(*words)
        _, said = it.communicate()
        assert it.returncode == 0, said
        assert digest(tmp_path / "s") == digest(tmp_path / "whole")
    finally:
        killed(processes)


@pytest.mark.xdist_group("dask")
def test_a_task_that_is_cancelled_is_told_and_not_passed_over():
    distributed = pytest.importorskip("distributed")
    from calfrewin.workers import Dask, Lost
    words = {"processes": False, "n_workers": 1, "threads_per_worker": 1, "dashboard_address": None}
    with distributed.Client(**words) as client:
        class Cancelling:
            """A client one of whose tasks is cancelled, as those of a scheduler that goes are."""
            cancel = client.cancel

            def submit(self, function, call, number, **options):
                future = client.submit(function, call, number, **options)
                if number == 1:
                    client.cancel([future])
                return future

        tasks = {number: (abs, (number,)) for number in range(3)}
        assert dict(Dask(client).do(tasks)) == {0: 0, 1: 1, 2: 2}
        with pytest.raises(Lost, match="a task was cancelled"):
            list(Dask(Cancelling()).do(tasks))


def edges_of(triangles, count):
    edges = np.concatenate((triangles[:, [0, 1]], triangles[:, [1, 2]], triangles[:, [2, 0]]))
    key, back = edges[:, 0] * count + edges[:, 1], edges[:, 1] * count + edges[:, 0]
    assert len(np.unique(key)) == len(key)
    return edges[~np.isin(key, back)]


@pytest.mark.parametrize("words", [{"workers": 2}, {"triangles": 2000}])
def test_one_file_of_the_whole_shares_its_vertices_and_is_within_the_error(tmp_path, terrain, words):
    raster = open_raster(terrain)
    told = join.join(raster, str(tmp_path / "a.glb"), error=None if "triangles" in words else 20.0, tile=65, **words)
    it = read_glb(open(tmp_path / "a.glb", "rb").read())
    points, triangles = up_of(it["points"]) + told["origin"], it["triangles"]
    assert len(triangles) == told["triangles"] <= words.get("triangles", 10 ** 9) and len(points) == told["vertices"]
    a, b, c, d, e, f = raster.transform
    column, row = (points[:, 0] - c) / a, (points[:, 1] - f) / e
    # Where the mesh is cut at both ends, in the last corner, vertices may lie between two points of the last row.
    column, row = np.where((np.rint(row) == 179) & (column > 240), column, np.rint(column)), np.rint(row)
    assert np.abs(column * a + c - points[:, 0]).max() < 0.01 and np.abs(row * e + f - points[:, 1]).max() < 0.01
    assert len(np.unique(row * 250 + column)) == len(points)
    for edge in edges_of(triangles, len(points)):
        assert (row[edge] == 0).all() or (row[edge] == 179).all() or (column[edge] == 0).all() or (column[edge] == 249).all()
    heights = raster.heights(0, 0, *raster.shape)
    from types import SimpleNamespace

    from readers import heights_of
    mesh = SimpleNamespace(shape=raster.shape, column=column, row=row, height=points[:, 2], triangles=triangles)
    ground, times = heights_of(mesh)
    assert (times == 1).all() and np.abs(ground - heights).max() <= told["error"] + 1e-3
    assert it["normals"][:, 1].min() > 0 and sorted(os.listdir(tmp_path)) == ["a.glb", "a.glb.json"]
    error = None if "triangles" in words else 20.0
    again = join.join(raster, str(tmp_path / "b.glb"), error=error, tile=65, **words | {"workers": 1})
    assert open(tmp_path / "a.glb", "rb").read() == open(tmp_path / "b.glb", "rb").read() and again["rounds"] is not None


def test_a_large_raster_to_a_file_takes_all_points(tmp_path):
    y, x = np.mgrid[0:700, 0:2300] / 300.0
    path = write_tif(tmp_path / "a.tif", (np.sin(x) * np.cos(y) * 500).astype(np.float32))
    it = words_of(path, tmp_path / "a.glb", "--error", 5, "--quiet", "--json")
    told = json.loads(it.communicate()[0])
    assert told["points"] == [700, 2300] and told["every"] == 1 and told["error"] <= 5 and told["covered"] == 1
    it = words_of(path, tmp_path / "b.ply", "--error", 5, "--quiet", "--json")
    assert json.loads(it.communicate()[0])["every"] == 2
    it = words_of(path, tmp_path / "c.ply", "--error", 5, "--workers", 2)
    assert "--workers and --dask" in it.communicate()[1] and it.returncode == 2


def test_begun_anew_nothing_looks_finished(tmp_path, terrain):
    built(terrain, tmp_path / "t")
    before = digest(tmp_path / "t")
    with pytest.raises(Stop):
        built(terrain, tmp_path / "t", overwrite=True, progress=stopping(1))
    assert not os.path.exists(tmp_path / "t/tileset.json")
    built(terrain, tmp_path / "t")
    assert digest(tmp_path / "t") == before


def test_a_point_alone_is_covered(tmp_path):
    heights = np.full((40, 40), np.nan, np.float32)
    heights[7, 11], heights[16, 32], heights[39, 39] = 5.0, 9.0, 2.0
    path = write_tif(tmp_path / "a.tif", heights)
    told = built(path, tmp_path / "t", tile=9)
    found = checked(path, tmp_path / "t")
    assert found["wrong"] == [] and told["triangles"] == found["triangles"] > 3

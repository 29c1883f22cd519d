"""Certificates of tiles: they are accepted for what was made, and refused where one word of them is wrong."""
import glob
import os
import re
import shutil

import numpy as np
import pytest
from click.testing import CliRunner
from hypothesis import example, given, settings, strategies as st

from calfrewin import certify as checker, check, command, reasons as given_reasons, tiles
from calfrewin.certify import add, certify, triangles_of
from calfrewin.raster import open_raster
from made import hills, write_tif


def built(path, out, error=2.0, tile=33, **words):
    options = {key: words.pop(key) for key in ("workers", "triangles", "overwrite") if key in words}
    return tiles.build(tiles.plan_of(open_raster(str(path)), str(out), error=error, tile=tile, certify=True, **words), **options)


def reasons(folder):
    """The bytes of all certificates, by their names."""
    return {os.path.relpath(path, folder): open(path, "rb").read() for path in sorted(glob.glob(f"{folder}/*/*/*.reasons"))}


def changed(folder, name, change):
    """Changes the lines of a certificate."""
    path = os.path.join(folder, name)
    lines = open(path).read().splitlines()
    change(lines)
    open(path, "w").write("".join(it + "\n" for it in lines))


@pytest.fixture(scope="module")
def made(tmp_path_factory):
    """A raster of 100 x 130 points, and its tiles: 4 rows of 5, some of which lack points of their neighbours at first."""
    folder = tmp_path_factory.mktemp("certified")
    path = write_tif(folder / "a.tif", hills(100, 130, relief=900), crs=None)
    return path, built(path, folder / "t", error=20.0), folder / "t"


@pytest.fixture
def copy(made, tmp_path):
    """The raster, and a copy of its tiles to be damaged."""
    shutil.copytree(made[2], tmp_path / "t")
    return made[0], str(tmp_path / "t")


def refused(folder, raster=None):
    return certify(folder, raster)["wrong"]


@pytest.mark.parametrize("crs, cell, x, y", [("EPSG:32632", 90.0, 400000.0, 5300000.0), ("EPSG:4326", 1 / 60, 7.0, 60.0),
                                             (None, 30.0, 0.0, 0.0)])
@pytest.mark.parametrize("holes", [False, True])
def test_what_was_made_is_certified_in_any_system(tmp_path, crs, cell, x, y, holes):
    heights = hills(90, 150, relief=900)
    if holes:
        heights[:40, 20:110] = np.nan
        heights[60:63, 70] = np.nan
    path = write_tif(tmp_path / "a.tif", heights, crs=crs, cell=cell, x=x, y=y)
    told = built(path, tmp_path / "t", error=5.0, tile=17)
    found = certify(str(tmp_path / "t"), open_raster(path))
    assert found["wrong"] == [] and found["tiles"] == 60 and found["rounds"] == told["certificate_rounds"] > 1
    assert found["triangles"] >= told["triangles"] and found["tolerance"] <= found["error"] == 5.0


@settings(max_examples=10)
@given(st.integers(2, 90), st.integers(2, 90), st.integers(0, 10 ** 6), st.sampled_from([9, 17]),
       st.sampled_from([0.5, 5.0, 60.0]), st.booleans())
@example(32, 32, 0, 9, 0.5, False)  # the last row and column of its block of 4 x 4 tiles are beyond the end
def test_any_shape_and_any_holes_are_certified(tmp_path_factory, rows, columns, seed, tile, error, holes):
    folder = tmp_path_factory.mktemp("shape")
    heights = hills(rows, columns, seed)
    if holes:
        heights[np.random.default_rng(seed).random(heights.shape) < 0.3] = np.nan
        heights[0, 0] = 1.0
    built(write_tif(folder / "a.tif", heights), folder / "t", error=error, tile=tile)
    assert refused(str(folder / "t")) == []
    shutil.rmtree(folder)


@settings(max_examples=8)
@given(st.sampled_from([1, 2]), st.integers(0, 10 ** 6), st.floats(0.3, 0.98), st.sampled_from([2, 10, 40]))
def test_tiles_have_as_many_triangles_as_one_mesh_of_the_whole(tmp_path_factory, levels, seed, rough, error):
    """One square of 17 or 33 points a side, of which each triangle is halved that is off, until none is."""
    folder = tmp_path_factory.mktemp("whole")
    side = 8 * 2 ** levels + 1
    rng = np.random.default_rng(seed)
    heights = np.cumsum(rng.normal(0, 9, (side, side)) * (rng.random((side, side)) > rough), axis=1).astype(np.int16)
    told = built(write_tif(folder / "a.tif", heights, crs=None), folder / "t", error=error, tile=9, unit=1.0)
    found = certify(str(folder / "t"))
    numbers = heights[::-1].astype(np.int64) - int(heights.min())
    ground = checker.Ground(numbers, np.ones(numbers.shape, bool), 1000 * error, 1.0, (side - 1.0, side - 1.0))
    vertices = np.zeros(numbers.shape, bool)
    vertices[::side - 1, ::side - 1] = True
    points = np.stack(np.meshgrid(np.arange(0, side, 4), np.arange(0, side, 4)), axis=-1).reshape(-1, 2)
    tiles_of = (points % 8 == 4).all(1) | ((points % 8 == 0).all(1) & (points % (side - 1) != 0).any(1))
    add(vertices, points[tiles_of])  # the corners and the centres of the tiles
    while True:
        mesh = triangles_of(vertices)
        off = [it for it in range(len(mesh)) if checker.worst_of(ground, mesh[it:it + 1]) is not None]
        if not off:
            break
        add(vertices, (mesh[off, 1] + mesh[off, 2]) // 2)
    assert found["wrong"] == [] and found["triangles"] == told["triangles"] == len(mesh)
    shutil.rmtree(folder)


def test_a_relief_of_more_units_than_a_tile_can_have_and_a_budget_are_certified(tmp_path):
    path = write_tif(tmp_path / "a.tif", hills(70, 70, relief=40000), crs=None)
    built(path, tmp_path / "t", error=5.0, tile=33, unit=0.1)
    built(path, tmp_path / "n", error=None, triangles=2000)
    for name, within in (("t", (4.0, 4.85)), ("n", (100, 40000))):
        found = certify(str(tmp_path / name))
        # Half a unit is taken off the error, and where tiles have a coarser one that, too.
        assert found["wrong"] == [] and within[0] < found["tolerance"] < within[1]


def test_certificates_do_not_hang_on_workers_or_blocks(tmp_path, made):
    path, _, folder = made
    for name, words in (("alone", {"depth": 0}), ("two", {"workers": 2})):
        built(path, tmp_path / name, error=20.0, **words)
        assert reasons(tmp_path / name) == reasons(folder)
    assert len(reasons(folder)) == 20


def test_a_run_that_stops_among_certificates_goes_on(tmp_path, made, monkeypatch):
    path, _, folder = made
    for name, number in (("give", 3), ("write", 5)):
        step, calls = getattr(given_reasons, name), []

        def stops(*words):
            calls.append(words)
            if len(calls) == number:
                raise KeyboardInterrupt
            return step(*words)
        with monkeypatch.context() as here:
            here.setattr(given_reasons, name, stops)
            with pytest.raises(KeyboardInterrupt):
                built(path, tmp_path / name, error=20.0, depth=0)
        assert not os.path.exists(tmp_path / name / "tileset.json")
        built(path, tmp_path / name, error=20.0, depth=0)
        assert reasons(tmp_path / name) == reasons(folder) and refused(str(tmp_path / name)) == []


def test_a_certificate_has_no_more_reasons_than_there_are_vertices(made):
    """A tile has 4 triangles without a reason; with each one it has at least two more, or one at its border."""
    found = certify(str(made[2]))
    text = b"".join(reasons(made[2]).values())
    needs, offs = (len(re.findall(kind, text)) for kind in (rb"\nneed ", rb"\noff "))
    assert found["wrong"] == [] and 0 < needs < offs and needs + offs <= found["triangles"] - 4 * 20


def test_a_reason_that_is_left_out_is_missed(copy):
    """But for one that follows from finer ones, without which the certificate shows the same."""
    _, folder = copy
    triangles, missed, all_ = certify(folder)["triangles"], 0, 0
    for name, text in list(reasons(folder).items())[5:9]:
        count = len(re.findall(rb"\n(?:off|need)", text))
        for number in range(0, count, max(1, count // 7)):
            def leave_out(lines):
                del lines[[at for at, line in enumerate(lines) if line.startswith(("off", "need"))][number]]
            changed(folder, name, leave_out)
            found = certify(folder)
            assert found["wrong"] and any(name in it for it in found["wrong"]) or found["triangles"] == triangles
            missed, all_ = missed + (found["wrong"] != []), all_ + 1
            open(os.path.join(folder, name), "wb").write(text)
    assert all_ > 20 and missed > all_ / 2


def test_a_point_that_is_not_off_is_refused(copy):
    _, folder = copy
    name = next(iter(reasons(folder)))
    for words, why in (("off 4 0 0", "triangle 4 is not off"),        # a corner of it
                       ("off 4 32 32", "triangle 4 is not off"),      # beyond it
                       ("off 4 33 1", "no grid point"),
                       ("off 2048 0 0", "no triangle 2048 with halves"), ("off 1 0 0", "no triangle 1 with halves"),
                       ("off 4 1", "no reason"), ("of 4 1 1", "no reason"), ("off 4 -1 1", "no reason"), ("", "no reason")):
        text = reasons(folder)[name]
        changed(folder, name, lambda lines: lines.__setitem__(lines.index("round 0") + 1, words))
        assert any(why in it for it in refused(folder)), words
        open(os.path.join(folder, name), "wb").write(text)


def test_a_triangle_that_is_not_there_yet_is_refused(tmp_path):
    """What a reason rests on stands before it, or in its own round."""
    path = write_tif(tmp_path / "a.tif", hills(33, 33, relief=900), crs=None)
    built(path, tmp_path / "t", error=20.0)
    folder = str(tmp_path / "t")
    changed(folder, "0/0/0.reasons", lambda lines: lines.__setitem__(slice(6, None), reversed(lines[6:])))
    assert refused(folder) == []
    for back in (False, True):
        def alone(lines):
            last = lines.pop(6)  # the finest, now that they are turned round
            lines[6:] = ["round 1", *lines[6:]] if back else []
            lines.insert(6, last)
        changed(folder, "0/0/0.reasons", alone)
        assert any("there is no such triangle yet" in it for it in refused(folder))
        built(path, tmp_path / "t", error=20.0, overwrite=True)
        changed(folder, "0/0/0.reasons", lambda lines: lines.__setitem__(slice(6, None), reversed(lines[6:])))


def needing(folder):
    """A certificate that needs something, its first line that does, and the number of its round."""
    for name, text in reasons(folder).items():
        if (found := re.search(r"round (\d+)\n(need \w+ \d+)\n", text.decode())):
            return name, found[2], int(found[1])
    raise AssertionError("no tile needs anything")


def test_a_need_in_the_same_round_is_refused(copy):
    _, folder = copy
    name, line, number = needing(folder)

    def earlier(lines):
        lines.remove(line)
        lines.insert(lines.index(f"round {number - 1}") + 1, line)
    changed(folder, name, earlier)
    assert any("needs what its neighbour has not before" in it for it in refused(folder))


def test_a_need_of_what_the_neighbour_never_has_is_refused(copy):
    _, folder = copy
    for name, text in reasons(folder).items():
        for side in ("lower", "upper", "left", "right"):
            for place in (1, 16):
                changed(folder, name, lambda lines: lines.extend(["round 9", f"need {side} {place}"]))
                _, column, row = re.findall(r"\d+", name)
                found = refused(folder)
                ends = {"upper": row == "0", "lower": row == "3", "left": column == "0", "right": column == "4"}
                if ends[side]:
                    assert any("beyond all tiles" in it for it in found)
                elif place == 1:
                    assert any("needs what its neighbour has not before" in it for it in found)
                open(os.path.join(folder, name), "wb").write(text)
        if int(row) > 1:
            break
    changed(folder, name, lambda lines: lines.extend(["round 9", "need left 33"]))
    assert any("no place within a side" in it for it in refused(folder))


def test_two_tiles_do_not_hold_each_other_up(tmp_path):
    """Flat ground: each of two tiles says that the other has a vertex in the middle of the side between them."""
    path = write_tif(tmp_path / "a.tif", np.full((33, 65), 7.0, np.float32), crs=None)
    built(path, tmp_path / "t", error=20.0)
    folder = str(tmp_path / "t")
    assert refused(folder) == [] and certify(folder)["triangles"] == 8
    for numbers in ((1, 1), (1, 2), (2, 1)):
        before = reasons(folder)
        for name, side, number in zip(("1/0/0.reasons", "1/1/0.reasons"), ("right", "left"), numbers):
            changed(folder, name, lambda lines: lines.extend([f"round {number}", f"need {side} 16"]))
        found = [it for it in refused(folder) if "needs what its neighbour has not before" in it]
        # The later one of two would be right, if the earlier one were.
        assert len(found) == (2 if numbers == (1, 1) else 1)
        for name, text in before.items():
            open(os.path.join(folder, name), "wb").write(text)


def test_rounds_have_rising_numbers(copy):
    _, folder = copy
    name, line, number = needing(folder)
    changed(folder, name, lambda lines: lines.__setitem__(lines.index(f"round {number}"), "round 0"))
    assert any("of a higher number" in it for it in refused(folder))


def test_sides_that_differ_are_refused(copy):
    """A tile whose last round is left out is within the error, and its neighbour has a vertex that it lacks."""
    _, folder = copy
    name, line, number = needing(folder)
    changed(folder, name, lambda lines: lines.__delitem__(slice(lines.index(f"round {number}"), None)))
    assert any("differ on the side that they share" in it for it in refused(folder))


def test_changed_heights_are_refused(made, tmp_path):
    import rasterio
    path, _, folder = made
    with rasterio.open(path) as file:
        heights = file.read(1)
    assert refused(str(folder), open_raster(path)) == []
    for number, (row, column) in enumerate([(5, 5), (40, 70), (99, 129)]):
        other = heights.copy()
        other[row, column] += 3
        found = refused(str(folder), open_raster(write_tif(tmp_path / f"{number}.tif", other, crs=None)))
        assert len(found) == 1 and f"{column // 32}/{row // 32}.reasons: the raster's heights there are not those" in found[0]
    with pytest.raises(ValueError, match="the raster has 129 x 100"):
        refused(str(folder), open_raster(write_tif(tmp_path / "small.tif", heights[:, 1:], crs=None)))


def test_with_a_digest_of_other_heights_the_reasons_are_refused(made, copy):
    """Whoever writes the digest anew has to give reasons anew."""
    import rasterio
    path, folder = copy
    with rasterio.open(path) as file:
        heights = file.read(1)
    for top, left in [(0, 0), (32, 64)]:
        heights[top:top + 33, left:left + 33] = 7.0
    other = folder + "/other.tif"
    write_tif(other, heights, crs=None)
    raster = open_raster(other)
    for name in ("3/0/0.reasons", "3/2/1.reasons"):
        text = open(os.path.join(folder, name)).read()
        column, row = (int(word) for word in re.findall(r"\d+", name)[1:])
        said = checker.Said(folder, "", 32, 3, 20.0, 1.0, None, None, None, 0.0, np.eye(4))
        digest = checker.digest_of(checker.ground_of(said, raster, row, column, None))
        open(os.path.join(folder, name), "w").write(re.sub("heights .*", f"heights {digest}", text))
    found = [line for line in refused(folder, raster) if line.startswith(("3/0/0.", "3/2/1."))]
    assert len(found) == 2 and all("is not off by more than the tolerance" in line for line in found)


def test_what_tileset_json_says_has_to_be_possible(copy):
    _, folder = copy
    tree = os.path.join(folder, "tileset.json")
    text = open(tree).read()
    for old, new in (('"steps":32', '"steps":48'), ('"steps":32', '"steps":0'), ('"unit":1.0', '"unit":0.0')):
        assert old in text
        open(tree, "w").write(text.replace(old, new))
        with pytest.raises(ValueError, match="is of tiles of"):
            refused(folder)
    # Another error, unit or form is not what the certificates are of.
    for old, new, why in (('"error":20.0', '"error":30.0', "its tolerance is"),
                          ('"unit":1.0', '"unit":0.5', "are not those of the run")):
        assert old in text
        open(tree, "w").write(text.replace(old, new, 1))
        found = refused(folder)
        assert len(found) == 20 and all(why in it for it in found)


def test_a_tile_of_another_run_or_place_is_refused(made, copy, tmp_path):
    path, folder = copy
    built(path, tmp_path / "other", error=21.0)
    name = "3/1/1.reasons"
    own = open(os.path.join(folder, name)).read()
    shutil.copy(tmp_path / "other" / name, os.path.join(folder, name))
    assert any(f"{name}: it is of another run" in it for it in refused(folder))
    changed(folder, name, lambda lines: lines.__setitem__(1, own.splitlines()[1]))
    assert any(f"{name}: its tolerance is" in it for it in refused(folder))
    shutil.copy(os.path.join(folder, "3/2/1.reasons"), os.path.join(folder, name))
    assert any("it is of the tile of column 2 and row 1" in it for it in refused(folder))
    open(os.path.join(folder, name), "w").write("P5 2 2 255\n")
    assert any("it does not begin as a certificate does" in it for it in refused(folder))
    os.unlink(os.path.join(folder, name))
    assert any(f"{name}: " in it and "No such file" in it for it in refused(folder))
    open(os.path.join(folder, name), "w").write(own[:-1])
    assert any("it is cut off" in it for it in refused(folder))


def test_files_that_are_not_what_is_certified_are_refused(copy, tmp_path, monkeypatch):
    """A mesh of more triangles, or of others, has no certificate of a mesh of fewer."""
    path, folder = copy
    built(path, tmp_path / "finer", error=5.0)
    name = "3/1/1.glb"
    read = check.read_glb

    def with_one_twice(path):
        points, triangles, matrix = read(path)
        return points, np.concatenate((triangles, triangles[:1])) if path.endswith(name) else triangles, matrix
    with monkeypatch.context() as here:
        here.setattr("calfrewin.certify.read_glb", with_one_twice)
        found = refused(folder)
    assert len(found) == 1 and f"{name} has" in found[0] and "triangles, and the certificate makes" in found[0]
    with monkeypatch.context() as here:
        here.setattr("calfrewin.certify.read_glb", lambda path: (read(path)[0][:4], *read(path)[1:]))
        assert len(refused(folder)) > 10
    shutil.copy(tmp_path / "finer" / name, os.path.join(folder, name))
    assert any(name in it and "triangles" in it for it in refused(folder))
    os.unlink(os.path.join(folder, name))
    assert any(f"{name} is not there" in it for it in refused(folder))


def test_another_form_of_the_earth_is_refused(tmp_path):
    # One form for all tiles, and of each its own.
    for name, place in (("one", {}), ("own", {"crs": "EPSG:4326", "cell": 1 / 60, "x": 7.0, "y": 60.0})):
        path = write_tif(tmp_path / f"{name}.tif", hills(60, 60, relief=900), **place)
        built(path, tmp_path / name, error=2.0)
        folder = str(tmp_path / name)
        tree = os.path.join(folder, "tileset.json")
        assert refused(folder) == [] and ('"form":null' in open(tree).read()) == (name == "own")
        if name == "own":
            changed(folder, "1/0/0.reasons", lambda lines: lines.__setitem__(5, "form 0.0 0.0 0.0"))
        else:
            text = open(tree).read()
            open(tree, "w").write(re.sub(r'"form":\[[^\]]*\]', '"form":[0.0,0.0,0.0]', text))
        assert any("the form of the earth is off by" in it for it in refused(folder))


def test_the_program_makes_and_checks_certificates(tmp_path):
    mesh, certify = (command.program.commands[name] for name in ("mesh", "certify"))
    path = write_tif(tmp_path / "a.tif", hills(50, 60, relief=900))
    out = str(tmp_path / "t")
    made = CliRunner().invoke(mesh, [path, out + "/", "--error", "20", "--tile", "33", "--certify", "-q"])
    assert made.exit_code == 0, made.output
    for words in ([], ["--raster", path, "--json", "--workers", "2"]):
        found = CliRunner().invoke(certify, [out, "-q", *words])
        assert found.exit_code == 0 and ("certified: none within" in found.output) == (not words), found.output
    changed(out, "1/0/0.reasons", lambda lines: lines.pop())
    found = CliRunner().invoke(certify, [out, "-q"])
    assert found.exit_code == 1 and "refused: 1/0/0.reasons" in found.output and "not certified" in found.output
    without = CliRunner().invoke(mesh, [path, out + "/", "--error", "20", "--tile", "33", "-q", "--overwrite"])
    assert without.exit_code == 0
    found = CliRunner().invoke(certify, [out, "-q"])
    assert found.exit_code == 1 and "has no certificates" in found.output
    for words, why in ((["--skirts"], "--skirts has no certificate"), (["--format", "quantized-mesh"], "--certify")):
        found = CliRunner().invoke(mesh, [path, str(tmp_path / "u") + "/", "--error", "9", "--certify", *words])
        assert found.exit_code == 2 and why in found.output


@given(st.integers(1, 3), st.lists(st.tuples(st.integers(0, 16), st.integers(0, 16)), max_size=9))
def test_what_a_vertex_wants_are_the_right_angles_at_it(n, places):
    """Beside a plain mesh that halves triangles at whatever is in the way of a vertex."""
    side = 2 ** n + 1
    places = [(x % side, y % side) for x, y in places if (x % side % 2 ** n, y % side % 2 ** n) != (0, 0)]
    grid = np.zeros((side, side), bool)
    grid[::side - 1, ::side - 1] = True
    add(grid, np.array(places).reshape(-1, 2))
    last = side - 1
    mesh = {((0, 0), (last, 0), (0, last)), ((last, last), (0, last), (last, 0))}
    wanted = set(places)
    while True:
        corners = {corner for it in mesh for corner in it}
        # A triangle is halved that holds a vertex, or what is to be one, which is no corner of it.
        split = [it for it in mesh if any(holds(it, place) for place in (wanted | corners).difference(it))]
        if not split:
            break
        for it in split:
            mesh.remove(it)
            middle = (it[1][0] + it[2][0]) // 2, (it[1][1] + it[2][1]) // 2
            mesh |= {(middle, it[0], it[1]), (middle, it[2], it[0])}
    assert {(x, y) for y, x in np.argwhere(grid).tolist()} == {corner for it in mesh for corner in it}


def holds(triangle, place):
    (ax, ay), (bx, by), (cx, cy) = triangle
    x, y = place
    return all(it >= 0 for it in ((bx - ax) * (y - ay) - (by - ay) * (x - ax), (cx - bx) * (y - by) - (cy - by) * (x - bx),
                                  (ax - cx) * (y - cy) - (ay - cy) * (x - cx)))

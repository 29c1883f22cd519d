"""The binding: its structures, its arguments, its threads, and what it gives against the definitions."""
import ctypes
import gc
import pathlib
import re
import resource
import subprocess
import threading

import numpy as np
import pytest
from hypothesis import given, strategies as st

import calfrewin
import sessions
from calfrewin import Engine, _library, surface
from fitters import lying
from threads import check_that_one_thread_is_taken, on_a_thread

TOP = pathlib.Path(__file__).resolve().parents[2]
HEADER = TOP / "lib/roam.h"
HILL = [0, 0, 0, 0, 100, 0, 0, 0, 0]
SIDE, FRAMES = 33, 60
HEIGHTS = (np.arange(SIDE * SIDE) * 7919 % 211).astype(np.uint16)


def test_structures_and_calls_are_those_of_the_header(tmp_path):
    pairs = {"roam_handle": _library.Handle, "roam_frame_note": _library.FrameNote, "roam_plane": _library.Plane,
             "roam_changes_note": _library.ChangesNote, "roam_deviation_note": _library.DeviationNote,
             "roam_fit_note": _library.FitNote, "roam_state_note": _library.StateNote, "roam_fitter": _library.Handle,
             "roam_mosaic": _library.Handle, "roam_tile_note": _library.TileNote, "roam_required_note": _library.RequiredNote,
             "roam_page": _library.Handle, "roam_world": _library.Handle, "roam_world_note": _library.WorldNote}
    lines = [f'printf("{name} {field} %zu %zu\\n", offsetof({name}, {field}), sizeof((({name} *)0)->{field}));'
             for name, it in pairs.items() for field, *_ in it._fields_]
    lines += [f'printf("{name} - %zu 0\\n", sizeof({name}));' for name in pairs]
    text = '#include "roam.h"\n#include <stdio.h>\nint main(void) {' + "\n".join(lines) + "return 0; }"
    (tmp_path / "a.c").write_text(text)
    subprocess.run(["cc", f"-I{HEADER.parent}", "-o", tmp_path / "a", tmp_path / "a.c"], check=True)
    for line in subprocess.run([tmp_path / "a"], stdout=subprocess.PIPE, text=True, check=True).stdout.splitlines():
        name, field, at, size = line.split()
        if field == "-":
            assert ctypes.sizeof(pairs[name]) == int(at), line
        else:
            it = getattr(pairs[name], field)
            assert (it.offset, it.size) == (int(at), int(size)), line
    assert set(re.findall(r"^(?:int32_t|void) roam_(\w+)\(", HEADER.read_text(), re.M)) == set(_library.CALLS)


def test_the_ranges_are_those_of_the_header():
    from calfrewin import engine
    said = HEADER.read_text()
    assert f"above {engine.MOST_TRIANGLES}" in said and f"above {engine.MOST_SPACING} " in said
    assert f"above {engine.MOST_TOLERANCE} thousandths" in said and "2^30" in said and "2^20" in said and "2^50" in said
    from calfrewin import world
    assert f"large is above {world.MOST_LARGE}" in said
    answers = dict(re.findall(r"ROAM_(\w+) = (\d+)", said))
    from calfrewin import _owner
    named = ("NO_MEMORY", "TOO_MANY_PLANES", "WORN", "IS_EMPTY", "BAD_MESH", "SHRUNK", "BAD_PAGE")
    assert [int(answers[it]) for it in named] == [getattr(_owner, it) for it in named]


@pytest.mark.parametrize("number", range(100))
def test_a_session_is_as_the_definitions_have_it(number):
    sessions.run(1, number)


def exchanged(found):
    """A list whose last two items have changed places."""
    return np.concatenate((found[:-2], found[-1:], found[-2:-1]))


@pytest.mark.parametrize("method, lie, text", [
    ("leaves", exchanged, "the mesh is"),
    ("indices", exchanged, "the indices are others"),
    ("positions", lambda found: found + np.array([0, 0, 1], found.dtype), "the vertices are others"),
    ("compact", exchanged, "their numbers are others"),
    ("strip", exchanged, "the strip is another"),
    ("deviation", lambda found: found + 1, "the deviation is another"),
    ("changed", lambda found: found._replace(gone=found.gone[1:]), "what the frame took out is another"),
    ("changed", lambda found: found._replace(come=found.come[1:]), "what the frame put in is another"),
    ("fit", lambda found: found._replace(triangles=exchanged(found.triangles)), "the fitted mesh is another"),
    ("fit", lambda found: found._replace(vertices=found.vertices + 1), "its vertices are others"),
    ("fit", lambda found: found._replace(deviation=found.deviation + 1), "its deviation is another"),
    ("certificate", lambda text: re.sub(r"-?\d+", lambda it: str(int(it[0]) + 1), text, count=1),
     "the certificate is of another place"),
    *(("frame", lambda note, name=name: note._replace(**{name: getattr(note, name) + 1}), "the note is")
      for name in calfrewin.Note._fields if name != "worst"),
    ("frame", lambda note: note._replace(worst=note.worst ^ 1), "the note is|the mesh has not the fewest"),
])
def test_a_session_finds_lies(method, lie, text):
    with pytest.raises(AssertionError, match=text):
        for number in range(20):
            sessions.run(1, number, lying(Engine, method, lie))


@pytest.mark.parametrize("name", ["jacksboro", "flight"])
def test_the_frames_of_an_example_have_the_expected_report(name):
    calls = {"camera": "camera", "raise": "raise_area", "plane": "add_plane", "budget": "budget"}
    data = (TOP / "examples/jacksboro/grid.pgm").read_bytes()
    heights = np.frombuffer(data, ">u2", 257 * 257, len(data) - 2 * 257 * 257)
    found = []
    with Engine(heights, 2000, 90) as engine:
        for line in (TOP / "examples" / name / "script").read_text().splitlines():
            command, *words = line.split("#")[0].split() or [""]
            if command == "frame":
                note, state = engine.frame(), engine.state()
                line = (f"frame {state.frames} triangles {note.triangles} vertices {note.vertices} worst {note.worst} splits "
                        f"{note.splits} merges {note.merges} blocked ")
                line += f"{note.blocking} needs {note.need}" if note.blocking else "none"
                line += f" inside {note.inside} cut {note.cut} outside {note.outside}" if state.planes else ""
                found.append(line)
            elif command:
                getattr(engine, calls[command])(*map(int, words))
    assert found == (TOP / "examples" / name / "expected/report").read_text().splitlines()


@given(st.integers(1, 5), st.integers(0, 2 ** 32 - 1), st.floats(0, 300), st.integers(1, 1000))
def test_a_fit_is_off_by_what_it_tells_and_within_its_budget(n, seed, tolerance, relief):
    side = 2 ** n + 1
    heights = np.random.default_rng(seed).integers(0, relief + 1, (side, side)).astype(np.uint16)
    budget = 2 + seed % 50
    with Engine(heights, 2) as engine:
        for found in (engine.fit(tolerance), engine.fit(0, budget)):
            is_vertex = np.zeros(side * side, bool)
            is_vertex[found.triangles.reshape(-1)] = True
            assert is_vertex.sum() == found.vertices
            assert abs(heights - surface(heights, is_vertex.reshape(side, side))).max() == float(found.deviation)
        assert engine.fit(tolerance).deviation <= tolerance
        assert len(engine.fit(0, budget).triangles) <= budget


def test_a_tolerance_is_rounded_down_to_thousandths():
    with Engine([0, 0, 0, 0, 9, 0, 0, 0, 0], 2) as engine:
        assert [len(engine.fit(tolerance).triangles) for tolerance in (9, 8.9996, 8.9994, 9.0001)] == [2, 4, 4, 2]
    with Engine([0, 0, 0, 0, 29, 0, 0, 0, 0], 2) as engine:  # 0.29 * 1000 is 289.99999999999994
        assert [len(engine.fit(29 * k).triangles) for k in (1, 0.99)] == [2, 4]


def test_out_is_written_into_and_heights_are_not_copied():
    heights = np.random.default_rng(1).integers(0, 500, (65, 65)).astype(np.uint16)
    with Engine(heights, 500, 30) as engine:
        engine.frame()
        out = np.zeros(1500, np.uint32)
        found = engine.indices(out)
        assert found.base is not None and np.shares_memory(found, out) and np.array_equal(found, engine.indices())
        assert np.array_equal(engine.leaves(out), engine.leaves()) and np.shares_memory(engine.leaves(out), out)
        corners = engine.positions()[engine.compact()]
        assert np.array_equal(corners[..., 2], heights.reshape(-1)[engine.indices()])
        assert np.array_equal(corners[..., 0], engine.indices() % 65 * 30)
    # A C-contiguous uint16 array is read where it lies; all else is copied once.
    from calfrewin.engine import whole_heights
    assert np.shares_memory(whole_heights(heights), heights)
    assert np.array_equal(whole_heights(np.asfortranarray(heights)), heights)


def test_a_worn_engine_says_so_and_is_renewed():
    with Engine(HILL, 8, 1024) as engine:
        for k in range(10 ** 6):
            if k % 250_000 == 0:
                engine.camera(k, 0, 0)
            engine.frame()
        with pytest.raises(calfrewin.Worn, match="1,000,000 frames"):
            engine.frame()
        engine.renew()
        assert engine.frame().triangles == 4 and engine.state().frames == 1


@pytest.mark.parametrize("kind, text, call", [
    (ValueError, "budget is 1, and has to be from 2 to 1048576", lambda _: Engine(HILL, 1)),
    (ValueError, "budget is 1048577, and has to be from 2 to 1048576", lambda _: Engine(HILL, 1_048_577)),
    (TypeError, "budget is 2.5, and has to be a whole number from 2 to 1048576", lambda _: Engine(HILL, 2.5)),
    (ValueError, "spacing is 0, and has to be from 1 to 1024", lambda _: Engine(HILL, 8, 0)),
    (ValueError, "spacing is 18446744073709551617, and has to be from 1 to 1024", lambda _: Engine(HILL, 8, 2 ** 64 + 1)),
    (ValueError, "heights have the shape (8,), and have to be side x side, side one of 3, 5, 9", lambda _: Engine(HILL[:8], 8)),
    (ValueError, "heights have the shape (4, 4)", lambda _: Engine(np.zeros((4, 4), np.uint16), 2)),
    (ValueError, "heights have the shape (3, 3, 1)", lambda _: Engine(np.zeros((3, 3, 1), np.uint16), 2)),
    (ValueError, "heights have the shape (0,)", lambda _: Engine(np.zeros(0, np.uint16), 2)),
    (ValueError, "heights are from 0 to 70000, and have to be from 0 to 65535", lambda _: Engine([70_000] + HILL[1:], 8)),
    (ValueError, "heights are from -1 to 100, and have to be from 0 to 65535", lambda _: Engine([-1] + HILL[1:], 8)),
    (TypeError, "heights are of type float64", lambda _: Engine([0.5] + HILL[1:], 8)),
    (ValueError, "x is 1073741825, and has to be from -1073741824 to 1073741824", lambda it: it.camera(2 ** 30 + 1, 0, 0)),
    (ValueError, "z is -18446744073709551616, and has to be from", lambda it: it.camera(0, 0, -2 ** 64)),
    (TypeError, "y is nan, and has to be a whole number", lambda it: it.camera(0, float("nan"), 0)),
    (TypeError, "y is inf, and has to be a whole number", lambda it: it.camera(0, float("inf"), 0)),
    (TypeError, "x is '1', and has to be a whole number", lambda it: it.camera("1", 0, 0)),
    (ValueError, "b is 1048577, and has to be from -1048576 to 1048576", lambda it: it.add_plane(0, 2 ** 20 + 1, 0, 0)),
    (ValueError, "d is 1125899906842625, and has to be from", lambda it: it.add_plane(0, 0, 0, 2 ** 50 + 1)),
    (ValueError, "a is -1048577, and has to be from", lambda it: it.look([(0, 0, 1, 0), (-2 ** 20 - 1, 0, 0, 0)])),
    (ValueError, "planes are 7, and may be 6 at most", lambda it: it.look(7 * [(0, 0, 1, 0)])),
    (ValueError, "triangles is 9, and has to be from 2 to 8", lambda it: it.budget(9)),
    (ValueError, "x is 3, and has to be from 0 to 2", lambda it: it.set(3, 0, 1)),
    (ValueError, "y is -1, and has to be from 0 to 2", lambda it: it.set(0, -1, 1)),
    (ValueError, "height is 65536, and has to be from 0 to 65535", lambda it: it.set(0, 0, 65_536)),
    (ValueError, "x1 is 0, and has to be from 1 to 2", lambda it: it.raise_area(1, 0, 0, 2, 1)),
    (ValueError, "y1 is 3, and has to be from 0 to 2", lambda it: it.raise_area(0, 0, 1, 3, 1)),
    (ValueError, "dz is -65536, and has to be from -65535 to 65535", lambda it: it.raise_area(0, 0, 1, 1, -65_536)),
    (ValueError, "out has 5 places, and has to have at least 6", lambda it: it.indices(np.zeros(5, np.uint32))),
    (TypeError, "out has to be a writable, C-contiguous array of numpy.uint32", lambda it: it.indices(np.zeros(9, np.int64))),
    (TypeError, "out has to be a writable, C-contiguous", lambda it: it.indices(np.zeros(99, np.uint32)[::2])),
    (TypeError, "out has to be a writable, C-contiguous", lambda it: it.indices(np.frombuffer(bytes(99 * 4), np.uint32))),
    (TypeError, "out has to be a writable, C-contiguous", lambda it: it.leaves([1, 2, 3])),
    (ValueError, "out has 11 places, and has to have at least 12", lambda it: it.positions(np.zeros(11, np.uint32))),
    (ValueError, "tolerance in thousandths is -1, and has to be from 0 to 65535999", lambda it: it.fit(-0.001)),
    (ValueError, "tolerance in thousandths is 65536000, and has to be from 0 to 65535999", lambda it: it.fit(65_536)),
    (TypeError, "tolerance in thousandths is nan", lambda it: it.fit(float("nan"))),
    (ValueError, "budget is 1, and has to be from 2 to 4294967295", lambda it: it.fit(budget=1)),
    (ValueError, "x is 1073741825, and has to be from -1073741824 to 1073741824", lambda it: it.certificate(2 ** 30 + 1, 0, 0)),
    (TypeError, "before has to be what leaves() gave", lambda it: calfrewin.changes([2, 3], it.leaves())),
    (TypeError, "after has to be what leaves() gave", lambda it: calfrewin.changes(it.leaves(), it.indices())),
])
def test_a_refusal_names_the_argument_and_its_range_and_changes_nothing(kind, text, call):
    with Engine(HILL, 8, 10) as engine:
        before = engine.state()
        with pytest.raises(kind, match=re.escape(text)):
            call(engine)
        assert engine.state() == before and engine.frame().triangles == 4


def test_a_seventh_plane_is_refused():
    with Engine(HILL, 8) as engine:
        for _ in range(6):
            engine.add_plane(0, 0, 1, 0)
        with pytest.raises(ValueError, match="six are in force"):
            engine.add_plane(0, 0, 1, 0)
        assert engine.state().planes == 6


@pytest.mark.parametrize("call", ["frame", "deviation", "fit", "state", "indices", "clear_planes", "renew"])
def test_a_closed_engine_says_so(call):
    engine = Engine(HILL, 8)
    engine.close()
    engine.close()
    with pytest.raises(ValueError, match="the engine is closed"):
        getattr(engine, call)()
    assert "closed" in repr(engine)


def test_words_that_are_missing_leave_nothing_behind():
    with pytest.raises(TypeError):
        Engine()
    gc.collect()


def fly(engine, frames):
    """What the frames show: their notes, indices and addresses."""
    found = []
    for k in frames:
        engine.camera(9 * k, 7.5 * k, 90)
        if k % 20 == 7:
            engine.raise_area(2, 3, 11, 20, k)
        found.append((engine.frame(), engine.indices().tobytes(), engine.leaves().tobytes()))
    return found


def alone():
    with Engine(HEIGHTS, 400, 10) as engine:
        return fly(engine, range(FRAMES))


def test_an_engine_goes_from_thread_to_thread():
    engine = on_a_thread(Engine, HEIGHTS, 400, 10)
    found = on_a_thread(fly, engine, range(20)) + fly(engine, range(20, 40)) + on_a_thread(fly, engine, range(40, FRAMES))
    on_a_thread(engine.close)
    with pytest.raises(ValueError, match="the engine is closed"):
        engine.frame()
    assert found == alone() and len({addresses for _, _, addresses in found}) > 1


def test_two_threads_take_turns_by_a_lock():
    engine, lock, found = Engine(HEIGHTS, 400, 10), threading.Lock(), []

    def fly_on():
        while True:
            with lock:
                if len(found) == FRAMES:
                    return
                found.extend(fly(engine, [len(found)]))
    threads = [threading.Thread(target=fly_on) for _ in range(2)]
    for thread in threads:
        thread.start()
    for thread in threads:
        thread.join()
    assert found == alone()


def test_engines_of_several_threads_run_side_by_side():
    found = [[] for _ in range(3)]
    threads = [threading.Thread(target=lambda to=to: to.extend(alone())) for to in found]
    for thread in threads:
        thread.start()
    for thread in threads:
        thread.join()
    assert found == 3 * [alone()]


def test_an_engine_that_another_thread_lets_go_of_gives_its_memory_back():
    heights = np.zeros((257, 257), np.uint16)
    engines = [Engine(heights, 2000)]
    on_a_thread(engines.clear)
    before = resource.getrusage(resource.RUSAGE_SELF).ru_maxrss
    for _ in range(40):  # of 2 MB each
        engines.append(Engine(heights, 2000))
        on_a_thread(engines.clear)
    assert resource.getrusage(resource.RUSAGE_SELF).ru_maxrss - before < 20_000


def test_a_call_lets_other_threads_run_and_a_second_one_on_its_engine_is_refused():
    heights = np.random.default_rng(1).integers(0, 60000, (1025, 1025)).astype(np.uint16)
    engine = Engine(heights, 2)
    check_that_one_thread_is_taken(engine, lambda: engine.fit(10), engine.state)
    assert engine.state().side == 1025

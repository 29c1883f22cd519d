"""Pages around a camera: what is loaded in the end, in which order, and that frames go on meanwhile."""
import threading
import time

import numpy as np
import pytest
from hypothesis import given, strategies as st

from calfrewin import Pager, Square
from calfrewin.pager import KEPT, source_of

numbers = st.integers(0, 2 ** 32 - 1)


def terrain(large, seed=1, relief=300):
    return np.random.default_rng(seed).integers(0, relief + 1, (2 ** large + 1, 2 ** large + 1)).astype(np.uint16)


def over(square, coarsest):
    """The square of the next coarser resolution over one, and those that have a side in common with that."""
    count = 2 ** (coarsest - square.q - 1)
    return {Square(square.q + 1, c, r) for c in range(count) for r in range(count)
            if abs(c - square.column // 2) + abs(r - square.row // 2) <= 1}


def near(place, coarsest, wide, high, reach):
    """The squares within reach of a place and all over these, by a look at every square."""
    found, (x, y, z) = {Square(coarsest, 0, 0)}, place
    for q in range(coarsest):
        for column, row in np.ndindex(2 ** (coarsest - q), 2 ** (coarsest - q)):
            step = wide * 2 ** q
            at = [np.clip(x, column * step, (column + 1) * step), np.clip(y, row * step, (row + 1) * step), np.clip(z, 0, high)]
            if sum((np.subtract(place, at) / step) ** 2) <= reach ** 2:
                found.add(Square(q, column, row))
        for square in [it for it in found if it.q == q]:
            found |= over(square, coarsest)
    return found


def fly_on(pager, place, at_once):
    """A frame there, with a look at what it loads and unloads."""
    before = set(pager.heights)
    come, gone = pager.around(*place)
    assert len(come) <= at_once and len(gone) <= at_once
    assert set(pager.heights) == (before | set(come)) - set(gone) == pager.world.pages
    pager.world.frame()


@given(st.integers(1, 2), st.integers(1, 3), numbers, st.sampled_from([0, 0.5, 1, 2, 3.5]), st.integers(1, 4), st.integers(1, 3))
def test_after_some_moves_what_is_near_is_loaded_and_what_is_far_is_not(n, more, seed, reach, at_once, workers):
    rng, heights, spacing = np.random.default_rng(seed), terrain(n + more, seed), 100
    with Pager(source_of(heights, 2 ** n + 1), n + more, 2 ** n + 1, 300, spacing, reach=reach, at_once=at_once,
               workers=workers) as pager:
        reached = 2 ** (n + more) * spacing
        for _ in range(5):
            place = *map(int, rng.integers(-reached // 8, reached * 9 // 8, 2)), int(rng.integers(0, 600))
            for _ in range(rng.integers(1, 4)):
                fly_on(pager, place, at_once)
        until = time.perf_counter() + 20
        while not pager.is_settled and time.perf_counter() < until:
            fly_on(pager, place, at_once)
            time.sleep(0.0005)
        high = int(pager.heights[Square(more, 0, 0)].max())
        wanted, kept = (near(place, more, spacing * 2 ** n, high, reach * far) for far in (1, KEPT))
        assert wanted <= pager.world.pages <= kept
        for square, its in pager.heights.items():
            assert np.array_equal(its, source_of(heights, 2 ** n + 1)(*square))
        assert pager.world.frame().triangles >= 2


def test_a_slow_source_does_not_stall_frames():
    heights, gate = terrain(6), threading.Event()
    whole = source_of(heights, 9)

    def source(q, column, row):
        if q < 3:
            gate.wait(5)
        return whole(q, column, row)
    with Pager(source, 6, 9, 500, 10) as pager:
        began = time.perf_counter()
        for k in range(100):
            assert not pager.around(5 * k, 200, 100).come and not pager.is_settled
            pager.world.frame()
        assert time.perf_counter() - began < 4
        gate.set()
        pager.settle(300, 200, 100)
        assert pager.is_settled and {it.q for it in pager.heights} == {0, 1, 2, 3}


def test_a_fine_page_that_is_ready_waits_for_those_that_it_needs():
    whole, is_fine_made = source_of(terrain(4), 5), threading.Event()

    def source(q, column, row):
        if (q, column, row) == (1, 0, 0):
            is_fine_made.wait(5)
            time.sleep(0.1)
        if q == 0:
            is_fine_made.set()
        return whole(q, column, row)
    with Pager(source, 4, 5, 100, 10, workers=3) as pager:
        pager.settle(20, 20, 10)
        assert is_fine_made.is_set() and {it.q for it in pager.heights} == {0, 1, 2}


def test_what_a_source_raises_comes_out_and_the_page_is_asked_for_again():
    whole, broken = source_of(terrain(4), 5), [True]

    def source(q, column, row):
        if q == 0 and broken[0]:
            raise OSError("the disk is gone")
        return whole(q, column, row)
    with Pager(source, 4, 5, 100, 10) as pager:
        with pytest.raises(OSError, match="the disk is gone"):
            pager.settle(20, 20, 10)
        assert pager.world.frame().triangles > 2
        while not {it.q for it in pager.heights} == {0, 1, 2}:
            broken[0] = False
            try:
                pager.settle(20, 20, 10)
            except OSError:  # of another page that was asked for then
                pass


def test_pages_that_do_not_agree_come_out_as_a_bad_page():
    from calfrewin import BadPage
    whole = source_of(terrain(4), 5)
    with Pager(lambda q, c, r: whole(q, c, r) + (q == 0), 4, 5, 100, 10) as pager:
        with pytest.raises(BadPage, match="has another height than a page that is loaded"):
            pager.settle(20, 20, 10)
        assert {it.q for it in pager.heights} == {1, 2}


def test_what_was_loaded_stays_a_little_farther_than_it_is_wanted():
    asked = []
    whole = source_of(terrain(7), 9)

    def source(*square):
        asked.append(square)
        return whole(*square)
    with Pager(source, 7, 9, 100, 10) as pager:
        pager.settle(600, 600, 50)
        count = len(asked)
        pager.settle(615, 600, 50)
        pager.settle(600, 600, 50)
        pager.settle(615, 600, 50)
        assert len(set(asked)) == len(asked) and count < len(asked)


def test_high_up_fine_pages_are_not_wanted():
    with Pager(source_of(terrain(5), 5), 5, 5, 100, 10) as pager:
        pager.settle(100, 100, 50)
        low = len(pager.heights)
        pager.settle(100, 100, 50_000)
        assert low > 10 and set(pager.heights) == {Square(3, 0, 0)}


@pytest.mark.parametrize("text, words", [("side is 6, and has to be one of 3, 5, 9", (3, 6, 8)),
                                         ("large is 1, and has to be from 2 to 14", (1, 5, 8)),
                                         ("budget is 1, and has to be from 2", (3, 5, 1)),
                                         ("the source gives 25 heights of the coarsest page, and side is 9", (4, 9, 8))])
def test_a_refusal_names_the_argument(text, words):
    with pytest.raises(ValueError, match=text):
        Pager(lambda *_: np.zeros((5, 5), np.uint16), *words)
    with pytest.raises(ValueError, match="reach, at_once and workers are 2.0, 0, 1, and have to be at least 0, 1 and 1"):
        Pager(lambda *_: np.zeros((5, 5), np.uint16), 3, 5, 8, at_once=0)


def test_a_page_that_is_alone_is_settled():
    with Pager(source_of(terrain(3), 9), 3, 9, 100, 10) as pager:
        assert pager.around(20, 20, 10) == ([], []) and pager.is_settled and pager.world.frame().triangles > 2


def test_a_closed_pager_ends_while_a_page_is_made():
    gate, whole = threading.Event(), source_of(terrain(4), 5)

    def source(q, column, row):
        if q < 2:
            gate.wait(0.3)
        return whole(q, column, row)
    pager = Pager(source, 4, 5, 100, 10)
    pager.around(0, 0, 0)
    pager.close()
    with pytest.raises(ValueError, match="the world is closed"):
        pager.around(0, 0, 0)

"""Worlds beside the engine of one grid, and beside the rules of what may be loaded."""
import re
import threading

import numpy as np
import pytest
from hypothesis import given, strategies as st

import calfrewin
from calfrewin import BadPage, Engine, Page, Square, World
from threads import check_that_one_thread_is_taken

numbers = st.integers(0, 2 ** 32 - 1)
FLAT = np.zeros((5, 5), np.uint16)


def terrain(large, seed, relief=300):
    return np.random.default_rng(seed).integers(0, relief + 1, (2 ** large + 1, 2 ** large + 1)).astype(np.uint16)


def part_of(heights, n, square):
    """The heights of a page of a terrain, whose rows go from the far side to the near one."""
    step, span, last = 2 ** square.q, 2 ** (n + square.q), len(heights) - 1
    top, left = last - (square.row + 1) * span, square.column * span
    return heights[top:top + span + 1:step, left:left + span + 1:step]


def opened(heights, n, budget=500, spacing=10):
    large = (len(heights) - 1).bit_length() - 1
    return World(part_of(heights, n, Square(large - n, 0, 0)), large, budget, spacing)


def squares_of(q, coarsest):
    return [Square(q, *place) for place in np.ndindex(2 ** (coarsest - q), 2 ** (coarsest - q))]


def may_be_loaded(square, loaded):
    """By the distance of the middles of squares: of the one over it and of those beside that."""
    if square in loaded:
        return False
    over = [it for it in squares_of(square.q + 1, max(loaded).q)
            if abs(it.column - square.column // 2) + abs(it.row - square.row // 2) <= 1]
    return all(it in loaded for it in over)


def load_at_random(world, heights, n, seed, count):
    """Loads pages in an order of the seed; those that are loaded in the end."""
    rng = np.random.default_rng(seed)
    for _ in range(count):
        can = [it for q in range(world.coarsest) for it in squares_of(q, world.coarsest) if may_be_loaded(it, world.pages)]
        if can:
            square = can[rng.integers(len(can))]
            world.load(*square, part_of(heights, n, square))
    return world.pages


def triangles_of(leaves, large):
    """The corners of triangles by the names of these, depth first, as a triangle is halved at the middle of its base."""
    found, wanted, side = {}, set(leaves.tolist()), 2 ** large

    def walk(name, apex, left, right):
        if name in wanted:
            found[name] = apex, left, right
        elif name < 4 * side * side:
            middle = (left[0] + right[0]) // 2, (left[1] + right[1]) // 2
            walk(2 * name, middle, apex, left)
            walk(2 * name + 1, middle, right, apex)
    walk(2, (0, 0), (side, 0), (0, side))
    walk(3, (side, side), (0, side), (side, 0))
    return [found[name] for name in leaves.tolist()]


def holds(square, n, corners):
    """Whether a triangle lies in a square."""
    wide = 2 ** (n + square.q)
    return all(0 <= at - it * wide <= wide for corner in corners for at, it in zip(corner, square[1:]))


def random_view(it, rng, side, spacing, triangles):
    """Puts a view of a seed in force."""
    reach = 2 * side * spacing
    it.camera(*rng.integers(-reach // 4, reach, 3))
    it.look([[*rng.integers(-3, 4, 3), rng.integers(0, reach)] for _ in range(rng.integers(3))])
    it.threshold(int(rng.choice([0, 0, 9_000])))
    it.budget(int(rng.integers(2, triangles + 1)))


@given(st.integers(1, 3), st.integers(0, 2), numbers)
def test_the_coarsest_page_alone_is_the_engine_of_its_grid(n, more, seed):
    heights = terrain(n, seed)
    with World(heights, n + more, 400, 10) as world, Engine(heights, 400, 10 << more) as engine:
        for k in range(4):
            for it in world, engine:
                random_view(it, np.random.default_rng((seed, k)), 2 ** (n + more), 10, 400)
            mine, theirs = world.frame(), engine.frame()
            assert [getattr(mine, name) for name in ("worst", "triangles", "splits", "merges", "blocking", "need")] == [
                getattr(theirs, name) for name in ("worst", "triangles", "splits", "merges", "blocking", "need")]
            assert np.array_equal(world.leaves(), engine.leaves())
            assert np.array_equal(world.draws()[Square(more, 0, 0)], engine.indices())


@given(st.integers(1, 2), st.integers(1, 2), numbers)
def test_with_all_pages_it_is_the_engine_of_the_whole(n, more, seed):
    heights = terrain(n + more, seed)
    with opened(heights, n) as world, Engine(heights, 500, 10) as engine:
        load_at_random(world, heights, n, seed, 99)
        for k in range(3):
            for it in world, engine:
                random_view(it, np.random.default_rng((seed, k)), 2 ** (n + more), 10, 500)
                it.frame()
            assert np.array_equal(world.leaves(), engine.leaves())


@given(st.integers(1, 2), st.integers(1, 3), numbers, st.integers(0, 30))
def test_each_triangle_is_drawn_once_by_the_finest_page_that_it_lies_in(n, more, seed, count):
    heights, large = terrain(n + more, seed), n + more
    with opened(heights, n) as world:
        loaded = load_at_random(world, heights, n, seed, count)
        world.camera(*np.random.default_rng(seed).integers(0, 10 * 2 ** large, 3))
        world.budget(2 + seed % 60)
        world.frame()
        found = set()
        for square, triangles in world.draws().items():
            span, side = 2 ** (n + square.q), 2 ** n + 1
            assert triangles.dtype == np.uint32 and triangles.shape == (len(triangles), 3)
            height = np.asarray(part_of(heights, n, square)).reshape(-1)[triangles]
            x = square.column * span + triangles % side * 2 ** square.q
            y = square.row * span + (side - 1 - triangles // side) * 2 ** square.q
            assert np.array_equal(height, heights[2 ** large - y, x])
            for corners in np.stack((x, y), 2).tolist():
                assert square == min(it for it in loaded if holds(it, n, corners))
                found.add(tuple(map(tuple, corners)))
        assert found == set(triangles_of(world.leaves(), large)) and len(found) == len(world.leaves())


@given(st.integers(1, 2), st.integers(1, 3), numbers)
def test_pages_come_and_go_by_the_rules_and_each_refusal_has_its_cause(n, more, seed):
    heights, rng = terrain(n + more, seed), np.random.default_rng(seed)
    with opened(heights, n) as world:
        for _ in range(60):
            q = int(rng.integers(more))
            square = Square(q, *map(int, rng.integers(0, 2 ** (more - q), 2)))
            before = world.pages
            if rng.integers(3):
                page = Page(part_of(heights, n, square))
                try:
                    world.load(*square, page)
                    assert may_be_loaded(square, before) and page.side == 0 and world.pages == before | {square}
                except BadPage as why:
                    assert not may_be_loaded(square, before) and page.side == 2 ** n + 1 and world.pages == before
                    assert re.search("is loaded in" if square in before else "which is not loaded", str(why))
            else:
                rest = before - {square}
                can = square in before and all(may_be_loaded(it, rest - {it}) for it in rest if it.q < more)
                try:
                    assert world.unload(*square).side == 2 ** n + 1 and can and world.pages == rest
                except BadPage as why:
                    assert not can and world.pages == before
                    assert re.search("is needed for" if square in before else "no page is loaded", str(why))
            world.frame()


def test_a_page_goes_from_world_to_world_and_is_what_it_was():
    heights = terrain(3, 5)
    square = Square(0, 1, 0)
    with opened(heights, 2) as one, opened(heights, 2) as other:
        page = Page(part_of(heights, 2, square))
        one.load(*square, page)
        with pytest.raises(ValueError, match="the page is empty: a world has it, or it is closed"):
            other.load(*square, page)
        page = one.unload(*square)
        other.load(*square, page)
        for it in one, other:
            it.camera(70, 10, 50)
        assert other.frame().triangles > one.frame().triangles
        assert {square, Square(1, 0, 0)} == other.pages and {Square(1, 0, 0)} == one.pages


@pytest.mark.parametrize("kind, text, call", [
    (ValueError, "large is 1, and has to be from 2 to 14", lambda _: World(FLAT, 1, 8)),
    (ValueError, "large is 15, and has to be from 2 to 14", lambda _: World(FLAT, 15, 8)),
    (ValueError, "budget is 1, and has to be from 2 to 1048576", lambda _: World(FLAT, 3, 1)),
    (ValueError, "spacing is 1025, and has to be from 1 to 1024", lambda _: World(FLAT, 3, 8, 1025)),
    (ValueError, "heights have the shape (4, 4)", lambda _: World(np.zeros((4, 4), np.uint16), 3, 8)),
    (TypeError, "heights are of type float64", lambda _: Page(np.zeros((5, 5)))),
    (ValueError, "q is 2, and has to be from 0 to 1", lambda it: it.load(2, 0, 0, FLAT)),
    (ValueError, "column is 4, and has to be from 0 to 3", lambda it: it.load(0, 4, 0, FLAT)),
    (ValueError, "row is 2, and has to be from 0 to 1", lambda it: it.unload(1, 0, 2)),
    (BadPage, "a page is loaded in Square(q=1, column=0, row=0)", lambda it: it.load(1, 0, 0, FLAT)),
    (BadPage, "the page has 3 points a side, and the others have 5", lambda it: it.load(1, 1, 0, FLAT[:3, :3])),
    (BadPage, "Square(q=0, column=3, row=0) needs Square(q=1, column=1, row=0), which is not loaded",
     lambda it: it.load(0, 3, 0, FLAT)),
    (BadPage, "the page has another height than a page that is loaded, at a point that both have",
     lambda it: it.load(1, 1, 0, FLAT + 1)),
    (BadPage, "no page is loaded in Square(q=0, column=1, row=1)", lambda it: it.unload(0, 1, 1)),
    (ValueError, "x is 1073741825, and has to be from", lambda it: it.camera(2 ** 30 + 1, 0, 0)),
    (ValueError, "planes are 7, and may be 6 at most", lambda it: it.look(7 * [(0, 0, 1, 0)])),
    (ValueError, "triangles is 9, and has to be from 2 to 8", lambda it: it.budget(9)),
    (ValueError, "ratio is -1, and has to be from 0", lambda it: it.threshold(-1)),
    (ValueError, "out has 1 places, and has to have at least 2", lambda it: it.leaves(np.zeros(1, np.uint32))),
])
def test_a_refusal_names_the_argument_and_its_range_and_changes_nothing(kind, text, call):
    with World(FLAT, 4, 8, 10) as world:
        world.load(1, 0, 0, FLAT)
        before = world.pages
        with pytest.raises(kind, match=re.escape(text)):
            call(world)
        assert world.pages == before and world.frame().triangles == 2


@given(st.integers(1, 3), st.integers(0, 3), numbers, st.integers(0, 12))
def test_heights_change_in_each_page_that_has_them(n, more, seed, count):
    large, rng = n + more, np.random.default_rng(seed)
    heights = terrain(large, seed)
    with opened(heights, n) as world:
        loaded = load_at_random(world, heights, n, seed, count)
        finest, last = {square.q for square in loaded}, 2 ** large
        for _ in range(8):
            x0, x1 = sorted(rng.integers(0, last + 1, 2).tolist())
            y0, y1 = sorted(rng.integers(0, last + 1, 2).tolist())
            dz = int(rng.integers(-400, 400))
            rows = slice(last - y1, last - y0 + 1)
            found = heights[rows, x0:x1 + 1].astype(np.int64) + dz
            heights[rows, x0:x1 + 1] = found.clip(0, 65535)
            step = 2 ** min(finest)
            is_there = (x0 + step - 1) // step * step <= x1 and (y0 + step - 1) // step * step <= y1
            try:
                world.raise_area(x0, y0, x1, y1, dz)
            except BadPage as why:
                assert str(why) == "no page is loaded that has a point there"
            else:
                assert is_there
        world.set(0, 0, 7)
        heights[last, 0] = 7
        anew = opened(heights, n)
        for square in sorted(loaded, reverse=True)[1:]:
            anew.load(*square, part_of(heights, n, square))
        assert world.frame()[:2] == anew.frame()[:2]
        assert world.leaves().tolist() == anew.leaves().tolist()


def test_a_page_changes_before_it_is_loaded():
    world, page = World(FLAT, large=3, budget=100), Page(FLAT)
    page.set(1, 1, 90)
    page.raise_area(3, 3, 3, 3, 10)
    world.load(0, 0, 0, page)
    assert world.frame().triangles > 2
    with pytest.raises(ValueError, match="the page is empty"):
        page.set(0, 0, 1)


def test_what_is_alone_has_no_page_to_load_or_unload():
    with World(FLAT, 2, 8) as world:
        with pytest.raises(BadPage, match="the coarsest page has all points of the terrain"):
            world.load(0, 0, 0, FLAT)


def test_a_mesh_whose_page_has_gone_is_not_drawn_until_the_next_frame():
    heights = terrain(3, 1)
    with opened(heights, 1) as world:
        world.load(1, 0, 0, part_of(heights, 1, Square(1, 0, 0)))
        world.camera(10, 10, 10)
        world.frame()
        assert Square(1, 0, 0) in world.draws()
        world.unload(1, 0, 0)
        with pytest.raises(BadPage, match="a page that the mesh needs went since the last frame"):
            world.draws()
        world.frame()
        assert set(world.draws()) == {Square(2, 0, 0)}


@pytest.mark.parametrize("call", ["frame", "leaves", "draws"])
def test_a_closed_world_says_so(call):
    world = World(FLAT, 3, 8)
    world.close()
    world.close()
    with pytest.raises(ValueError, match="the world is closed"):
        getattr(world, call)()


def test_a_refused_page_is_left_and_a_taken_one_is_empty():
    page = Page(FLAT)
    with pytest.raises(ValueError, match="budget"):
        World(page, 3, 1)
    assert page.side == 5 and "5 x 5" in repr(page)
    with World(page, 3, 8) as world:
        assert page.side == 0 and "empty" in repr(page) and "9 x 9" in repr(world)
    page.close()
    with pytest.raises(ValueError, match="the page is empty"):
        World(page, 3, 8)


def test_pages_are_made_on_other_threads_while_a_world_flies():
    heights, made = terrain(9, 3, 60_000), []
    with opened(heights, 7, 5000) as world:
        squares = squares_of(1, 2) + squares_of(0, 2)
        thread = threading.Thread(target=lambda: made.extend(Page(part_of(heights, 7, it)) for it in squares))
        thread.start()
        for k in range(50):
            world.camera(10 * k, 300, 900)
            world.frame()
        thread.join()
        for square, page in zip(squares, made):
            world.load(*square, page)
        world.frame()
        assert len(world.pages) == 21 and {it.q for it in world.draws()} > {0}


def test_a_second_call_on_a_world_in_use_is_refused():
    with World(terrain(10, 1, 60_000), 10, 200_000) as world:
        check_that_one_thread_is_taken(world, world.frame, lambda: world.camera(0, 0, 0))


def test_names_of_the_package():
    assert calfrewin.World is World and issubclass(BadPage, ValueError)

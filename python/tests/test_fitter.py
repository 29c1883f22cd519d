"""The calls of a fitter and of a mosaic, beside those of an engine and definitions of their own."""
import numpy as np
import pytest
from hypothesis import given, strategies as st

from calfrewin import ANY, Engine, Fitter, Mosaic, fit_with, surface
from threads import check_that_one_thread_is_taken

numbers = st.integers(0, 2 ** 32 - 1)


def heights_of(n, seed, relief=300):
    return np.random.default_rng(seed).integers(0, relief + 1, (2 ** n + 1, 2 ** n + 1)).astype(np.uint16)


def vertices_of(indices, side):
    found = np.zeros(side * side, bool)
    found[np.asarray(indices).reshape(-1)] = True
    return found.reshape(side, side)


def off(heights, indices):
    return np.abs(heights - surface(heights, vertices_of(indices, len(heights))))


def border_of(indices, side):
    is_vertex = vertices_of(indices, side)
    is_border = np.zeros_like(is_vertex)
    is_border[[0, -1]] = is_border[:, [0, -1]] = True
    is_border[np.ix_([0, -1], [0, -1])] = False
    return np.flatnonzero(is_vertex & is_border)


def triangles_of(indices):
    return {frozenset(it) for it in np.asarray(indices).tolist()}


@given(st.integers(1, 5), numbers, st.floats(0, 300))
def test_without_required_points_it_is_the_fit_of_an_engine(n, seed, tolerance):
    heights = heights_of(n, seed)
    with Engine(heights, 2) as engine, Fitter(heights) as fitter:
        found = engine.fit(tolerance)
        count = fitter.fit(tolerance)
        assert count == len(found.triangles) and np.array_equal(fitter.indices(), found.triangles)
        assert fitter.deviation() == found.deviation
        both = fit_with(heights, tolerance)
        assert np.array_equal(both.triangles, found.triangles) and both[1:] == found[1:]


@given(st.integers(1, 5), numbers, st.floats(0, 300), st.integers(0, 8))
def test_required_points_are_vertices_within_the_tolerance_and_the_border_is_that_of_the_mesh(n, seed, tolerance, count):
    heights = heights_of(n, seed)
    side = len(heights)
    required = np.random.default_rng(seed).integers(0, side * side, count)
    with Fitter(heights) as fitter:
        fitter.fit(tolerance, required)
        indices = fitter.indices()
        assert vertices_of(indices, side).reshape(-1)[required].all()
        assert off(heights, indices).max() == float(fitter.deviation()) <= tolerance
        assert fitter.border().tolist() == border_of(indices, side).tolist()
        assert np.array_equal(fit_with(heights, tolerance, required).triangles, indices)


@given(st.integers(1, 5), numbers, st.floats(0, 300), st.lists(st.integers(0, 10 ** 6), max_size=6), st.integers(0, 6))
def test_going_on_comes_to_the_mesh_of_all_that_was_required(n, seed, tolerance, required, first):
    heights = heights_of(n, seed)
    places = np.array(required, np.int64) % heights.size
    with Fitter(heights) as at_once, Fitter(heights) as step_by_step:
        at_once.fit(tolerance, places)
        step_by_step.fit(tolerance, places[:first])
        leaves = step_by_step.leaves()
        with Fitter(heights) as restored:
            restored.restore(leaves)
            assert np.array_equal(restored.leaves(), leaves)
            count = restored.more(tolerance, places[first:])
            assert count == len(at_once.leaves()) and np.array_equal(restored.leaves(), at_once.leaves())
        for place in places[first:]:
            step_by_step.more(tolerance, [place])
        assert np.array_equal(step_by_step.indices(), at_once.indices())


@given(st.integers(1, 5), numbers, st.integers(0, 200), st.floats(0, 1))
def test_each_point_has_its_own_tolerance_and_some_do_not_count(n, seed, tolerance, share):
    heights = heights_of(n, seed)
    rng = np.random.default_rng(seed)
    each = rng.integers(0, 1000 * tolerance + 1, heights.shape).astype(np.uint32)
    counts = rng.random(heights.shape) < share
    each[~counts] = ANY
    with Fitter(heights) as fitter:
        few = fitter.fit(each)
        assert (off(heights, fitter.indices()) * 1000 <= each)[counts].all()
        least = fitter.fit(each[counts].min() / 1000 if counts.any() else 65535)
        assert few <= least


def test_what_does_not_count_asks_for_nothing():
    heights = heights_of(4, 1)
    with Fitter(heights) as fitter:
        assert fitter.fit(np.full(heights.shape, ANY, np.uint32)) == 2


def test_refusals_name_the_argument_and_change_nothing():
    heights = heights_of(2, 3)
    with Fitter(heights) as fitter:
        fitter.fit(3, [2])
        before = fitter.leaves()
        for call, text in ((lambda: fitter.fit(-1), "tolerance in thousandths is -1000"),
                           (lambda: fitter.fit(1, [25]), "required are from 25"),
                           (lambda: fitter.fit(1, [-1]), "required are from -1"),
                           (lambda: fitter.fit(np.zeros(4, np.uint32)), "have 25"),
                           (lambda: fitter.fit(np.full(25, 65_536_000, np.uint32)), "from 0 to 65535999"),
                           (lambda: fitter.restore(np.array([2], np.uint32)), "leaves are not"),
                           (lambda: fitter.restore(before[::-1].copy()), "leaves are not"),
                           (lambda: fitter.restore(np.array([2, 3, 3], np.uint32)), "leaves are not")):
            with pytest.raises(ValueError, match=text):
                call()
            assert np.array_equal(fitter.leaves(), before)
        with pytest.raises(TypeError):
            fitter.restore(before.astype(np.int64))
    with pytest.raises(ValueError, match="the fitter is closed"):
        fitter.fit(1)
    with pytest.raises(ValueError, match="side x side"):
        Fitter(np.zeros((4, 4), np.uint16))


def test_a_second_thread_on_one_fitter_is_refused():
    with Fitter(heights_of(10, 5, 60_000)) as fitter:
        check_that_one_thread_is_taken(fitter, lambda: fitter.fit(0), fitter.border)


def meshed(heights, columns, rows, steps, tolerance, order):
    """Tiles that match, by the books: their triangles by places of the whole; `order` chooses among those that lack something."""
    side, all_columns, found = steps + 1, columns * steps + 1, {}
    with Mosaic(columns, rows, side) as books:
        while True:
            lacking = [(c, r) for c in range(columns) for r in range(rows) if books.required(c, r).lacks]
            waits = books.next()
            assert (waits is None) == (not lacking) and (waits is None or waits in lacking)
            if waits is None:
                break
            column, row = waits if order is None else lacking[order.integers(len(lacking))]
            top, left = (rows - 1 - row) * steps, column * steps
            with Fitter(np.ascontiguousarray(heights[top:top + side, left:left + side])) as fitter:
                fitter.fit(tolerance, books.required(column, row).places)
                books.put(column, row, fitter.border())
                at = fitter.indices().astype(np.int64)
                found[column, row] = (at // side + top) * all_columns + at % side + left
    return set().union(*(triangles_of(it) for it in found.values()))


@given(st.integers(1, 3), st.integers(0, 2), numbers, st.floats(0, 250))
def test_tiles_that_match_are_the_mesh_of_the_whole_that_is_as_fine_as_they_are(n, p, seed, tolerance):
    heights = heights_of(n + p, seed)
    count, steps = 2 ** p, 2 ** n
    centres = [(r * steps + steps // 2) * len(heights) + c * steps + steps // 2 for r in range(count) for c in range(count)]
    whole = triangles_of(fit_with(heights, tolerance, centres).triangles)
    assert meshed(heights, count, count, steps, tolerance, None) == whole
    assert meshed(heights, count, count, steps, tolerance, np.random.default_rng(seed)) == whole


@given(st.integers(1, 3), st.integers(1, 4), st.integers(1, 4), numbers, st.floats(0, 250))
def test_any_rectangle_of_tiles_is_without_cracks(n, columns, rows, seed, tolerance):
    steps = 2 ** n
    heights = np.random.default_rng(seed).integers(0, 301, (rows * steps + 1, columns * steps + 1)).astype(np.uint16)
    found = meshed(heights, columns, rows, steps, tolerance, None)
    edges = {}
    for it in found:
        for corner in it:
            edges.setdefault(it - {corner}, []).append(it)
    width = columns * steps + 1
    for edge, beside in edges.items():
        (r1, c1), (r2, c2) = (divmod(place, width) for place in edge)
        on_border = (r1 == r2 and r1 in (0, rows * steps)) or (c1 == c2 and c1 in (0, columns * steps))
        assert len(beside) == (1 if on_border else 2)


def test_the_books_refuse_what_is_no_border_and_what_shrinks():
    with Mosaic(2, 1, 5) as books:
        books.put(0, 0, [14])
        for call, text in ((lambda: books.put(0, 0, []), "border lacks a point"), (lambda: books.put(0, 0, [12]), "answer 8"),
                           (lambda: books.put(2, 0, []), "column is 2"), (lambda: books.required(0, 1), "row is 1"),
                           (lambda: Mosaic(1, 1, 4), "side is 4"), (lambda: Mosaic(0, 1, 5), "columns is 0")):
            with pytest.raises(ValueError, match=text):
                call()
        assert sorted(books.required(1, 0).places.tolist()) == [10, 12]
        assert books.required(1, 0).lacks and not books.required(0, 0).lacks

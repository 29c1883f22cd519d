"""A check of a folder of 3D Tiles beside its raster that trusts nothing of what made it.

Vertices are taken from the GLB files, brought to columns and rows of the raster by PROJ, and have to lie at its points. Then
each triangle counts: they are all turned one way, each edge has one triangle on each side or lies on the border of its tile,
their areas add up to that of the tile, so each point is covered once; no vertex of any level lies within an edge of another
tile, so no mixture of levels has a crack; and each point of the raster is within the error that is told. Nothing here is
shared with what fits and writes tiles.
"""
from __future__ import annotations

import functools
import json
import os
import re
import struct
import time
from typing import Any, Callable, Iterator, NamedTuple, Optional

import numpy as np
import numpy.typing as npt

from ._types import Floats, Transform
from .raster import Raster, Window
from .workers import workers_of

Whole = npt.NDArray[np.int64]
NEAR = 0.02  # of a cell: so near to a point of the raster a vertex has to be
LATTICE, DEGREE = 17, 5  # points a side at which PROJ is asked how the earth bends, and the polynomial between
HIGH = 1000.0  # metres
MOST_TOLD = 20  # of a kind
AT_ONCE = 3  # levels whose tiles a task checks, since the raster is read anew for each task
SLACK = 2.0 ** -21  # of a tile's extent: floats of 32 bits
KINDS = 128  # shapes of triangles whose points are kept, since all tiles have the same ones
Lines = dict[tuple[str, int], Any]
At = tuple[int, int, int]  # level, row and column of a tile
Box = tuple[int, int, int, int]  # its first row and column of the raster's points, and its last ones


class Said(NamedTuple):
    """What tileset.json says of its tiles."""
    folder: str
    steps: int  #: of a tile's side
    levels: int  #: above the finest
    crs: Optional[str]
    root: Floats  #: 4 x 4, from the root's coordinates to those of the earth
    is_filled: bool  #: whether what has no height in the raster has a surface all the same


class Found(NamedTuple):
    """What was found in a tile."""
    wrong: list[str]
    triangles: int
    points: int  #: of the raster that were measured
    part: float  #: of the told error that the worst point is off
    off: float  #: of the worst point, in metres
    vertices: Lines  #: of each line between tiles: where the tile has a vertex, and how high
    edges: Lines  #: of each line between tiles: the ends of its edges there


def check(folder: str, raster: Raster, *, client: Any = None, workers: int = 1, error: Optional[float] = None,
          progress: Optional[Callable[[int, int, str], None]] = None) -> dict[str, Any]:
    """Checks all tiles of a folder beside the raster that they were made of.

    Args:
        error: what the finest tiles are to be within, in metres; without it what each of them tells.

    Returns:
        `wrong`, a list of what is wrong, which is empty if nothing is; how many tiles, triangles and points were looked at;
        `off`, how far the worst point is from the finest tiles, in metres, and `part`, of what its tile tells.
    """
    began = time.perf_counter()
    wrong: list[str] = []
    try:
        said, errors = _said(folder, wrong)
    except (LookupError, TypeError, AttributeError, json.JSONDecodeError, UnicodeDecodeError) as why:
        raise ValueError(f"{os.path.join(folder, 'tileset.json')} is damaged: {why!r}") from None
    tasks: dict[Any, Any] = {}
    for low in range(0, said.levels + 1, AT_ONCE):
        level = min(low + AT_ONCE - 1, said.levels)
        for row, column in np.ndindex(*_count(said, raster, level)):
            own = {at: errors.pop(at, None) for at in _down_to(said, raster, low, (level, row, column))}
            tasks[level, row, column] = check_tiles, (said, raster, low, {
                at: most if error is None or most is None or at[0] else min(most, error) for at, most in own.items()})
    wrong += [f"{_name(said, at)} lies beyond the raster" for at in sorted(errors)]
    vertices: dict[Any, list[Any]] = {}
    edges: dict[Any, list[Any]] = {}
    told_all = {"tiles": 0, "triangles": 0, "points": 0}
    part, off = 0.0, 0.0
    with workers_of(client, workers) as hands:
        for done, (_, found) in enumerate(hands.do(tasks), 1):
            for at, it in found.items():
                wrong += it.wrong
                told_all["tiles"] += it.triangles > 0
                told_all["triangles"] += it.triangles if at[0] == 0 else 0
                told_all["points"] += it.points
                part = max(part, it.part)
                off = max(off, it.off) if at[0] == 0 else off
                for lines, own in ((vertices, it.vertices), (edges, it.edges)):
                    for line, values in own.items():
                        lines.setdefault(line, []).append((_name(said, at), values))
            if progress:
                progress(done, len(tasks), f"{told_all['triangles']:,} triangles")
    wrong += _between(vertices, edges)
    return {"wrong": wrong, **told_all, "off": off, "part": part, "seconds": round(time.perf_counter() - began, 2)}


def _said(folder: str, wrong: list[str]) -> tuple[Said, dict[At, float]]:
    """What tileset.json says of all tiles, and the error of each; what is wrong there is put to `wrong`."""
    with open(os.path.join(folder, "tileset.json"), encoding="utf-8") as file:
        tree = json.load(file)
    told = tree["asset"].get("extras", {}).get("calfrewin")
    if told is None:
        raise ValueError(f"{folder} has tiles that do not say how they lie in their raster")
    if told["skirts"]:
        raise ValueError(f"{folder} has tiles with skirts, whose borders do not match")
    said = Said(os.path.abspath(folder), told["steps"], told["levels"], told["crs"],
                np.array(tree["root"]["transform"], float).reshape(4, 4).T, told["fill"] is not None)
    return said, dict(_nodes(tree["root"], said, wrong))


def _count(said: Said, raster: Raster, level: int) -> tuple[int, int]:
    """Rows and columns of tiles of a level."""
    rows, columns = (max(1, -(-(points - 1) // (said.steps << level))) for points in raster.shape)
    return rows, columns


def _down_to(said: Said, raster: Raster, low: int, at: At) -> Iterator[At]:
    """A tile, and before it those below it that the raster has, down to a level."""
    level, row, column = at
    if level > low:
        rows, columns = _count(said, raster, level - 1)
        for i, j in ((2 * row + place // 2, 2 * column + place % 2) for place in range(4)):
            if i < rows and j < columns:
                yield from _down_to(said, raster, low, (level - 1, i, j))
    yield at


def _box(said: Said, raster: Raster, at: At) -> Box:
    span = said.steps << at[0]
    top, left = at[1] * span, at[2] * span
    bottom, right = (min(begin + span, points - 1) for begin, points in zip((top, left), raster.shape))
    return top, left, bottom, right


def _name(said: Said, at: At) -> str:
    level, row, column = at
    return f"{said.levels - level}/{column}/{row}.glb"


def _nodes(node: dict[str, Any], said: Said, wrong: list[str], above: float = np.inf,
           over: Any = None) -> Iterator[tuple[At, float]]:
    """Level, row, column and error of all tiles; a child is a quarter of what is over it, and has no greater error."""
    name = node["content"]["uri"]
    if not re.fullmatch(r"\d+/\d+/\d+\.glb", name):
        raise LookupError(f"no tile is called {name}")
    depth, column, row = map(int, name[:-4].split("/"))
    at = said.levels - depth, row, column
    if node["geometricError"] > above:
        wrong.append(f"{_name(said, at)} has a greater geometricError than the tile over it")
    if over is not None and (at[0] + 1, row // 2, column // 2) != over:
        wrong.append(f"{_name(said, at)} is no quarter of the tile over it")
    yield at, node["geometricError"]
    for child in node.get("children", []):
        yield from _nodes(child, said, wrong, node["geometricError"], at)


def read_glb(path: str) -> tuple[Floats, Whole, Floats]:
    """Positions as they stand, with z up; triangles; and the matrix of the node, with z up, too."""
    with open(path, "rb") as file:
        data = file.read()
    magic, version, length, size, kind = struct.unpack_from("<4sIII4s", data)
    if magic != b"glTF" or version != 2 or length != len(data) or kind != b"JSON":
        raise ValueError("it is no GLB, or is cut off")
    head, body = json.loads(data[20:20 + size]), data[28 + size:]
    primitive, node = head["meshes"][0]["primitives"][0], head["nodes"][0]

    def array(number: int, width: int) -> Any:
        accessor = head["accessors"][number]
        view = head["bufferViews"][accessor["bufferView"]]
        kind = {5126: np.float32, 5125: np.uint32, 5123: np.uint16}[accessor["componentType"]]
        return np.frombuffer(body, kind, accessor["count"] * width, view["byteOffset"]).reshape(-1, width)

    x, up, minus_y = array(primitive["attributes"]["POSITION"], 3).astype(np.float64).T
    triangles = array(primitive["indices"], 1).reshape(-1, 3).astype(np.int64)
    if triangles.max(initial=-1) >= len(x):
        raise ValueError(f"a triangle has vertex {triangles.max()}, and there are {len(x)}")
    turn = np.array([[1, 0, 0, 0], [0, 0, 1, 0], [0, -1, 0, 0], [0, 0, 0, 1]], float)
    matrix = turn.T @ np.array(node["matrix"], float).reshape(4, 4).T @ turn
    return np.column_stack((x, -minus_y, up)), triangles, matrix


def check_tiles(said: Said, raster: Raster, low: int, errors: dict[At, Optional[float]]) -> dict[At, Found]:
    """Checks the tiles within one of them, the last, down to the level `low`; `errors` has what each tells."""
    top, left, bottom, right = _box(said, raster, next(reversed(errors)))
    heights = raster.points(Window(top, left, bottom - top + 1, right - left + 1), 1 << low)
    found = {}
    for at, most in errors.items():
        own, step = _box(said, raster, at), 1 << at[0] - low
        rows, columns = (slice(begin - first >> low, (end - first >> low) + 1, step)
                         for begin, first, end in ((own[0], top, own[2]), (own[1], left, own[3])))
        found[at] = check_tile(said, raster, at, most, heights[rows, columns].astype(np.float64))
    return found


def check_tile(said: Said, raster: Raster, at: At, most: Optional[float], heights: Floats) -> Found:
    """Checks one tile, of these heights; `most` is the error that it tells, None where there is no such tile."""
    level, name = at[0], _name(said, at)
    top, left, bottom, right = _box(said, raster, at)
    if most is None:
        count = int((~np.isnan(heights)).sum())
        wrong = [f"{name} is not there, and {count} points of the raster are"] if count and not level else []
        return Found(wrong, 0, 0, 0.0, 0.0, {}, {})
    try:
        points, triangles, matrix = read_glb(os.path.join(said.folder, name))
    except (OSError, ValueError, LookupError, TypeError, AttributeError, struct.error) as why:
        return Found([f"{name}: {why}"], 0, 0, 0.0, 0.0, {}, {})
    frame = said.root @ matrix
    earth = points @ frame[:3, :3].T + frame[:3, 3]
    columns, rows = grid_places(earth, raster.transform, said.crs)
    x, y, wrong = _whole(columns, rows, (top, left, bottom, right), raster.shape, name)
    if wrong:
        return Found(wrong, len(triangles), 0, 0.0, 0.0, {}, {})
    down = _down(said, raster, frame, (top, left, bottom, right), 1 << level)
    wrong += _covered_once(x, y, triangles, (top, left, bottom, right), name, heights)
    surface = _surface(x - left, y - top, points[:, 2], triangles, heights.shape, 1 << level)
    off = np.abs(surface - down(heights))
    has_height = ~np.isnan(heights)
    bare = has_height & np.isnan(surface)
    if bare.any():
        i, j = np.argwhere(bare)[0] << level
        wrong.append(f"{name}: {bare.sum()} points of the raster are not covered, as column {left + j}, row {top + i}")
    slack = SLACK * float(np.abs(points).max())
    worst = float(np.nanmax(np.where(has_height, off, 0), initial=0.0))
    if worst > most + slack:
        i, j = np.argwhere(np.where(has_height, off, 0) == worst)[0] << level
        wrong.append(f"{name} is off by {worst:.6g} at column {left + j}, row {top + i}, and tells {most:.6g}")
    vertices, edges = _lines(raster, x, y, triangles, (top, left, bottom, right), earth)
    return Found(wrong[:MOST_TOLD], len(triangles), int(has_height.sum()), worst / most, worst, vertices, edges)


def grid_places(earth: Floats, transform: Transform, crs: Optional[str]) -> Any:
    """Columns and rows of the raster of places of the earth."""
    x, y = earth[:, 0], earth[:, 1]
    if crs is not None:
        from .systems import GEOCENTRIC, transformer
        x, y = transformer(GEOCENTRIC, crs).transform(*earth.T)[:2]
    a, b, c, d, e, f = transform
    columns, rows = np.linalg.solve([[a, b], [d, e]], np.stack((x - c, y - f)))
    return columns, rows


def _whole(columns: Floats, rows: Floats, box: Box, shape: tuple[int, int],
           name: str) -> tuple[Floats, Floats, list[str]]:
    """The points of the raster at which vertices lie; along its last column and row, where meshes are cut, some may lie between
    two, also near to one at which another lies."""
    top, left, bottom, right = box
    x, y = np.rint(columns), np.rint(rows)
    is_off = ~((np.abs(columns - x) <= NEAR) & (np.abs(rows - y) <= NEAR))  # what is no number, too
    on_end = ((y == shape[0] - 1) & (np.abs(rows - y) <= NEAR)) | ((x == shape[1] - 1) & (np.abs(columns - x) <= NEAR))
    aside, above = np.abs(columns - x), np.abs(rows - y)
    gap = np.maximum(aside, above)
    order = np.lexsort((gap, y, x))
    beside = np.zeros(len(x), bool)
    beside[order[1:]] = (np.diff(x[order]) == 0) & (np.diff(y[order]) == 0)
    beside &= on_end & (gap > NEAR / 100)
    x, y = (np.where((is_off & on_end & (own > NEAR)) | (beside & (own >= other)), at, whole)
            for own, other, at, whole in ((aside, above, columns, x), (above, aside, rows, y)))
    is_off &= ~on_end
    is_off |= (x < left) | (x > right) | (y < top) | (y > bottom)
    if not is_off.any():
        return x, y, []
    k = int(np.flatnonzero(is_off)[0])
    return x, y, [f"{name}: {is_off.sum()} vertices lie at no point of its part of the raster, as column {columns[k]:.3f}, row "
                  f"{rows[k]:.3f}"]


def _down(said: Said, raster: Raster, frame: Floats, box: Box, step: int) -> Callable[[Floats], Floats]:
    """What makes the third coordinate in a tile's frame of heights at its points, on the round earth."""
    if said.crs is None:
        return lambda heights: np.asarray(heights - frame[2, 3])
    from .systems import GEOCENTRIC, transformer
    top, left, bottom, right = box
    rows, columns = (np.linspace(begin, end, LATTICE) for begin, end in ((top, bottom), (left, right)))
    column, row = (it.reshape(-1) for it in np.meshgrid(columns, rows))
    a, b, c, d, e, f = raster.transform
    low, high = (np.column_stack(transformer(said.crs, GEOCENTRIC).transform(
        a * column + b * row + c, d * column + e * row + f, np.full(len(row), height))) for height in (0.0, HIGH))
    to_third = np.linalg.inv(frame)[2]
    level, up = low @ to_third[:3] + to_third[3], (high - low) @ to_third[:3] / HIGH
    chebyshev: Any = np.polynomial.chebyshev
    u = np.linspace(-1, 1, LATTICE)
    basis = chebyshev.chebvander2d(*(it.reshape(-1) for it in np.meshgrid(u, u, indexing="ij")), [DEGREE, DEGREE])
    of_level, of_up = np.linalg.lstsq(basis, np.column_stack((level, up)), rcond=None)[0].T

    def down(heights: Floats) -> Floats:
        # Points of a coarser level may end before the raster does.
        at = [np.arange(count) * step / max(1, end - begin) * 2 - 1 for count, begin, end in
              zip(heights.shape, (top, left), (bottom, right))]
        rows, columns = (chebyshev.chebvander(it, DEGREE) for it in at)
        both = [rows @ it.reshape(DEGREE + 1, DEGREE + 1) @ columns.T for it in (of_level, of_up)]
        return np.asarray(both[0] + both[1] * heights)
    return down


def _covered_once(x: Floats, y: Floats, triangles: Whole, box: Box, name: str,
                  heights: Floats) -> list[str]:
    """What is wrong with how triangles lie: their turn, their edges, and the sum of their areas."""
    wrong = []
    top, left, bottom, right = box
    a, b, c = triangles.T
    areas = (x[b] - x[a]) * (y[c] - y[a]) - (y[b] - y[a]) * (x[c] - x[a])
    turned = areas if areas.sum() > 0 else -areas
    if not (turned > 0).all():
        k = int(np.flatnonzero(turned <= 0)[0])
        wrong.append(f"{name}: triangle {k} is empty, or turned over")
    edges = np.concatenate((triangles[:, :2], triangles[:, 1:], triangles[:, ::-2]))
    key, back = edges[:, 0] * len(x) + edges[:, 1], edges[:, 1] * len(x) + edges[:, 0]
    if len(np.unique(key)) != len(key):
        wrong.append(f"{name}: an edge has two triangles on one side")
    alone = edges[~np.isin(key, back)]
    (x0, x1), (y0, y1) = (it[alone].T for it in (x, y))
    on_border = ((x0 == x1) & ((x0 == left) | (x0 == right))) | ((y0 == y1) & ((y0 == top) | (y0 == bottom)))
    inner = alone[~on_border]
    area, whole_area = float(turned.sum()) / 2, float((right - left) * (bottom - top))
    if not np.isnan(heights).any():
        if len(inner):
            one, two = inner[0]
            wrong.append(f"{name}: {len(inner)} edges within have a triangle on one side alone, as from column {x[one]:g}, row "
                         f"{y[one]:g} to column {x[two]:g}, row {y[two]:g}")
        if abs(area - whole_area) > 1e-6 * whole_area:
            wrong.append(f"{name}: its triangles cover {area:g} cells of {whole_area:g}")
        return wrong
    # Where there are holes, the border of what is covered may lie anywhere; but no vertex may lie within an edge of it.
    if area > whole_area * (1 + 1e-9):
        wrong.append(f"{name}: its triangles cover {area:g} cells of {whole_area:g}")
    places = set(zip(x.tolist(), y.tolist()))
    for (one, two) in inner.tolist():
        steps = int(np.gcd(int(abs(x[two] - x[one])), int(abs(y[two] - y[one]))))
        for k in range(1, steps):
            at = x[one] + (x[two] - x[one]) * k / steps, y[one] + (y[two] - y[one]) * k / steps
            if at in places:
                return wrong + [f"{name}: a vertex lies within an edge, at column {at[0]:g}, row {at[1]:g}"]
    return wrong


def _surface(x: Floats, y: Floats, z: Floats, triangles: Whole, shape: tuple[int, ...], step: int) -> Floats:
    """The height of triangles at each `step`-th column and row, NaN where there is none; all of one shape at a time."""
    found = np.full(shape, np.nan)
    px, py = x[triangles] / step, y[triangles] / step
    left, top = (np.ceil(it.min(1)).astype(np.int64) for it in (px, py))
    key = np.column_stack((px - left[:, None], py - top[:, None]))
    kinds, back = np.unique(key, axis=0, return_inverse=True)
    order = np.argsort(back, kind="stable")
    ends = np.searchsorted(back[order], np.arange(len(kinds) + 1))
    flat = found.reshape(-1)
    for kind, begin, end in zip(kinds.tolist(), ends[:-1], ends[1:]):
        columns, rows, weights = _within(*kind)
        if not len(columns):
            continue
        steps = rows * shape[1] + columns
        at_once = max(1, (1 << 22) // len(steps))
        for at in range(begin, end, at_once):
            which = order[at:min(at + at_once, end)]
            places = (top[which] * shape[1] + left[which])[:, None] + steps
            flat[places] = z[triangles[which]] @ weights
    return found


@functools.lru_cache(maxsize=KINDS)
def _within(*corners: float) -> tuple[Whole, Whole, Floats]:
    """The points with whole coordinates, from 0 on, in a triangle: columns, rows, and the weights of its three corners there.

    Args:
        corners: three times x, three times y.

    >>> [it.tolist() for it in _within(0, 2, 0, 0, 0, 1)]
    [[0, 1, 2, 0], [0, 0, 0, 1], [[1.0, 0.5, 0.0, 0.0], [0.0, 0.5, 1.0, 0.0], [0.0, 0.0, 0.0, 1.0]]]
    """
    x, y = corners[:3], corners[3:]
    u, v = (it.reshape(-1) for it in np.meshgrid(*(np.arange(int(max(it)) + 1) for it in (x, y))))
    area = (x[1] - x[0]) * (y[2] - y[0]) - (y[1] - y[0]) * (x[2] - x[0])
    weights = np.stack([(x[j] - u) * (y[k] - v) - (y[j] - v) * (x[k] - u) for j, k in ((1, 2), (2, 0), (0, 1))]) / (area or 1)
    is_in = (weights >= -1e-12).all(0) & (area != 0)
    return u[is_in], v[is_in], weights[:, is_in]


def _lines(raster: Raster, x: Floats, y: Floats, triangles: Whole, box: Box,
           earth: Floats) -> tuple[Lines, Lines]:
    """The vertices on the borders of tiles, where they are on the earth, and the edges there; not on the raster's last row and
    column, where each level is cut."""
    top, left, bottom, right = box
    vertices: Lines = {}
    edges: Lines = {}
    sides = np.concatenate((triangles[:, :2], triangles[:, 1:], triangles[:, ::-2]))
    for kind, own, along, ends, points in (("row", y, x, (top, bottom), raster.shape[0]),
                                           ("column", x, y, (left, right), raster.shape[1])):
        for line in ends:
            is_on = own == line
            which = np.flatnonzero(is_on)
            if len(which) and line < points - 1:
                vertices[kind, line] = along[which], earth[which]
                pairs = sides[is_on[sides].all(1)]
                edges[kind, line] = np.sort(along[pairs], axis=1)
    return vertices, edges


def _between(vertices: dict[Any, list[Any]], edges: dict[Any, list[Any]]) -> list[str]:
    """What is wrong between tiles, of one level or of two."""
    wrong = []
    for (kind, line), own in sorted(vertices.items()):
        at = np.concatenate([places for _, (places, _) in own])
        earth = np.concatenate([where for _, (_, where) in own])
        order = np.argsort(at, kind="stable")
        at, earth = at[order], earth[order]
        begins = np.flatnonzero(np.diff(at, prepend=-1.0))
        far = np.linalg.norm(np.maximum.reduceat(earth, begins) - np.minimum.reduceat(earth, begins), axis=1)
        everywhere = at[begins]
        extent = float(np.linalg.norm(np.ptp(earth, axis=0)))
        slack = 2 * SLACK * extent + 1e-3
        if (far > slack).any():
            k = int(far.argmax())
            wrong.append(f"{kind} {line}: the vertices of two tiles at {everywhere[k]:g} are {far[k]:.3g} m apart")
        for name, ends in edges.get((kind, line), []):
            low, high = np.searchsorted(everywhere, ends[:, 0], "right"), np.searchsorted(everywhere, ends[:, 1], "left")
            if (high > low).any():
                k = int((high > low).argmax())
                wrong.append(f"{name}: a crack: within its edge along {kind} {line} from {ends[k, 0]:g} to {ends[k, 1]:g} "
                             f"another tile has a vertex, at {everywhere[low[k]]:g}")
    return wrong

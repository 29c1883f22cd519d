"""A check of the certificates of a folder of 3D Tiles: that no mesh of the whole raster has fewer triangles.

It trusts nothing of what fits tiles and of what gives reasons, and shares nothing with them. What it checks:

Heights. A tile's are the raster's, rounded to multiples of the unit that tileset.json tells, and so is the drop of the round
earth below a plane, which is added, by a form of second degree that PROJ confirms. Holes are filled as GDAL fills them, and
count for nothing. Where the relief of a tile has more than 65,534 units it has a coarser one. Errors are straight up or down.

Meshes. All that is said is of meshes of triangles that halve from the two halves of a square, without cracks, none of them
larger than a quarter of a tile. Such a mesh is a set of vertices. A triangle is split where its centre, the middle of its
longest side, is a vertex; a vertex that is the centre of two triangles, or of one at the border, wants the corners of their
right angles to be vertices before it, which are the centres of the triangles that they are halves of.

Why no mesh has fewer triangles. Take any other such mesh that is nowhere off by more than the tolerance. It has the centre of
each tile. Suppose it has the vertices that come from the rounds before, and from some reasons of this one.
- `off ADDRESS X Y`: the corner of the triangle's right angle is a vertex, so the other mesh has the triangle, or halves of it.
  At a grid point of it the heights are off its plane by more than the tolerance: so it is halved, and its centre is a vertex.
- `need SIDE PLACE`: the tile across that side has this vertex since an earlier round, so the other mesh has it, and it lies in
  both tiles. By rounds, and not at the same time: two tiles cannot each say of the other that it has a vertex.
So it has all vertices of these tiles, and no fewer triangles. In the end no triangle is off by more than the tolerance, and two
tiles have the same vertices on the side that they share: so the tiles together are such a mesh themselves. And each is the one
in its GLB file: there less the triangles that have no point that counts, and what lies beyond the raster's end.
"""
from __future__ import annotations

import hashlib
import json
import math
import os
import re
import struct
import time
from fractions import Fraction
from typing import Any, Callable, Iterator, NamedTuple, Optional, Union

import numpy as np
import numpy.typing as npt

from ._types import Flags, Floats
from .check import grid_places, read_glb
from .raster import Raster
from .workers import workers_of

Whole = npt.NDArray[np.int64]
HEAD = re.compile(r"calfrewin reasons 1\nrun ([0-9a-f]{64})\ntile (\d{1,9}) (\d{1,9})\nheights ([0-9a-f]{64})\n"
                  r"tolerance (\d{1,9})\n(?:form (\S{1,40}) (\S{1,40}) (\S{1,40})\n)?")
ROUND = re.compile(r"round (\d{1,9})")
OFF = re.compile(r"off (\d{1,9}) (\d{1,4}) (\d{1,4})")
NEED = re.compile(r"need (lower|upper|left|right) (\d{1,4})")
ACROSS = {"lower": "upper", "upper": "lower", "left": "right", "right": "left"}
MOST_NUMBER, MOST_TOLERANCE = 65534, 65_535_999  # of heights in a tile, and of thousandths
SIDES = tuple(2 ** n for n in range(1, 12))
REACH, LOW = 64, np.float32(-1e30)  # points, over which holes are filled; below all heights
AT_ONCE = 1 << 20  # points
MOST_TOLD = 20


class Refused(Exception):
    """What of a tile is refused, and where."""


class Said(NamedTuple):
    """What tileset.json says of its tiles."""
    folder: str
    run: str  #: which run has made them
    steps: int  #: of a tile's side
    levels: int  #: above the finest
    error: float  #: in metres
    unit: float  #: of heights, in metres
    fill: Union[float, str, None]  #: the height where there is none; None: what has none counts for nothing
    crs: Optional[str]
    form: Optional[tuple[float, float, float]]  #: of the earth's curvature, one for all tiles; None: each tells its own
    left_out: float  #: what that form leaves out of a tile, in metres
    root: Floats  #: 4 x 4, from the root's coordinates to those of the earth


class Ground(NamedTuple):
    """What a tile's mesh is of."""
    heights: Whole  #: heights[y, x], y from the lower row on, in whole units above the least one
    counts: Flags  #: which of them the raster has
    tolerance: int  #: in thousandths of its unit
    unit: float  #: in metres
    last: tuple[float, float]  #: column and row, from the upper one on, at which the raster ends, as far as the tile goes


class Told(NamedTuple):
    """What a tile is found to be, for the comparison of sides."""
    wrong: list[str]
    triangles: int = 0
    rounds: int = 0
    within: float = math.inf  #: the tolerance, in metres
    needs: tuple[tuple[str, int, int], ...] = ()  #: side, place and round of each
    since: Optional[dict[str, dict[int, int]]] = None  #: of each side: since which round it has a vertex at a place


def certify(folder: str, raster: Optional[Raster] = None, *, client: Any = None, workers: int = 1,
            progress: Optional[Callable[[int, int, str], None]] = None) -> dict[str, Any]:
    """Checks the certificates of all tiles, and then side by side.

    Args:
        raster: what the tiles were made of; without it the one that tileset.json names.

    Returns:
        `wrong`, a list of what is refused, which is empty where nothing is; how many tiles, triangles, rounds; the `tolerance`
        in metres within which no mesh of the heights has fewer, that of the tile with the least.
    """
    began = time.perf_counter()
    with open(os.path.join(folder, "tileset.json"), encoding="utf-8") as file:
        tree = json.load(file)
    told = tree["asset"].get("extras", {}).get("calfrewin", {})
    if "certificates" not in told:
        raise ValueError(f"{folder} has no certificates: --certify makes them with the tiles")
    own = told["certificates"]
    if raster is None:
        raster = Raster(**{key: tuple(it) if isinstance(it, list) else it for key, it in own["raster"].items()})
    said = Said(os.path.abspath(folder), own["run"], told["steps"], told["levels"], told["error"], told["unit"], told["fill"],
                told["crs"], None if own["form"] is None else (own["form"][0], own["form"][1], own["form"][2]), own["left_out"],
                np.array(tree["root"]["transform"], float).reshape(4, 4).T)
    raster = raster.filled(told["fill"])
    if list(raster.shape) != told["points"]:
        raise ValueError(f"{folder} is of {told['points'][1]} x {told['points'][0]} points, and the raster has "
                         f"{raster.shape[1]} x {raster.shape[0]}")
    if said.steps not in SIDES or not (said.unit > 0 and said.error > 0):
        raise ValueError(f"{folder} is of tiles of {said.steps} steps, an error of {said.error} and a unit of {said.unit}")
    rows, columns = (max(1, -(-(points - 1) // said.steps)) for points in raster.shape)
    wrong: list[str] = []
    if said.crs is not None and said.form is not None:
        middle = (raster.shape[1] - 1) / 2, (raster.shape[0] - 1) / 2
        wrong += [f"tileset.json: {it}" for it in _not_of_the_earth(said, raster, said.form, *middle)]
    found, above, within = {"tiles": 0, "triangles": 0, "rounds": 0}, dict[int, Told](), math.inf
    with workers_of(client, workers) as hands:
        for row in range(rows):
            tasks: dict[Any, Any] = {(row, column): (check_tile, (said, raster, row, column)) for column in range(columns)}
            own_row: dict[int, Told] = {}
            for (_, column), it in hands.do(tasks):
                own_row[column] = it
                wrong += it.wrong
                found["tiles"], found["triangles"] = found["tiles"] + 1, found["triangles"] + it.triangles
                found["rounds"], within = max(found["rounds"], it.rounds), min(within, it.within)
                if progress:
                    progress(found["tiles"], rows * columns, f"{found['triangles']:,} triangles")
            for column, it in own_row.items():
                name = _name(said, row, column)
                if row:
                    wrong += between(_name(said, row - 1, column), above[column], "lower", name, it)
                if column:
                    wrong += between(_name(said, row, column - 1), own_row[column - 1], "right", name, it)
                ends = {"upper": row == 0, "lower": row == rows - 1, "left": column == 0, "right": column == columns - 1}
                wrong += beyond(name, it, ends)
            above = own_row
    return {"wrong": wrong, **found, "unit": said.unit, "tolerance": within if within < math.inf else None, "error": said.error,
            "seconds": round(time.perf_counter() - began, 2)}


def _name(said: Said, row: int, column: int) -> str:
    return f"{said.levels}/{column}/{row}.reasons"


def check_tile(said: Said, raster: Raster, row: int, column: int) -> Told:
    """Checks one tile alone: its certificate beside the raster, and its GLB file beside what the certificate makes."""
    name = _name(said, row, column)
    try:
        with open(os.path.join(said.folder, name), encoding="ascii") as file:
            text = file.read()
    except (OSError, UnicodeDecodeError) as why:
        return Told([f"{name}: {why}"])
    try:
        head = HEAD.match(text)
        if head is None:
            raise Refused("it does not begin as a certificate does")
        if head[1] != said.run:
            raise Refused("it is of another run than tileset.json")
        if (int(head[2]), int(head[3])) != (column, row):
            raise Refused(f"it is of the tile of column {head[2]} and row {head[3]}")
        form = (float(head[6]), float(head[7]), float(head[8])) if head[6] else None
        ground = ground_of(said, raster, row, column, form)
        if head[4] != digest_of(ground):
            raise Refused("the raster's heights there are not those of the run")
        if int(head[5]) != ground.tolerance:
            raise Refused(f"its tolerance is {head[5]}, and for the error it has to be {ground.tolerance}")
        rounds = rounds_of(text[head.end():], text.count("\n", 0, head.end()))
        mesh, told = replayed(ground, rounds)
        wrong = beside_glb(said, raster, row, column, ground, mesh)
        return told._replace(wrong=[f"{name}: {it}" for it in wrong])
    except (Refused, ValueError, IndexError) as why:
        return Told([f"{name}: {why}"])


# The heights of a tile

def ground_of(said: Said, raster: Raster, row: int, column: int, form: Optional[tuple[float, float, float]]) -> Ground:
    """The heights of a tile as a run of this plan has them; `form` is the tile's own curvature of the earth."""
    side = said.steps + 1
    top, left = row * said.steps, column * said.steps
    down, across = min(side, raster.shape[0] - top), min(side, raster.shape[1] - left)
    heights = raster.heights(top, left, down, across)
    is_there = ~np.isnan(heights)
    if not is_there.all():
        heights = np.where(is_there, heights, _filled(said, raster, top, left, down, across))
    numbers = np.rint(heights / said.unit).astype(np.int64)
    beyond_end = (0, side - down), (0, side - across)
    numbers = np.pad(numbers, beyond_end, mode="edge")
    counts = np.pad(is_there if said.fill is None else np.ones_like(is_there), beyond_end)
    unit = said.unit
    if said.crs is not None:
        numbers += _drop(said, raster, row, column, form)
    numbers -= numbers.min()
    high = int(numbers.max())
    if high > MOST_NUMBER:
        part = high / MOST_NUMBER
        numbers, unit = np.rint(numbers / part).astype(np.int64), unit * part
    return Ground(numbers[::-1], counts[::-1], tolerance_of(said, raster.is_whole, unit), unit, (across - 1.0, down - 1.0))


def tolerance_of(said: Said, is_whole: bool, unit: float) -> int:
    """Thousandths of a unit that are within the error with what rounding takes: half a unit for heights that are no multiples of
    it, and on the round earth a unit for the drop and what its form leaves out; where a tile has a coarser unit that, too."""
    takes = 0.0 if is_whole and (1 / said.unit).is_integer() else said.unit / 2
    takes += said.unit if said.crs is not None else 0.0
    takes += said.left_out if said.crs is not None and said.form is not None else 0.0
    takes += unit if unit != said.unit else 0.0
    return min(MOST_TOLERANCE, math.floor((Fraction(str(said.error)) - Fraction(str(takes))) / Fraction(str(unit)) * 1000))


def _filled(said: Said, raster: Raster, top: int, left: int, down: int, across: int) -> npt.NDArray[np.float32]:
    """A window whose holes are filled by GDAL, as far as it reaches."""
    from rasterio.fill import fillnodata
    over, before = min(REACH, top), min(REACH, left)
    rows, columns = (min(count + REACH + more, points - begin + more) for count, more, points, begin in
                     ((down, over, raster.shape[0], top), (across, before, raster.shape[1], left)))
    wide = raster.heights(top - over, left - before, rows, columns).astype(np.float32)
    is_there = ~np.isnan(wide)
    found = fillnodata(np.where(is_there, wide, LOW), mask=is_there.astype(np.uint8), max_search_distance=REACH)
    found = found[over:over + down, before:before + across]
    return np.where(found < LOW / 10, np.float32(0.0), found)


def _drop(said: Said, raster: Raster, row: int, column: int, own: Optional[tuple[float, float, float]]) -> Whole:
    """How far the earth falls away below a plane, in whole units at each point, rows from the upper one on."""
    at: Whole = np.arange(said.steps + 1)
    if said.form is None:
        if own is None:
            raise Refused("it does not tell the form of the earth there")
        for why in _not_of_the_earth(said, raster, own, (column + 0.5) * said.steps, (row + 0.5) * said.steps):
            raise Refused(why)
        cc, cr, rr = own
        across: Floats = at - said.steps / 2
        down = across[:, None]
        alone: Whole = np.rint((cc * across * across + cr * across * down + rr * down * down) / said.unit).astype(np.int64)
        return alone
    # About the raster's middle, in all tiles alike; less a plane of whole slopes, which leaves errors as they are.
    cc, cr, rr = (it / said.unit for it in said.form)
    x, y = (place * said.steps + at - (points - 1) / 2 for place, points in ((column, raster.shape[1]), (row, raster.shape[0])))
    found: Whole = np.rint(cr * x * y[:, None] + cc * x * x + (rr * y * y)[:, None]).astype(np.int64)
    middle, steps = said.steps // 2, said.steps
    to_right, to_bottom = found[middle, -1] - found[middle, 0], found[-1, middle] - found[0, middle]
    found -= int(to_right) // steps * at + (int(to_bottom) // steps * at)[:, None]
    return found


def _not_of_the_earth(said: Said, raster: Raster, form: tuple[float, float, float], column: float, row: float) -> list[str]:
    """What is refused of a form of the earth's curvature about a place of the raster, beside PROJ's."""
    from .systems import GEOCENTRIC, transformer
    assert said.crs is not None
    reach, (a, b, c, d, e, f) = said.steps / 2, raster.transform
    across, down = np.array([(0, 1, -1, 0, 0, 1, -1, 0), (0, 0, 0, 1, -1, 1, -1, 0)]) * reach + [[column], [row]]
    height = np.array([0.0] * 7 + [1000.0])
    places = np.column_stack(transformer(said.crs, GEOCENTRIC).transform(
        a * across + b * down + c, d * across + e * down + f, height))
    fall = (places - places[0]) @ (places[7] - places[0]) / 1000
    cc, rr, both = ((fall[i] + fall[j]) / 2 for i, j in ((1, 2), (3, 4), (5, 6)))
    off = np.abs(np.array(form) * reach ** 2 - (cc, both - cc - rr, rr)).max()
    if off <= max(said.unit / 100, 1e-6):
        return []
    return [f"the form of the earth is off by {off:.3g} m beside PROJ's"]


def digest_of(ground: Ground) -> str:
    """What a certificate has of the heights of its tile: rows from the upper one on, two bytes each, and then which count."""
    found = hashlib.sha256(ground.heights[::-1].astype("<u2").tobytes())
    found.update(np.packbits(ground.counts[::-1]).tobytes())
    return found.hexdigest()


# The reasons of a tile

class Round(NamedTuple):
    """The reasons of a round, and the lines at which they stand."""
    number: int
    needs: list[tuple[str, int, int]]  #: side, place and line
    off: Whole  #: shape (count, 4): address, x, y and line


def rounds_of(text: str, line: int) -> list[Round]:
    """The rounds of a certificate, whose numbers rise; `line` is how many lines stand before."""
    found: list[Round] = []
    offs: list[list[tuple[int, ...]]] = []
    if text and not text.endswith("\n"):
        raise Refused("it is cut off")
    for line, words in enumerate(text.splitlines(), line + 1):
        off, need, begun = (it.fullmatch(words) for it in (OFF, NEED, ROUND))
        if begun and (not found or found[-1].number < int(begun[1])):
            found.append(Round(int(begun[1]), [], np.empty((0, 4), np.int64)))
            offs.append([])
        elif off and found:
            offs[-1].append((int(off[1]), int(off[2]), int(off[3]), line))
        elif need and found:
            found[-1].needs.append((need[1], int(need[2]), line))
        else:
            raise Refused(f"line {line} is no reason in a round, and begins none of a higher number")
    return [it._replace(off=np.array(own, np.int64).reshape(-1, 4)) for it, own in zip(found, offs)]


def replayed(ground: Ground, rounds: list[Round]) -> tuple[Whole, Told]:
    """The triangles, shape (count, 3, 2), that the rounds make of a tile, where each reason holds and none is lacking."""
    steps = ground.heights.shape[0] - 1
    vertices = np.zeros((steps + 1, steps + 1), bool)
    vertices[::steps, ::steps] = True
    add(vertices, np.array([[steps // 2, steps // 2]]))
    since: dict[str, dict[int, int]] = {side: {} for side in ACROSS}
    needs = []
    for it in rounds:
        for side, place, line in it.needs:
            if not 0 < place < steps:
                raise Refused(f"line {line}: no place within a side")
            needs.append((side, place, it.number))
            points = {"lower": (place, 0), "upper": (place, steps), "left": (0, place), "right": (steps, place)}
            add(vertices, np.array([points[side]]))
        corners = corners_of(it.off[:, 0], steps)
        _refuse_within(ground, corners, it.off)
        left = np.ones(len(it.off), bool)
        while left.any():
            ready = left & vertices[corners[:, 0, 1], corners[:, 0, 0]]
            if not ready.any():
                raise Refused(f"line {it.off[left][0, 3]}: there is no such triangle yet")
            add(vertices, (corners[ready, 1] + corners[ready, 2]) // 2)
            left &= ~ready
        for side, row in sides_of(vertices).items():
            for place in (np.flatnonzero(row[1:-1]) + 1).tolist():
                since[side].setdefault(place, it.number)
    mesh = triangles_of(vertices)
    off = worst_of(ground, mesh)
    if off is not None:
        raise Refused(f"a reason is lacking: its mesh is off by more than the tolerance at {off[0]} {off[1]}")
    within = float(ground.tolerance * Fraction(str(ground.unit)) / 1000)
    return mesh, Told([], len(mesh), rounds[-1].number + 1 if rounds else 0, within, tuple(needs), since)


def sides_of(vertices: Flags) -> dict[str, Flags]:
    """Which points of each side are vertices, from the left or from below."""
    return {"lower": vertices[0], "upper": vertices[-1], "left": vertices[:, 0], "right": vertices[:, -1]}


def add(vertices: Flags, points: Whole) -> None:
    """Makes points, shape (count, 2), vertices, with all that they want to be vertices before them.

    A point in the middle of a square, whose half side is the least power of two in its x and y, lies on its diagonal: the two
    other corners are the right angles at it, those at which x and y have an odd sum in sides of the square. A point in the middle
    of a side lies between the middles of the two squares there, or of the one within the tile.

    >>> grid = np.zeros((5, 5), bool)
    >>> add(grid, np.array([[1, 1]]))
    >>> np.argwhere(grid)[:, ::-1].tolist()
    [[2, 0], [1, 1], [0, 2], [2, 2]]
    """
    steps = vertices.shape[0] - 1
    while len(points):
        places = points[:, 1] * (steps + 1) + points[:, 0]
        y, x = np.divmod(np.unique(places[~vertices.reshape(-1)[places]]), steps + 1)
        vertices[y, x] = True
        half = (x | y) & -(x | y)
        is_x, is_y = (x & half) != 0, (y & half) != 0
        is_middle = is_x & is_y
        # Corners x - half and x + half in sides of 2 half: where these and those of y have an even sum, the other two are odd.
        is_even = ((x - half) // (2 * half) + (y - half) // (2 * half)) % 2 == 0
        up = np.where(is_middle, np.where(is_even, -half, half), np.where(is_x, half, 0))
        right = np.where(is_middle | is_y, half, 0)
        wanted = np.concatenate((np.column_stack((x + right, y + up)), np.column_stack((x - right, y - up))))
        is_within = ((wanted >= 0) & (wanted <= steps)).all(1)
        is_first = np.tile(half == steps // 2, 2) & np.tile(is_middle, 2)  # the tile's centre wants corners alone
        points = wanted[is_within & ~is_first]


def corners_of(addresses: Whole, steps: int) -> Whole:
    """The corners, shape (count, 3, 2), of triangles by their addresses: that of the right angle, and the ends of the longest
    side; 2 and 3 are the halves of the square, and 2 a and 2 a + 1 those of a.

    >>> corners_of(np.array([3, 9]), 4).tolist()
    [[[4, 4], [0, 4], [4, 0]], [[2, 0], [4, 0], [2, 2]]]
    """
    is_one = (addresses >= 2) & (addresses < 2 * steps * steps)
    if not is_one.all():
        raise Refused(f"there is no triangle {addresses[~is_one][0]} with halves")
    level = np.frexp(addresses.astype(float))[1] - 2
    halves = np.array([[[0, 0], [1, 0], [0, 1]], [[1, 1], [0, 1], [1, 0]]]) * steps
    found: Whole = halves[(addresses >> level) - 2]
    for bit in reversed(range(int(level.max(initial=0)))):
        goes = np.flatnonzero(level > bit)
        apex, one, two = found[goes].transpose(1, 0, 2)
        is_second = ((addresses[goes] >> bit) & 1)[:, None] == 1
        found[goes] = np.stack(((one + two) // 2, np.where(is_second, two, apex), np.where(is_second, apex, one)), axis=1)
    return found


def triangles_of(vertices: Flags) -> Whole:
    """The corners of the triangles of a mesh with these vertices, shape (count, 3, 2).

    >>> grid = np.zeros((3, 3), bool)
    >>> grid[::2, ::2] = grid[1, 1] = True
    >>> len(triangles_of(grid))
    4
    """
    steps = vertices.shape[0] - 1
    left, found = corners_of(np.array([2, 3]), steps), []
    while len(left):
        ends = left[:, 1] + left[:, 2]
        is_split = (ends % 2 == 0).all(1) & vertices[ends[:, 1] // 2, ends[:, 0] // 2]
        found.append(left[~is_split])
        apex, one, two = left[is_split].transpose(1, 0, 2)
        middle = (one + two) // 2
        left = np.concatenate((np.stack((middle, apex, one), axis=1), np.stack((middle, two, apex), axis=1)))
    return np.concatenate(found)


def _twice(p: Whole, q: Whole, r: Whole) -> Whole:
    """Twice the area of triangles, positive where their corners go counterclockwise."""
    return (q[..., 0] - p[..., 0]) * (r[..., 1] - p[..., 1]) - (r[..., 0] - p[..., 0]) * (q[..., 1] - p[..., 1])


def _refuse_within(ground: Ground, corners: Whole, off: Whole) -> None:
    """Refuses the first reason whose point is not off its triangle by more than the tolerance."""
    points = off[:, 1:3]
    if points.max(initial=0) >= len(ground.heights):
        raise Refused(f"line {off[(points >= len(ground.heights)).any(1)][0, 3]}: no grid point of the tile")
    apex, one, two = corners.transpose(1, 0, 2)
    areas = np.stack((_twice(points, one, two), _twice(apex, points, two), _twice(apex, one, points)))
    plane = (areas * ground.heights[corners[..., 1], corners[..., 0]].T).sum(0)
    area, height = areas.sum(0), ground.heights[points[:, 1], points[:, 0]]
    is_off = 1000 * np.abs(height * area - plane) > ground.tolerance * area
    holds = (areas >= 0).all(0) & ground.counts[points[:, 1], points[:, 0]] & is_off
    if not holds.all():
        address, x, y, line = off[~holds][0].tolist()
        raise Refused(f"line {line}: triangle {address} is not off by more than the tolerance at {x} {y}")


def worst_of(ground: Ground, mesh: Whole) -> Optional[tuple[int, int]]:
    """A grid point at which triangles are off by more than the tolerance; None: there is none."""
    heights, counts, side = ground.heights.reshape(-1), ground.counts.reshape(-1), len(ground.heights)
    for which, at, areas in _alike(mesh, side):
        some, area = mesh[which], int(areas[0].sum())
        off = np.abs(heights[at] * area - heights[some[..., 1] * side + some[..., 0]] @ areas.T)
        is_off = (1000 * off > ground.tolerance * area) & counts[at]
        if is_off.any():
            place = int(at[is_off][0])
            return place % side, place // side
    return None


def _alike(mesh: Whole, side: int) -> Iterator[tuple[Whole, Whole, Whole]]:
    """Triangles that are alike but for their place, some at a time: which; the places of the grid points of each, shape
    (triangles, points); and the areas across from their corners there, twice, shape (points, 3)."""
    steps = (mesh[:, 1:] - mesh[:, :1]).reshape(-1, 4)
    key = steps @ (8 * side) ** np.arange(4)
    order = np.argsort(key, kind="stable")
    begins = np.flatnonzero(np.diff(key[order], prepend=key[order[:1]] - 1))
    for begin, end in zip(begins.tolist(), begins[1:].tolist() + [len(order)]):
        points, areas = _grid_points(*steps[order[begin]].tolist())
        at_once = max(1, AT_ONCE // len(points))
        for first in range(begin, end, at_once):
            which = order[first:min(first + at_once, end)]
            apex = mesh[which, 0]
            yield which, (apex[:, 1] * side + apex[:, 0])[:, None] + points[:, 1] * side + points[:, 0], areas


def _grid_points(right: int, up: int, to_right: int, to_up: int) -> tuple[Whole, Whole]:
    """The grid points, shape (count, 2), of a triangle from its apex, and the areas across from its corners there, twice."""
    corners = np.array([[0, 0], [right, up], [to_right, to_up]])
    low, high = corners.min(0), corners.max(0)
    points = np.stack(np.meshgrid(*(np.arange(begin, end + 1) for begin, end in zip(low, high))), axis=-1).reshape(-1, 2)
    apex, one, two = corners
    areas = np.stack((_twice(points, one, two), _twice(apex, points, two), _twice(apex, one, points)), axis=-1)
    is_within = (areas >= 0).all(1)
    return points[is_within], areas[is_within]


# Between tiles, and beside their files

def between(name: str, it: Told, side: str, other_name: str, other: Told) -> list[str]:
    """What is refused of a side that two tiles share."""
    if it.since is None or other.since is None:
        return []
    wrong = []
    own, its = it.since[side], other.since[ACROSS[side]]
    for who, needs, at, have in ((name, it.needs, side, its), (other_name, other.needs, ACROSS[side], own)):
        for kind, place, number in needs:
            if kind == at and have.get(place, number) >= number:
                wrong.append(f"{who}: in round {number} it needs what its neighbour has not before, at {kind} {place}")
    if own.keys() != its.keys():
        place = min(own.keys() ^ its.keys())
        wrong.append(f"{name} and {other_name} differ on the side that they share, at {place}")
    return wrong[:MOST_TOLD]


def beyond(name: str, it: Told, ends: dict[str, bool]) -> list[str]:
    """What is refused of needs of a side at which there is no other tile."""
    return [f"{name}: in round {number} it needs what is beyond all tiles, at {side} {place}"
            for side, place, number in it.needs if ends[side]][:MOST_TOLD]


def beside_glb(said: Said, raster: Raster, row: int, column: int, ground: Ground, mesh: Whole) -> list[str]:
    """What is refused of a tile's file beside the mesh that its certificate makes."""
    shown = mesh[_have_any(ground, mesh)]
    (last_column, last_row), steps = ground.last, said.steps
    x, down = shown[..., 0], steps - shown[..., 1]
    shown = shown[(x.min(1) < last_column) & (down.min(1) < last_row)]
    is_whole = (shown[..., 0] <= last_column).all(1) & (steps - shown[..., 1] <= last_row).all(1)
    path = f"{said.levels}/{column}/{row}.glb"
    if not os.path.exists(os.path.join(said.folder, path)):
        return [f"{path} is not there"] if len(shown) else []
    try:
        points, triangles, matrix = read_glb(os.path.join(said.folder, path))
    except (OSError, ValueError, KeyError, struct.error) as why:
        return [f"{path}: {why}"]
    frame = said.root @ matrix
    columns, rows = grid_places(points @ frame[:3, :3].T + frame[:3, 3], raster.transform, said.crs)
    here = np.rint(np.column_stack((columns - column * steps, (row + 1) * steps - rows))).astype(np.int64)[triangles]
    ours, its = _corners(shown[is_whole], steps), _corners(here, steps)
    if is_whole.all() and len(here) != len(shown):
        return [f"{path} has {len(here)} triangles, and the certificate makes {len(shown)}"]
    lacks = len(ours - its)
    return [f"{path} lacks {lacks} triangles of the mesh that the certificate makes"] if lacks else []


def _corners(mesh: Whole, steps: int) -> set[bytes]:
    """Triangles by their corners, whichever of them comes first."""
    return {it.tobytes() for it in np.sort(mesh[..., 1] * (steps + 1) + mesh[..., 0], axis=1)}


def _have_any(ground: Ground, mesh: Whole) -> Flags:
    """Which triangles have a grid point that counts."""
    if ground.counts.all():
        return np.ones(len(mesh), bool)
    found = np.zeros(len(mesh), bool)
    for which, at, _ in _alike(mesh, len(ground.counts)):
        found[which] = ground.counts.reshape(-1)[at].any(1)
    return found

"""The rounds in which blocks of tiles come to match: until no tile lacks a border point that its neighbour has.

A task is one block and one round: it fits its tiles with what their neighbours beyond the block have, and then its own among
one another. What travels are border sets; meshes stay in files of the run's folder. Blocks are done as on a chessboard,
black ones and then white ones, which know black's border points when they begin. No order, no worker that is lost and
nothing that is done twice makes a difference: the end is the mesh of the fewest triangles of the whole that is as fine as the
tiles are, and there is one.
"""
from __future__ import annotations

import hashlib
import os
import re
import time
from dataclasses import dataclass, field
from typing import Any, Callable, NamedTuple, Optional

import numpy as np

from . import files
from ._types import Numbers
from .blocks import BlockPoints, Points, load, packed
from .fitter import Fitter, Mosaic
from .ground import ground_of
from .tile import TileMesh, cut, off_by, place_of, shown
from .tileset import Plan
from .workers import Workers

Block = tuple[int, int]  #: row and column
Tell = Callable[[int, int, str], None]  #: how many blocks are done, of how many, and what there is to say


class Enough(Exception):
    """There are more triangles than were asked for."""


class Settled(NamedTuple):
    """A block whose tiles match one another, and all that was required of them."""
    state: str  #: the name of the file that has its meshes
    borders: list[Numbers]  #: of each tile, row by row: places in its heights
    triangles: list[int]  #: of each tile
    shown: list[int]  #: of these as many as there are where the raster has points, cut at its end
    fitted: int  #: how many tiles were fitted in this task
    seconds: dict[str, float]  #: by stage


def tiles_of(plan: Plan, block: Block) -> tuple[int, int]:
    """Rows and columns of tiles of a block: fewer than most have at the raster's end."""
    rows, columns = plan.count(0)
    most = 1 << plan.depth
    return min(most, rows - block[0] * most), min(most, columns - block[1] * most)


def settle_block(plan: Plan, block: Block, outer: dict[tuple[int, int], Numbers], before: str) -> Settled:
    """Fits the tiles of a block until they match.

    Args:
        outer: border points that are required of tiles (row, column) from beyond the block, as far as they are news.
        before: the name of the file from which it goes on, or nothing.
    """
    began = time.perf_counter()
    heights = BlockPoints(plan, *block)
    seconds = {"read": time.perf_counter() - began}
    rows, columns = tiles_of(plan, block)
    side, fitters, fitted = plan.steps + 1, {}, 0
    kept = load(os.path.join(plan.meshes, before)) if before else None
    if before and kept is None:
        raise OSError(f"{before} in {plan.run} is damaged: begin anew with --overwrite")
    leaves = _parts(kept["leaves"], kept["ends"]) if kept else [None] * (rows * columns)
    borders: list[Numbers] = _parts(kept["borders"], kept["border_ends"]) if kept else [_NONE] * (rows * columns)
    counts: list[int] = kept["shown"].tolist() if kept else [0] * (rows * columns)
    errors: list[float] = kept["errors"].tolist() if kept else [0.0] * (rows * columns)
    with Mosaic(columns, rows, side) as books:
        if kept:
            for place, border in enumerate(borders):
                books.put(place % columns, rows - 1 - place // columns, border)

        def fit(row: int, column: int) -> None:
            nonlocal fitted
            place, fitted = row * columns + column, fitted + 1
            row_of_all, column_of_all = (block[0] << plan.depth) + row, (block[1] << plan.depth) + column
            asked = books.required(column, rows - 1 - row).places
            asked = np.concatenate((asked, outer.get((row, column), _NONE)))
            if place not in fitters:
                own = heights.tile(row, column)
                ground = ground_of(plan, 0, row_of_all, column_of_all, own)
                fitter = Fitter(ground.grid)
                fitters[place] = fitter, ground.tolerances(plan.error, own), ground, own
                if leaves[place] is not None:
                    fitter.restore(leaves[place])
                    fitter.more(fitters[place][1], asked)
                else:
                    fitter.fit(fitters[place][1], asked)
            else:
                fitters[place][0].more(fitters[place][1], asked)
            borders[place] = fitters[place][0].border()
            books.put(column, rows - 1 - row, borders[place])

        if kept:
            for at in sorted(outer):
                fit(*at)
        while (waits := books.next()) is not None:
            fit(rows - 1 - waits[1], waits[0])
    for place, (fitter, _, ground, own) in fitters.items():
        leaves[place] = fitter.leaves()
        counts[place] = _count(plan, block, divmod(place, columns), own, fitter, len(leaves[place]))
        errors[place] = off_by(fitter, None, ground, own)
        fitter.close()
    seconds["mesh"] = time.perf_counter() - began - seconds["read"]
    name = _keep(plan, block, leaves, borders, counts, errors)
    seconds["keep"] = time.perf_counter() - began - seconds["read"] - seconds["mesh"]
    return Settled(name, borders, [len(it) for it in leaves], counts, fitted, seconds)


def _count(plan: Plan, block: Block, tile: tuple[int, int], own: Points, fitter: Fitter, all_: int) -> int:
    """How many of all triangles of a tile are shown."""
    if own.counts is None:
        return all_
    place = place_of(plan, 0, (block[0] << plan.depth) + tile[0], (block[1] << plan.depth) + tile[1])
    return len(cut(plan, place, shown(fitter.indices(), own, own.counts)).triangles)


_NONE = np.empty(0, np.uint32)


def _parts(joined: Numbers, ends: Any) -> list[Any]:
    return [np.ascontiguousarray(it) for it in np.split(joined, ends[:-1])]


def _keep(plan: Plan, block: Block, leaves: list[Any], borders: list[Numbers], shown: list[int],
          errors: list[float]) -> str:
    """Writes the meshes of a block under a name that has their digest, so that none is ever taken for another."""
    arrays = {"leaves": np.concatenate(leaves), "ends": np.cumsum([len(it) for it in leaves]),
              "shown": np.array(shown), "errors": np.array(errors),
              "borders": np.concatenate(borders), "border_ends": np.cumsum([len(it) for it in borders])}
    data, digest = packed(arrays), hashlib.blake2b(digest_size=12)
    for piece in data:
        digest.update(piece)
    name = f"{block[0]}_{block[1]}.{digest.hexdigest()}"
    os.makedirs(plan.meshes, exist_ok=True)
    files.write_bytes(os.path.join(plan.meshes, name), *data)
    return name


class BlockMeshes:
    """The meshes of a block, one at a time."""

    def __init__(self, plan: Plan, block: Block, state: str) -> None:
        kept = load(os.path.join(plan.meshes, state))
        if kept is None:
            raise OSError(f"{state} in {plan.run} is damaged: begin anew with --overwrite")
        self._leaves, self._errors = _parts(kept["leaves"], kept["ends"]), kept["errors"].tolist()
        self._borders, self._columns = _parts(kept["borders"], kept["border_ends"]), tiles_of(plan, block)[1]
        self._fitter = Fitter(np.zeros((plan.steps + 1, plan.steps + 1), np.uint16))

    def tile(self, row: int, column: int) -> TileMesh:
        """That of the tile (row, column) of the block."""
        place = row * self._columns + column
        self._fitter.restore(self._leaves[place])
        return TileMesh(self._fitter.indices(), self._borders[place], self._errors[place])


@dataclass
class Rounds:
    """What the rounds have come to."""
    states: dict[Block, str] = field(default_factory=dict)
    triangles: dict[Block, int] = field(default_factory=dict)
    borders: dict[Block, list[Numbers]] = field(default_factory=dict)
    told: list[dict[str, Any]] = field(default_factory=list)  #: of each round: blocks, tiles that were fitted, seconds
    seconds: dict[str, float] = field(default_factory=dict)  #: by stage, over all workers

    def total(self) -> int:
        return sum(self.triangles.values())


def settle(plan: Plan, workers: Workers, tell: Optional[Tell] = None, most: Optional[int] = None) -> Rounds:
    """Fits all tiles until none lacks a border point of its neighbours; goes on from what the run's folder has.

    Args:
        most: raises Enough as soon as there are more triangles: their count never falls.
    """
    rows, columns = plan.count(0)
    blocks = [(row, column) for row in range(plan.count(plan.depth)[0]) for column in range(plan.count(plan.depth)[1])]
    found = Rounds()
    with Mosaic(columns, rows, plan.steps + 1) as books:
        for block, it in resumed(plan).items():
            _put(plan, books, found, block, it)
        turn, idle = 0, 0
        while idle < 2:
            lacking = {block: lacks for block in blocks if (block[0] + block[1]) % 2 == turn % 2
                       and (lacks := _lacking(plan, books, block, block in found.states)) is not None}
            turn, idle = turn + 1, 0 if lacking else idle + 1
            if not lacking:
                continue
            began, fitted = time.perf_counter(), 0
            tasks: dict[Any, Any] = {block: (settle_block, (plan, block, outer, found.states.get(block, "")))
                                     for block, outer in lacking.items()}
            for done, (block, it) in enumerate(workers.do(tasks), 1):
                _put(plan, books, found, block, it)
                fitted += it.fitted
                if most is not None and found.total() > most:
                    raise Enough
                if tell:
                    tell(len(found.states), len(blocks), f"round {len(found.told) + 1}, {done} of {len(tasks)} blocks, "
                         f"{found.total():,} triangles")
            found.told.append({"blocks": len(tasks), "tiles": fitted, "seconds": round(time.perf_counter() - began, 3)})
    return found


def _lacking(plan: Plan, books: Mosaic, block: Block, is_there: bool) -> Optional[dict[tuple[int, int], Numbers]]:
    """What is required of the tiles of a block that lack some of it; of one that is not fitted yet, of all. None: none lacks."""
    rows, columns = tiles_of(plan, block)
    all_rows = plan.count(0)[0]
    found, lacks = {}, not is_there
    for row in range(rows):
        for column in range(columns):
            if 0 < row < rows - 1 and 0 < column < columns - 1:
                continue  # all its neighbours are of the block
            it = books.required((block[1] << plan.depth) + column, all_rows - 1 - (block[0] << plan.depth) - row)
            if it.lacks or not is_there:
                found[row, column], lacks = it.places, True
    return found if lacks else None


def _put(plan: Plan, books: Mosaic, found: Rounds, block: Block, it: Settled) -> None:
    rows, columns = tiles_of(plan, block)
    all_rows = plan.count(0)[0]
    for place, border in enumerate(it.borders):
        books.put((block[1] << plan.depth) + place % columns, all_rows - 1 - (block[0] << plan.depth) - place // columns, border)
    old = found.states.get(block)
    found.states[block], found.triangles[block], found.borders[block] = it.state, sum(it.shown), it.borders
    for stage, spent in it.seconds.items():
        found.seconds[stage] = found.seconds.get(stage, 0.0) + spent
    if old is not None and old != it.state:
        _forget(plan, old)


def _forget(plan: Plan, state: str) -> None:
    try:
        os.unlink(os.path.join(plan.meshes, state))
    except FileNotFoundError:
        pass


def resumed(plan: Plan) -> dict[Block, Settled]:
    """What an earlier run has left: of each block the meshes of the most triangles, which are the last; damaged files go."""
    found: dict[Block, Settled] = {}
    folder = plan.meshes
    if not os.path.isdir(folder):
        return found
    for name in sorted(os.listdir(folder)):
        named = re.fullmatch(r"(\d+)_(\d+)\.[0-9a-f]{24}", name)
        kept = load(os.path.join(folder, name)) if named else None
        if not named or kept is None:
            _forget(plan, name)
            continue
        block = int(named[1]), int(named[2])
        ends = np.diff(kept["ends"], prepend=0).tolist()
        it = Settled(name, _parts(kept["borders"], kept["border_ends"]), ends, kept["shown"].tolist(), 0, {})
        if block in found and sum(found[block].triangles) > sum(ends):
            _forget(plan, name)
            continue
        if block in found:
            _forget(plan, found[block].state)
        found[block] = it
    return found

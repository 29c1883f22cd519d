"""3D Tiles 1.1 of a raster of any size: a quadtree of GLB files and tileset.json, made in blocks, here or on a cluster.

First rounds (`rounds`) fit the finest tiles until their borders match. Then a task takes one block of 2^depth x 2^depth
tiles, writes all tiles over it, and keeps the points of its top for the task above. Tasks are functions of their arguments
and of files, and files are renamed into place; so a task that is run twice, or again after its worker was lost, does no harm,
and gives the same bytes.
"""
from __future__ import annotations

import hashlib
import json
import os
import shutil
import time
from dataclasses import dataclass, field
from typing import Any, Callable, Optional

import numpy as np

from . import _library, files
from ._types import Flags
from .blocks import BlockPoints, Multiples, Points, keep, load, refuse_changed
from .reasons import certify
from .rounds import Block, BlockMeshes, Tell, settle
from .run import locked
from .search import least_error
from .sides import Side, Sides, joined_sides
from .tile import Part, write_tile
from .tileset import Plan, Tile, name, plan_of, tileset
from .workers import Workers, workers_of

__all__ = ["Plan", "build", "plan_of"]

PAGE = os.path.join(os.path.dirname(os.path.abspath(__file__)), "viewer", "tiles.html")
THREE = "/usr/share/javascript/three"  # Debian's libjs-three, and what of it the page wants
SCRIPTS = ("three.min.js", "examples/js/controls/OrbitControls.js", "examples/js/loaders/GLTFLoader.js")
LICENCE = "/usr/share/doc/libjs-three/copyright"
Task = tuple[int, int, int]  # level, row and column of the tile that is its top
Progress = Callable[..., None]  #: how much is done, of how much, and what there is to say


@dataclass
class Top:
    """What the tile above is made of: of a tile, what it shows at half as many points."""
    points: Points
    shows: Optional[Flags]  #: near which of these the raster has heights; None: all
    away: float  #: how far any point of the raster is from the finest mesh of `points`, at most
    sides: Optional[Sides]  #: its borders, where tiles match


@dataclass
class Made:
    """What a task has made."""
    digest: str  #: of what it was made of
    tiles: list[Tile] = field(default_factory=list)
    seconds: dict[str, float] = field(default_factory=dict)  #: by stage


def block(plan: Plan, level: int, row: int, column: int, state: str) -> Made:
    """Writes a tile and all tiles below it, from the points of the block and its meshes; `state` names these."""
    digest = _digest(plan, [state])
    found = _made(plan, (level, row, column), digest)
    if found is not None:
        return found
    made, began = Made(digest), time.perf_counter()
    whole = BlockPoints(plan, row, column)
    meshes = BlockMeshes(plan, (row, column), state) if state else None
    made.seconds["read"] = time.perf_counter() - began
    _keep(plan, made, (level, row, column), _over(plan, made, whole, meshes, level, row, column, level))
    return made


def _over(plan: Plan, made: Made, whole: BlockPoints, meshes: Optional[BlockMeshes], top: int, row: int, column: int,
          level: int) -> Optional[Top]:
    """Writes the tile (row, column) of a level, over the points of a block, and all below it."""
    rows, columns = plan.count(level)
    if row >= rows or column >= columns:
        return None
    if level > 0:
        below = [_over(plan, made, whole, meshes, top, 2 * row + down, 2 * column + right, level - 1)
                 for down in (0, 1) for right in (0, 1)]
        return _written(plan, made, level, row, column, _part(plan, below, level))
    mask = (1 << top) - 1
    i, j = row & mask, column & mask
    own = whole.tile(i, j)
    return _written(plan, made, level, row, column, Part(own, 0.0, own.counts, None, meshes.tile(i, j) if meshes else None))


def join(plan: Plan, level: int, row: int, column: int, below: dict[int, str]) -> Made:
    """Writes the tile over four, from what their tasks have kept: nothing of the raster is read.

    Args:
        below: the digests of these, by their places, row by row.
    """
    digest = _digest(plan, [f"{place} {it}" for place, it in below.items()])
    found = _made(plan, (level, row, column), digest)
    if found is not None:
        return found
    made = Made(digest)
    tops = [_top(plan, (level - 1, 2 * row + place // 2, 2 * column + place % 2)) if place in below else None
            for place in range(4)]
    _keep(plan, made, (level, row, column), _written(plan, made, level, row, column, _part(plan, tops, level)))
    return made


def _written(plan: Plan, made: Made, level: int, row: int, column: int, part: Part) -> Top:
    tile, sides = write_tile(plan, level, row, column, part, made.seconds)
    if tile is not None:
        made.tiles.append(tile)
    half, more = halved(part.points, plan.unit)
    return Top(half, None if part.shows is None else _near(part.shows), part.away + more, sides)


def _part(plan: Plan, below: list[Optional[Top]], level: int) -> Part:
    """What a tile is made of, from its quarters, row by row."""
    numbers = joined([None if it is None else it.points.numbers for it in below])
    counts, shows = (_joined_flags([None if it is None else (flags, it.points.numbers.shape) for it, flags in zip(below, all_)])
                     for all_ in ([it.points.counts if it else None for it in below], [it.shows if it else None for it in below]))
    sides = None
    if not plan.skirts:
        sides = joined_sides([it.sides if it else None for it in below], numbers, plan.steps << level >> 1)
    return Part(Points(numbers, counts), max(it.away for it in below if it is not None), shows, sides)


def _near(flags: Flags) -> Flags:
    """At every second point, whether a flag is set there or at a point beside it."""
    wide = np.pad(flags, 1)
    across = wide[:, :-2] | wide[:, 1:-1] | wide[:, 2:]
    found: Flags = (across[:-2] | across[1:-1] | across[2:])[::2, ::2]
    return found


def _joined_flags(parts: list[Any]) -> Optional[Flags]:
    """The flags of four quarters, none set where one is missing; None where all are set."""
    if all(part is not None and part[0] is None for part in parts):
        return None
    half = next(part[1][0] for part in parts if part is not None) - 1
    found = np.zeros((2 * half + 1, 2 * half + 1), bool)
    for place, part in enumerate(parts):
        if part is not None:
            row, column = half * (place // 2), half * (place % 2)
            found[row:row + half + 1, column:column + half + 1] |= True if part[0] is None else part[0]
    return found


def _path(plan: Plan, task: Task) -> str:
    return os.path.join(plan.run, "made", "_".join(map(str, task)))


def _digest(plan: Plan, made_of: list[str]) -> str:
    return hashlib.sha256("\n".join([plan.digest, *made_of]).encode()).hexdigest()


def _keep(plan: Plan, made: Made, task: Task, top: Optional[Top]) -> None:
    """Keeps what the task above wants, and what was written."""
    assert top is not None
    arrays: dict[str, Any] = {"numbers": top.points.numbers, "away": np.array(top.away)}
    arrays |= {key: it for key, it in (("counts", top.points.counts), ("shows", top.shows)) if it is not None}
    for place, side in enumerate(top.sides or ()):
        arrays |= {f"at{place}": side.at, f"number{place}": side.number}
    text = json.dumps({"digest": made.digest, "tiles": [vars(tile) for tile in made.tiles]})
    keep(_path(plan, task), arrays | {"made": np.frombuffer(text.encode(), np.uint8)})


def _top(plan: Plan, task: Task) -> Top:
    kept = load(_path(plan, task))
    if kept is None:
        raise OSError(f"{_path(plan, task)} is damaged: begin anew with --overwrite")
    sides = tuple(Side(kept[f"at{place}"], kept[f"number{place}"]) for place in range(4)) if "at0" in kept else None
    return Top(Points(kept["numbers"], kept.get("counts")), kept.get("shows"), float(kept["away"]),
               (sides[0], sides[1], sides[2], sides[3]) if sides else None)


def _made(plan: Plan, task: Task, digest: str) -> Optional[Made]:
    """What an earlier run has made of the same, where all its files are there as they were written."""
    refuse_changed(plan)
    kept = load(_path(plan, task))
    if kept is None:
        return None
    said = json.loads(kept["made"].tobytes())
    tiles = [Tile(**it | {"region": tuple(it["region"])}) for it in said["tiles"]]
    if said["digest"] != digest or not all(_is_written(plan, tile) for tile in tiles):
        return None
    return Made(digest, tiles)


def _is_written(plan: Plan, tile: Tile) -> bool:
    try:
        with open(os.path.join(plan.out, name(plan, tile.level, tile.row, tile.column)), "rb") as file:
            return hashlib.blake2b(file.read(), digest_size=32).hexdigest() == tile.digest
    except FileNotFoundError:
        return False


def halved(own: Points, unit: float) -> tuple[Points, float]:
    """Every second point, and how far the others that count are from the finest mesh of these, at most.

    >>> points, away = halved(Points(np.array([[0, 4, 0], [0, 0, 0], [0, 0, 0]], np.int32), None), 0.5)
    >>> points.numbers.tolist(), away
    ([[0, 0], [0, 0]], 2.0)
    """
    numbers, counts = own
    even = np.ascontiguousarray(numbers[::2, ::2])
    # Middles of edges, and of squares, whose diagonals turn from one to the next.
    falling, rising = even[:-1, :-1] + even[1:, 1:], even[:-1, 1:] + even[1:, :-1]
    falling[::2, 1::2], falling[1::2, ::2] = rising[::2, 1::2], rising[1::2, ::2]
    most = 0
    for at, ends in ((np.s_[::2, 1::2], even[:, :-1] + even[:, 1:]), (np.s_[1::2, ::2], even[:-1] + even[1:]),
                     (np.s_[1::2, 1::2], falling)):
        ends -= 2 * numbers[at]
        low, high = (ends.min(), ends.max()) if counts is None else (
            ends.min(where=counts[at], initial=0), ends.max(where=counts[at], initial=0))
        most = max(most, -int(low), int(high))
    half = Points(even, None if counts is None else np.ascontiguousarray(counts[::2, ::2]))
    return half, most / 2 * unit


def joined(parts: list[Optional[Multiples]]) -> Multiples:
    """The points of four quarters, row by row, that share their border; what is missing to the right or below repeats its
    neighbour's edge."""
    half = next(len(part) for part in parts if part is not None) - 1
    found = np.zeros((2 * half + 1, 2 * half + 1), np.int32)
    for place, part in enumerate(parts):
        if part is not None:
            row, column = half * (place // 2), half * (place % 2)
            found[row:row + half + 1, column:column + half + 1] = part
    for right, columns in enumerate((slice(0, half + 1), slice(half + 1, 2 * half + 1))):
        if parts[2 + right] is None and parts[right] is not None:
            found[half + 1:, columns] = found[half, columns]
    if parts[1] is None and parts[3] is None:
        found[:, half + 1:] = found[:, half:half + 1]
    return found


def build(plan: Plan, *, client: Any = None, workers: int = 1, triangles: Optional[int] = None, overwrite: bool = False,
          progress: Optional[Progress] = None) -> dict[str, Any]:
    """Makes all tiles, a page that shows them and, last of all, tileset.json; tells what was done.

    A run that was stopped goes on from what it has left, where the plan is the same and the raster has not changed.

    Args:
        client: a dask.distributed.Client, whose workers see the file and `out` under the same names; without it `workers`
            processes here.
        triangles: the least error at which the finest tiles have at most so many, in the place of the plan's.
        overwrite: begins anew, whatever an earlier run has left.
        progress: is told how much is done, of how much, and what there is to say.

    Raises:
        blocks.Changed: the raster is written to while it is read.
        run.Busy: another run writes into this folder. run.Other: an earlier run of another plan has left something there.
    """
    _library.load()  # before anything is written, and for all processes
    began = time.perf_counter()
    with locked(plan, overwrite, triangles), workers_of(client, workers) as hands:
        found: dict[str, Any] = {}
        if triangles is not None:
            plan, searched = least_error(plan, hands, triangles, progress and _first_half(progress))
            found |= searched
        states: dict[Block, str] = {}
        seconds: dict[str, float] = {}
        if not plan.skirts:
            rounds = settle(plan, hands, progress and _first_half(progress))
            states, seconds = rounds.states, rounds.seconds
            found |= {"rounds": rounds.told}
            if plan.certify:
                found["certificate_rounds"] = certify(plan, hands, rounds.borders, progress and _first_half(progress))
        tiles = _write(plan, hands, states, seconds, progress)
        tiles.sort(key=lambda tile: (tile.level, tile.row, tile.column))
        tree = tileset(plan, tiles)
        _copy_page(plan.out)
        refuse_changed(plan)
        files.write_bytes(os.path.join(plan.out, "tileset.json"), json.dumps(tree, separators=(",", ":")).encode())
        shutil.rmtree(plan.run, ignore_errors=True)
    finest = [tile for tile in tiles if tile.level == 0]
    return {"tiles": len(tiles), "levels": plan.levels + 1, "bytes": sum(tile.size for tile in tiles),
            "triangles": sum(tile.triangles for tile in finest), "all_triangles": sum(tile.triangles for tile in tiles),
            "error": max(tile.error for tile in finest), "root_error": max(tile.error for tile in tiles),
            "seconds": round(time.perf_counter() - began, 3),
            "spent": {stage: round(spent, 3) for stage, spent in seconds.items()}} | found


def _write(plan: Plan, hands: Workers, states: dict[Block, str], seconds: dict[str, float],
           progress: Optional[Progress]) -> list[Tile]:
    """Writes all levels; the tasks of one are done before those above it begin."""
    tiles: list[Tile] = []
    digests: dict[Task, str] = {}
    for level in range(plan.depth, plan.levels + 1):
        rows, columns = plan.count(level)
        tasks: dict[Any, Any] = {}
        for row in range(rows):
            for column in range(columns):
                if level == plan.depth:
                    tasks[level, row, column] = block, (plan, level, row, column, states.get((row, column), ""))
                else:
                    below = {2 * down + right: digests[at] for down in (0, 1) for right in (0, 1)
                             if (at := (level - 1, 2 * row + down, 2 * column + right)) in digests}
                    tasks[level, row, column] = join, (plan, level, row, column, below)
        for done, (task, made) in enumerate(hands.do(tasks), 1):
            digests[task] = made.digest
            tiles += made.tiles
            for stage, spent in made.seconds.items():
                seconds[stage] = seconds.get(stage, 0.0) + spent
            if progress and level == plan.depth:
                first = 0 if plan.skirts else len(tasks)
                progress(first + done, first + len(tasks), f"writing, {len(tiles):,} tiles")
    return tiles


def _first_half(progress: Progress) -> Tell:
    """Of the way to tiles, the rounds."""
    return lambda done, total, text: progress(done, 2 * total, text)


def _copy_page(out: str) -> None:
    """index.html beside tileset.json, with three.js and its licence where Debian's package of it is."""
    shutil.copyfile(PAGE, os.path.join(out, "index.html"))
    if all(os.path.exists(os.path.join(THREE, script)) for script in SCRIPTS):
        beside = os.path.join(out, "three")
        os.makedirs(beside, exist_ok=True)
        for path in [*(os.path.join(THREE, script) for script in SCRIPTS), LICENCE]:
            shutil.copyfile(path, os.path.join(beside, os.path.basename(path)))

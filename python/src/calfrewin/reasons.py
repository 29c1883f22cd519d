"""Certificates: for each tile of the finest level the reasons for which its mesh, and each other that is as good, has the
vertices that it has. `certify` checks them, and shares nothing with what is here.

They are given in rounds of all tiles, whatever the rounds were by which the tiles came to match: in round 0 each tile is fitted
alone; in each one after it those that lack border points that their neighbours have since the round before. A reason is

    off ADDRESS X Y     a triangle is off by more than the tolerance at a grid point, X from the left and Y from below
    need SIDE PLACE     the tile across has a vertex there, PLACE from the left or from below

Rounds do not depend on blocks, workers or order, and so certificates do not.
"""
from __future__ import annotations

import hashlib
import os
from typing import Any, NamedTuple, Optional

import numpy as np
import numpy.typing as npt

from . import files
from ._types import Flags, Numbers
from .blocks import BlockPoints, Points, keep, load
from .fitter import Fitter, Mosaic
from .ground import Ground, ground_of
from .rounds import Block, Tell, tiles_of
from .shapes import shapes
from .tileset import Plan, reasons_name
from .workers import Workers

Places = npt.NDArray[np.int64]
Tile = tuple[int, int]  #: row and column, in its block or of all
NONE = np.empty(0, np.uint32)


class Asked(NamedTuple):
    """What a round wants of a tile."""
    had: Numbers  #: the vertices on its border before the round
    required: Numbers  #: its centre, and the border points that its neighbours have


def certify(plan: Plan, workers: Workers, borders: dict[Block, list[Numbers]], tell: Optional[Tell] = None) -> int:
    """Writes the certificate of each tile beside its file: how many rounds there are.

    Args:
        borders: of the meshes of all tiles, which those of the last round have to be.
    """
    rows, columns = plan.count(0)
    most, number = 1 << plan.depth, 0
    own: dict[Tile, Numbers] = {}
    with Mosaic(columns, rows, plan.steps + 1) as books:
        while True:
            tasks: dict[Any, Any] = {}
            for row in range(rows):
                for column in range(columns):
                    it = books.required(column, rows - 1 - row)
                    if it.lacks:
                        block = row // most, column // most
                        _, (_, _, _, asked) = tasks.setdefault(block, (give, (plan, block, number, {})))
                        asked[row % most, column % most] = Asked(own.get((row, column), NONE), it.places)
            if not tasks:
                break
            for done, (block, found) in enumerate(workers.do(tasks), 1):
                for (row, column), border in found.items():
                    own[block[0] * most + row, block[1] * most + column] = border
                if tell:
                    tell(done, len(tasks), f"certificates, round {number}")
            for block, (_, (_, _, _, asked)) in tasks.items():
                for at in ((block[0] * most + row, block[1] * most + column) for row, column in asked):
                    books.put(at[1], rows - 1 - at[0], own[at])
            number += 1
    for block, all_ in borders.items():
        across = tiles_of(plan, block)[1]
        for place, border in enumerate(all_):
            at = block[0] * most + place // across, block[1] * most + place % across
            if not np.array_equal(own[at], border):
                raise RuntimeError(f"the mesh of the tile of column {at[1]} and row {at[0]} is not the one that its reasons make")
    for _ in workers.do({block: (write, (plan, block, number)) for block in borders}):
        pass
    return number


def give(plan: Plan, block: Block, number: int, asked: dict[Tile, Asked]) -> dict[Tile, Numbers]:
    """Keeps the reasons of a round for some tiles of a block: the vertices on the borders of these after it."""
    digest = hashlib.sha256(repr((plan.digest, number)).encode())
    for (row, column), it in sorted(asked.items()):
        digest.update(b"".join((repr((row, column, len(it.had))).encode(), it.had.tobytes(), it.required.tobytes())))
    kept = load(_path(plan, block, number))
    if kept is None or kept["digest"].tobytes() != digest.digest():
        heights = BlockPoints(plan, *block)
        kept = {"digest": np.frombuffer(digest.digest(), np.uint8)}
        for (row, column), it in sorted(asked.items()):
            text, border = _given(plan, block, number, row, column, heights.tile(row, column), it)
            kept |= {f"text_{row}_{column}": np.frombuffer(text.encode(), np.uint8), f"border_{row}_{column}": border}
        keep(_path(plan, block, number), kept)
    return {(row, column): kept[f"border_{row}_{column}"] for row, column in asked}


def write(plan: Plan, block: Block, rounds: int) -> None:
    """Joins what the rounds have kept of the tiles of a block to their certificates."""
    texts: dict[str, list[bytes]] = {}
    for number in range(rounds):
        if (kept := load(_path(plan, block, number))) is not None:
            for key in (it for it in kept if it.startswith("text_")):
                texts.setdefault(key, []).append(kept[key].tobytes())
    for key, parts in texts.items():
        row, column = (at * (1 << plan.depth) + int(word) for at, word in zip(block, key.split("_")[1:]))
        path = os.path.join(plan.out, reasons_name(plan, row, column))
        os.makedirs(os.path.dirname(path), exist_ok=True)
        files.write_bytes(path, *parts)


def _path(plan: Plan, block: Block, number: int) -> str:
    return os.path.join(plan.run, "reasons", f"{block[0]}_{block[1]}.{number}")


def _given(plan: Plan, block: Block, number: int, row: int, column: int, own: Points, asked: Asked) -> tuple[str, Numbers]:
    """The lines of a round for a tile, and the vertices on its border after it."""
    row_of_all, column_of_all = (block[0] << plan.depth) + row, (block[1] << plan.depth) + column
    ground = ground_of(plan, 0, row_of_all, column_of_all, own)
    side, tolerance = plan.steps + 1, ground.tolerances(plan.error, own)
    centre = np.array([side * side // 2], np.uint32)
    with Fitter(ground.grid) as fitter:
        if number:
            fitter.fit(tolerance, np.concatenate((centre, asked.had)))
            before = split_of(fitter.leaves(), plan.steps)
        else:
            before = split_of(np.arange(4, 8, dtype=np.uint32), plan.steps)
        fitter.more(tolerance, asked.required)
        after, border = split_of(fitter.leaves(), plan.steps), fitter.border()
    lines = []
    if not number:
        lines += ["calfrewin reasons 1", f"run {plan.digest}", f"tile {column_of_all} {row_of_all}",
                  f"heights {digest_of(ground, own)}", f"tolerance {ground.tolerance(plan.error)}"]
        if plan.crs is not None and plan.form is None:
            earth = plan.curvature((column_of_all + 0.5) * plan.steps, (row_of_all + 0.5) * plan.steps, 0)
            lines.append("form {!r} {!r} {!r}".format(*earth.form))
    lines.append(f"round {number}")
    needs = np.setdiff1d(asked.required, np.concatenate((centre, asked.had))).astype(np.int64)
    across, up = needs % side, plan.steps - needs // side
    for name, is_on, at in (("lower", up == 0, across), ("upper", up == plan.steps, across), ("left", across == 0, up),
                            ("right", across == plan.steps, up)):
        lines += [f"need {name} {place}" for place in np.sort(at[is_on]).tolist()]
    addresses, at = offs_of(after, before, needs, ground, own, plan.error)
    lines += [f"off {address} {place % side} {plan.steps - place // side}"
              for address, place in zip(addresses.tolist(), at.tolist())]
    return "".join(it + "\n" for it in lines), border


def digest_of(ground: Ground, own: Points) -> str:
    """Of the heights of a tile, and which of them count."""
    found = hashlib.sha256(ground.grid.astype("<u2").tobytes())
    found.update(np.packbits(np.ones_like(ground.grid, bool) if own.counts is None else own.counts).tobytes())
    return found.hexdigest()


def split_of(leaves: Numbers, steps: int) -> Flags:
    """By address, which triangles are split in a mesh of these leaves.

    >>> np.flatnonzero(split_of(np.array([4, 10, 11, 6, 7], np.uint32), 2)).tolist()
    [2, 3, 5]
    """
    found = np.zeros(2 * steps * steps, bool)
    left = np.unique(leaves >> 1)
    while len(left):
        found[left] = True
        left = np.unique(left[left > 3] >> 1)
        left = left[~found[left]]
    return found


def offs_of(after: Flags, before: Flags, needs: Places, ground: Ground, own: Points, error: float) -> tuple[Places, Places]:
    """The addresses of triangles that are off by more than the tolerance, and a place in each where it is: as few as make of one
    mesh, and of vertices that are needed, another one; each stands behind what it rests on.
    """
    addresses, corners = _split(after, ground.grid.shape[0])
    apex, centre = corners[:, 0], (corners[:, 1] + corners[:, 2]) // 2
    # A vertex wants the right angles of the one or two triangles whose centre it is to be vertices before it.
    wants = np.full((ground.grid.size, 2), -1)
    order = np.argsort(centre, kind="stable")
    is_second = np.diff(centre[order], prepend=-1) == 0
    wants[centre[order], is_second.astype(int)] = apex[order]
    vertices = np.zeros(ground.grid.size, bool)
    vertices[corners[:2].reshape(-1)] = True
    vertices[centre[before[addresses]]] = True

    def add(points: Places) -> None:
        while len(points):
            vertices[points] = True
            points = np.unique(wants[points])
            points = points[(points >= 0) & ~vertices[points]]

    add(needs)
    left = np.flatnonzero(~vertices[centre])
    at = np.full(len(addresses), -1)
    at[left] = _off(corners[left], ground, own, error)
    left = left[at[left] >= 0]
    found = [np.empty((2, 0), np.int64)]
    while len(left):
        ready = left[vertices[apex[left]]]
        # The finest first, as they make vertices of others; and of two that have their longest side in common one is enough.
        level = np.frexp(addresses[ready].astype(float))[1]
        ready = ready[level == level.max(initial=0)]
        _, first = np.unique(centre[ready], return_index=True)
        chosen = ready[np.sort(first)]
        if not len(chosen):
            break
        found.append(np.stack((addresses[chosen], at[chosen])))
        add(centre[chosen])
        left = left[~vertices[centre[left]]]
    if not vertices[centre].all():
        raise RuntimeError("a mesh has a triangle that nothing calls for: it is not the one of the fewest triangles")
    all_ = np.concatenate(found, axis=1)
    return all_[0], all_[1]


def _off(corners: Places, ground: Ground, own: Points, error: float) -> Places:
    """Of each triangle a place at which it is off by more than the tolerance, or -1."""
    heights, one = ground.grid.reshape(-1).astype(np.int64), ground.tolerance(error)
    counts = np.ones(heights.size, bool) if own.counts is None else own.counts.reshape(-1)
    centre = (corners[:, 1] + corners[:, 2]) // 2
    middle = np.abs(2 * heights[centre] - heights[corners[:, 1]] - heights[corners[:, 2]])
    at = np.where(counts[centre] & (1000 * middle > 2 * one), centre, -1)
    # Most are off in the middle of their longest side; where not, all their points are looked at.
    rest = np.flatnonzero(at < 0)
    for shape in shapes(corners[rest].astype(np.uint32), ground.grid.shape[0]):
        which = rest[shape.which]
        off = np.abs(heights[shape.points] - heights[corners[which]] @ shape.weights.T)
        off[~counts[shape.points]] = 0
        worst = off.argmax(1)[:, None]
        is_off = 1000 * np.take_along_axis(off, worst, 1)[:, 0] > one
        at[which[is_off]] = np.take_along_axis(shape.points, worst, 1)[is_off, 0]
    return at


def _split(after: Flags, side: int) -> tuple[Places, Places]:
    """Addresses, and places of the corners, shape (count, 3), of the triangles that are split, the two halves first."""
    last = side * side - 1
    addresses, found = np.array([2, 3]), []
    corners = np.array([[last - side + 1, last, 0], [side - 1, 0, last]])  # the right angle, and the ends of the longest side
    while len(addresses):
        is_split = np.zeros(len(addresses), bool)
        is_some = addresses < len(after)
        is_split[is_some] = after[addresses[is_some]]
        addresses, corners = addresses[is_split], corners[is_split]
        found.append((addresses, corners))
        apex, one, two = corners.T
        middle = (one + two) // 2
        corners = np.concatenate((np.column_stack((middle, apex, one)), np.column_stack((middle, two, apex))))
        addresses = np.concatenate((2 * addresses, 2 * addresses + 1))
    return np.concatenate([it for it, _ in found]), np.concatenate([it for _, it in found])

"""What a folder of 3D Tiles is: its plan, its frames, and the tree of tileset.json, whose geometric errors are bounds.

Level 0 has the raster's own points in tiles that share their border points; each level above has every second point of
the one below. Rows and columns of tiles count from the raster's first point.
"""
from __future__ import annotations

import hashlib
import math
import os
from dataclasses import asdict, dataclass, replace
from typing import Any, Optional

import numpy as np

from ._types import Fill, Floats
from ._version import __version__
from .engine import MOST_HEIGHT
from .heights import UNITS
from .raster import Raster
from .systems import GEOCENTRIC, Curvature, east_north_up, middle_of, transformer, with_heights

SIDES_OF_TILES = tuple(2 ** n + 1 for n in range(3, 12))
FINER = 20  # heights are rounded to a unit that is this part of the error, or less
Frame = Floats  #: 4 x 4, from a tile's or the root's coordinates to those of the earth


@dataclass(frozen=True)
class Plan:
    """What is to be made; picklable."""
    raster: Raster
    out: str  #: a folder
    steps: int  #: of a tile's side, 2^n
    levels: int  #: above level 0
    error: float  #: of level 0, in metres; each level above has twice that of the one below
    unit: float  #: heights are whole multiples of it, in all tiles
    fill: Fill  #: the height of points without one, or how they are filled; None: no triangles there
    depth: int  #: a task reads 2^depth x 2^depth tiles at once
    normals: bool
    skirts: bool  #: tiles are fitted each for itself, and walls hide what is open between them; else their borders match
    crs: Optional[str]  #: the raster's, with that of its heights where they are over a geoid
    root: tuple[float, ...]  #: the frame in the middle: 16 numbers by columns
    form: Optional[tuple[float, float, float]]  #: of the earth's curvature, one for all tiles; None: each has its own
    left_out: float  #: what that form leaves out of a tile of level 0, at most, in metres
    stamps: tuple[tuple[str, int, int], ...]  #: the raster's files: when each was written, and its size
    certify: bool = False  #: whether each tile gets a certificate

    def count(self, level: int) -> tuple[int, int]:
        """Rows and columns of tiles of a level."""
        span = self.steps << level
        rows, columns = (max(1, -(-(points - 1) // span)) for points in self.raster.shape)
        return rows, columns

    @property
    def run(self) -> str:
        """The folder of what a run keeps until it is done."""
        return os.path.join(self.out, ".calfrewin")

    @property
    def meshes(self) -> str:
        """The folder of the meshes of this plan's error."""
        return os.path.join(self.run, "meshes_" + self.digest[:16])

    @property
    def digest(self) -> str:
        """What the bytes of all files are determined by, as a SHA-256."""
        same = replace(self, out="", depth=0)
        return hashlib.sha256(repr((__version__, same)).encode()).hexdigest()

    @property
    def rounding(self) -> float:
        """How far the mesh of rounded heights is from that of the raster's at most, in metres.

        Half a unit for the height of a point, none where all heights are multiples; where the earth is round another one for
        the drop there, and one for the drops at the corners of its triangle.
        """
        is_exact = self.raster.is_whole and (1 / self.unit).is_integer()
        return (0.0 if is_exact else self.unit / 2) + (self.unit if self.crs is not None else 0.0)

    @property
    def root_frame(self) -> Frame:
        return np.array(self.root).reshape(4, 4).T

    def curvature(self, column: float, row: float, level: int) -> Curvature:
        """That of the earth about the middle of a tile."""
        return Curvature(self.crs, self.raster.transform, column, row, (self.steps << level) / 2)


def plan_of(raster: Raster, out: str, *, error: Optional[float], tile: int = 513, unit: Optional[float] = None,
            fill: Fill = None, depth: Optional[int] = None, normals: bool = True, skirts: bool = False,
            vertical: Optional[str] = None, flat: bool = False, certify: bool = False) -> Plan:
    """What `tiles.build` makes.

    Args:
        error: of level 0, in metres; None where it is to be found by a number of triangles.
        tile: points of a side, 2^n + 1.
        unit: heights are rounded to multiples of it; without it to a twentieth of the error or finer.
        fill: the height of points without one, or "smooth". Without it what has no height has no error, and where no point
            has one there are no triangles.
        depth: a task is a block of 2^depth x 2^depth tiles; makes no difference to what is written. Without it as many as fit
            some 2,000 points a side.
        skirts: the tiles are fitted each for itself, and walls hide what is open between them: fewer triangles, and cracks
            behind the walls.
        flat: for a map: what the raster says of its system is left aside, and the earth does not fall away.
        certify: writes a certificate for each tile.
        vertical: what heights are over, as EPSG:5773 (the geoid EGM96, for SRTM) or EPSG:3855 (EGM2008, for Copernicus);
            without it what the raster's system says, else the ellipsoid. A globe shows heights over the ellipsoid, which
            is up to 100 m off a geoid.
    """
    if tile not in SIDES_OF_TILES:
        raise ValueError(f"tile is {tile}, and has to be one of {', '.join(map(str, SIDES_OF_TILES))}")
    if error is None:
        relief = _relief(raster)
        error = relief / 100
        unit = unit or next((it for it in UNITS if it >= 2 * relief / MOST_HEIGHT), UNITS[-1])
    raster = raster.filled(fill)
    error = float(error)
    if not 0 < error < math.inf:
        raise ValueError(f"error is {error}, and has to be above 0, in metres")
    if unit is None:
        unit = max((it for it in UNITS if it <= error / FINER), default=UNITS[0])
    if depth is None:
        depth = max(0, min(2, round(math.log2(2048 / (tile - 1)))))
    levels = max(0, math.ceil(math.log2(max(1.0, max(points - 1 for points in raster.shape) / (tile - 1)))))
    crs = None if flat else raster.crs if vertical is None else with_heights(raster.crs, vertical)
    if crs is None:
        root = np.eye(4)
        root[:2, 3] = middle_of(raster.transform, raster.shape)
    else:
        root = east_north_up(*transformer(crs, GEOCENTRIC).transform(*middle_of(raster.transform, raster.shape), 0.0))
    form, left_out = form_of(raster, crs, tile - 1, unit)
    found = Plan(raster, out, tile - 1, levels, error, unit, fill, min(depth, levels), normals, skirts, crs,
                 tuple(root.T.reshape(-1).tolist()), form, left_out, raster.stamps(), certify)
    if found.rounding + left_out >= error:
        raise ValueError(f"unit is {unit:g}, and has to be less for an error of {error:g}: heights are off by {found.rounding:g} "
                         "by it alone")
    return found


def _relief(raster: Raster) -> float:
    """How far heights are apart in some windows of a raster, at most; more than nothing."""
    rows, columns = (min(points, 65) for points in raster.shape)
    seen = [raster.heights(row, column, rows, columns).astype(np.float64)
            for row in np.linspace(0, raster.shape[0] - rows, 5).astype(int).tolist()
            for column in np.linspace(0, raster.shape[1] - columns, 5).astype(int).tolist()]
    all_ = np.concatenate([it.reshape(-1) for it in seen])
    all_ = all_[~np.isnan(all_)]
    return max(float(np.ptp(all_)) if len(all_) else 0.0, 1.0)


def form_of(raster: Raster, crs: Optional[str], steps: int, unit: float) -> tuple[Optional[tuple[float, float, float]], float]:
    """The form of the earth's curvature in the middle of a raster, and what it leaves out of a tile anywhere else, at most;
    none where that is more than a quarter of a unit."""
    if crs is None:
        return None, 0.0
    rows, columns = (points - 1 for points in raster.shape)
    earths = [Curvature(crs, raster.transform, columns * across / 4, rows * down / 4, steps / 2)
              for down in range(5) for across in range(5)]
    middle = np.array(earths[12].form)
    left_out = float(max(np.abs(np.array(earth.form) - middle).sum() for earth in earths)) * (steps / 2) ** 2
    if left_out > unit / 4:
        return None, 0.0
    return earths[12].form, left_out


@dataclass(frozen=True)
class Tile:
    """What tileset.json says of a tile."""
    level: int
    row: int
    column: int
    error: float  #: how far any point of the raster is from it at most, in metres
    low: float  #: the least height over the ellipsoid, skirts included
    high: float
    region: tuple[float, float, float, float]
    #: west, south, east, north in radians; least x, least y, greatest x, greatest y in the root's frame without a system
    triangles: int
    size: int  #: bytes
    digest: str  #: BLAKE2 of the file, of 32 bytes


def name(plan: Plan, level: int, row: int, column: int) -> str:
    """The file of a tile, in the plan's folder."""
    return f"{plan.levels - level}/{column}/{row}.glb"


def reasons_name(plan: Plan, row: int, column: int) -> str:
    """The certificate of a tile of level 0, in the plan's folder."""
    return f"{plan.levels}/{column}/{row}.reasons"


def tileset(plan: Plan, tiles: list[Tile]) -> dict[str, Any]:
    """tileset.json. The box of a tile holds those of all tiles below it, and its error is no less than theirs."""
    at = {(tile.level, tile.row, tile.column): tile for tile in tiles}

    def node(level: int, row: int, column: int) -> Optional[tuple[dict[str, Any], Tile]]:
        tile = at.get((level, row, column))
        if tile is None:
            return None
        places = [(2 * row + down, 2 * column + right) for down in (0, 1) for right in (0, 1)] if level else []
        below = [found for place in places if (found := node(level - 1, *place)) is not None]
        whole = _over([tile, *(child for _, child in below)])
        says: dict[str, Any] = {"boundingVolume": _volume(plan, whole), "geometricError": whole.error,
                                "content": {"uri": name(plan, level, row, column)}}
        if below:
            says["children"] = [child for child, _ in below]
        return says, whole

    top = node(plan.levels, 0, 0)
    if top is None:
        raise ValueError("the raster has no heights, so there is nothing to write")
    root, whole = top
    root |= {"refine": "REPLACE", "transform": list(plan.root)}
    says: dict[str, Any] = {"steps": plan.steps, "levels": plan.levels, "error": plan.error, "unit": plan.unit, "crs": plan.crs,
                            "fill": plan.fill, "skirts": plan.skirts, "points": list(plan.raster.shape)}
    if plan.certify:
        says["certificates"] = {"run": plan.digest, "form": plan.form, "left_out": plan.left_out, "raster": asdict(plan.raster)}
    return {"asset": {"version": "1.1", "generator": "calfrewin", "extras": {"calfrewin": says}},
            "geometricError": max(16 * whole.error, whole.high - whole.low), "root": root}


def _over(tiles: list[Tile]) -> Tile:
    """The first of the tiles, with a box that holds all of them and the greatest error."""
    first, (west, south, east, north) = tiles[0], zip(*(tile.region for tile in tiles))
    return Tile(first.level, first.row, first.column, max(tile.error for tile in tiles), min(tile.low for tile in tiles),
                max(tile.high for tile in tiles), (min(west), min(south), max(east), max(north)), first.triangles, first.size,
                first.digest)


def _volume(plan: Plan, tile: Tile) -> dict[str, Any]:
    west, south, east, north = tile.region
    if plan.crs is not None:
        # Within half a turn of the zero meridian; where it crosses that its west is more than its east.
        if east - west < 2 * math.pi and max(-west, east) > math.pi:
            west, east = ((it + math.pi) % (2 * math.pi) - math.pi for it in (west, east))
        return {"region": [west, south, east, north, tile.low, tile.high]}
    middle = [(west + east) / 2, (south + north) / 2, (tile.low + tile.high) / 2]
    return {"box": middle + [(east - west) / 2, 0, 0, 0, (north - south) / 2, 0, 0, 0, (tile.high - tile.low) / 2]}

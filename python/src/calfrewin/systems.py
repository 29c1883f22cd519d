"""Coordinate systems by PROJ: where vertices go, what heights are over, how the earth is curved below a raster."""
from __future__ import annotations

import functools
import math
import threading
import warnings
from typing import TYPE_CHECKING, Any, Optional

import numpy as np
import numpy.typing as npt

from ._types import Floats, Transform

if TYPE_CHECKING:
    from .mesh import Mesh

GEOCENTRIC, GEODETIC = "EPSG:4978", "EPSG:4979"  # WGS 84 as x, y, z from the earth's middle; as degrees and metres over it
TRUE = 0.01  # so far from 1 may be the scale of a map that is taken as true
LARGEST = 7_000  # triangles whose edges are looked at
HALF_AXES = (6_378_137.0, 6_356_752.314245179)  # of WGS 84, at the equator and at the poles
AROUND = 33  # places a side, at which it is tried whether a raster has a place in another system


def crs_of(crs: str) -> Any:
    """A pyproj.CRS, or the error that names what is none.

    >>> crs_of("EPSG:1")
    Traceback (most recent call last):
    ValueError: crs is 'EPSG:1', and PROJ knows no such system: give one as EPSG:32632
    """
    from pyproj import CRS
    from pyproj.exceptions import CRSError
    try:
        return CRS.from_user_input(crs)
    except (CRSError, TypeError):
        raise ValueError(f"crs is {crs!r}, and PROJ knows no such system: give one as EPSG:32632") from None


def _horizontal(crs: str) -> Any:
    """The part of a system that has no heights."""
    found = crs_of(crs)
    return next((part for part in found.sub_crs_list if not part.is_vertical), found)


def metres_of_height(crs: Optional[str]) -> float:
    """Metres of a unit of height, where the system has heights of its own, else 1.

    >>> round(metres_of_height("EPSG:2263+6360"), 6)
    0.304801
    """
    if crs is None:
        return 1.0
    vertical = next((part for part in crs_of(crs).sub_crs_list if part.is_vertical), None)
    return float(vertical.axis_info[0].unit_conversion_factor) if vertical is not None else 1.0


def in_metres(crs: str) -> str:
    """The same system with its heights in metres, where it has some in another unit.

    >>> metres_of_height(in_metres("EPSG:2263+6360"))
    1.0
    """
    if metres_of_height(crs) == 1:
        return crs
    from pyproj import CRS
    found = crs_of(crs).to_json_dict()
    for part in found["components"]:
        for axis in part["coordinate_system"]["axis"] if part["type"] == "VerticalCRS" else ():
            axis["unit"] = "metre"
        if part["type"] == "VerticalCRS":
            part.pop("id", None)
            part["name"] += ", in metres"
    found.pop("id", None)
    return str(CRS.from_json_dict(found).to_wkt())


def with_heights(crs: Optional[str], vertical: str) -> str:
    """A system with heights of its own: over the geoid of `vertical`, as EPSG:5773 (EGM96) or EPSG:3855 (EGM2008)."""
    from pyproj.crs.crs import CompoundCRS
    if crs is None:
        raise ValueError(f"vertical is {vertical}, and the raster has no coordinate system that it could be added to")
    height = crs_of(vertical)
    if not height.is_vertical:
        raise ValueError(f"vertical is {vertical} ({height.name}), and has to be a system of heights, as EPSG:5773")
    flat = _horizontal(crs)
    found = str(CompoundCRS(f"{flat.name} + {height.name}", [flat, height]).to_wkt())
    _refuse_without_grid(found, GEODETIC, vertical)
    return found


def _refuse_without_grid(crs: str, to: str, vertical: str) -> None:
    """PROJ without a geoid's grid leaves heights as they are, and says nothing."""
    from pyproj.transformer import TransformerGroup
    with warnings.catch_warnings():
        warnings.simplefilter("ignore")
        group = TransformerGroup(crs, to, always_xy=True)
    if not group.best_available or not group.transformers:
        grids = [grid.short_name for it in group.unavailable_operations for grid in it.grids] or ["?"]
        raise ValueError(f"heights are over {vertical}, and PROJ has not its grid {grids[0]}: "
                         f"projsync --file {grids[0]}, or set PROJ_NETWORK=ON")


@functools.lru_cache(maxsize=64)
def _transformer(crs: str, to: str, thread: int) -> Any:
    from pyproj import Transformer
    source, goal = crs_of(crs), crs_of(to)
    if len(goal.axis_info) == 2:
        source = _horizontal(crs)  # heights stay as they are
    elif len(source.axis_info) == 3:
        name = next((part.name for part in source.sub_crs_list if part.is_vertical), source.name)
        _refuse_without_grid(crs, to, name)
    else:
        source = source.to_3d()  # heights over the ellipsoid, as nothing else is said
    from pyproj.exceptions import ProjError
    try:
        return Transformer.from_crs(source, goal, always_xy=True)
    except ProjError:
        raise ValueError(f"crs is {source.name!r}, and PROJ knows no way from there to {goal.name!r}") from None


def transformer(crs: str, to: str) -> Any:
    """A pyproj.Transformer, x or east first; one for each thread, since PROJ's are not for two at once.

    Heights go along: metres over the ellipsoid, unless the system has heights of its own.
    """
    return _transformer(crs, to, threading.get_ident())


def flat_transformer(crs: str, to: str) -> Any:
    """A pyproj.Transformer of x and y alone."""
    return transformer(crs, _horizontal(to).to_wkt())


def metres_crs(crs: Optional[str], transform: Transform, shape: tuple[int, int]) -> Optional[str]:
    """The system for vertices in metres: the raster's own where it is in metres and true to scale, else UTM.

    >>> metres_crs("EPSG:2056", (10, 0, 2600000, 0, -10, 1200000), (100, 100))
    'EPSG:2056'
    """
    if crs is None or is_local(crs):
        return crs
    a, b, _, d, e, _ = transform
    # What a step of 1 in x and in y is in metres on the ground: a map of the world stretches it, and degrees and feet do.
    cell = Curvature(crs, transform, (shape[1] - 1) / 2, (shape[0] - 1) / 2, reach=1.0).jacobian
    is_true = np.abs(np.linalg.svd(cell @ np.linalg.inv([[a, b], [d, e]]), compute_uv=False) - 1).max() < TRUE
    return crs if is_true else utm_crs(crs, transform, shape)


def utm_crs(crs: str, transform: Transform, shape: tuple[int, int]) -> str:
    """The zone of UTM, WGS 84, of a raster's middle.

    >>> utm_crs("EPSG:4326", (0.001, 0, 7, 0, -0.001, 45), (100, 100))
    'EPSG:32632'
    """
    from pyproj.aoi import AreaOfInterest
    from pyproj.database import query_utm_crs_info
    to_degrees = transformer(_horizontal(crs).to_wkt(), "EPSG:4326")
    east, north = to_degrees.transform(*middle_of(transform, shape))
    if not math.isfinite(north):
        raise ValueError(f"the middle of the heights, {_place(*middle_of(transform, shape))}, lies nowhere on the earth in "
                         f"{_horizontal(crs).name!r}: is the system right?")
    east = (east + 180) % 360 - 180
    found = query_utm_crs_info("WGS 84", AreaOfInterest(east, north, east, north))
    if not found:
        raise ValueError(f"there is no zone of UTM at {north:.1f} degrees of latitude: "
                         "give --crs, for example EPSG:3413 (Arctic) or EPSG:3031 (Antarctica)")
    return f"EPSG:{found[0].code}"


def is_local(crs: str) -> bool:
    """Whether a system is a grid of its own, as of a building site, from which no way leads to the earth.

    >>> is_local("EPSG:32632"), is_local('LOCAL_CS["site",UNIT["metre",1]]')
    (False, True)
    """
    return "engineering" in str(_horizontal(crs).type_name).lower()


def metres_of_local(crs: str) -> Optional[float]:
    """Metres of a unit of a grid of its own; None of any other system.

    >>> metres_of_local('LOCAL_CS["site",UNIT["foot",0.3048]]'), metres_of_local("EPSG:4326")
    (0.3048, None)
    """
    return float(_horizontal(crs).axis_info[0].unit_conversion_factor) if is_local(crs) else None


def is_in_degrees(crs: Optional[str]) -> bool:
    """Whether x and y of a system are degrees.

    >>> is_in_degrees("EPSG:4326"), is_in_degrees("EPSG:32632"), is_in_degrees(None)
    (True, False, False)
    """
    return crs is not None and bool(_horizontal(crs).is_geographic)


def _place(x: float, y: float) -> str:
    return f"x = {x:.9g}, y = {y:.9g}"


def refuse_beyond(crs: Optional[str], transform: Transform, shape: tuple[int, int]) -> None:
    """Refuses heights in degrees that lie beyond a pole, or more than once around the earth."""
    if not is_in_degrees(crs):
        return
    x, y = corners_of(transform, shape)
    worst = max(y, key=abs)
    if abs(worst) > 90 + 1e-9:
        raise ValueError(f"a corner of the heights is at {worst:.9g} degrees of latitude, and there are 90: is it the system of "
                         "the file? Without one the heights are taken with --spacing METRES")
    if max(x) - min(x) > 360 + 1e-9:
        raise ValueError(f"the heights go from {min(x):.9g} to {max(x):.9g} degrees of longitude, more than once around the "
                         "earth: is it the system of the file?")


def corners_of(transform: Transform, shape: tuple[int, int]) -> tuple[list[float], list[float]]:
    """x and y of the four corner points of a raster."""
    a, b, c, d, e, f = transform
    ends = [(column, row) for row in (0, shape[0] - 1) for column in (0, shape[1] - 1)]
    return [a * column + b * row + c for column, row in ends], [d * column + e * row + f for column, row in ends]


def refuse_unplaced(crs: Optional[str], to: Optional[str], transform: Transform, shape: tuple[int, int]) -> None:
    """Refuses to bring heights to a system in which some have no place, or which turns the map around on itself."""
    if crs is None or to is None or to == crs or to == "globe":
        return
    a, b, c, d, e, f = transform
    row, column = np.meshgrid(np.linspace(0, shape[0] - 1, AROUND), np.linspace(0, shape[1] - 1, AROUND), indexing="ij")
    x, y = a * column + b * row + c, d * column + e * row + f
    there = np.stack(flat_transformer(crs, to).transform(x, y))
    bad = ~np.isfinite(there).all(0)
    at = divmod(int(bad.argmax()), AROUND)
    if not bad.any():
        # Of a map that folds some cells are turned the other way round.
        across, down = np.diff(there, axis=2)[:, :-1], np.diff(there, axis=1)[:, :, :-1]
        turned = np.sign(across[0] * down[1] - across[1] * down[0])
        bad = turned != np.sign(turned.sum())
        at = divmod(int(bad.argmax()), AROUND - 1)
    if bad.any():
        raise ValueError(f"crs is {to}, and has no place, or no single one, for {_place(x[at], y[at])} of "
                         f"{_horizontal(crs).name!r}: take a part, with --bounds or --window, or another --crs "
                         "(EPSG:3413 and EPSG:3031 are of the Arctic "
                         "and of the Antarctic, and EPSG:3857 of the world between 85 degrees)")


def middle_of(transform: Transform, shape: tuple[int, int]) -> tuple[float, float]:
    """x and y of the middle of a raster."""
    a, b, c, d, e, f = transform
    row, column = (shape[0] - 1) / 2, (shape[1] - 1) / 2
    return a * column + b * row + c, d * column + e * row + f


def metres_of_cell(crs: Optional[str], transform: Transform, shape: tuple[int, ...]) -> float:
    """The side in metres of a square as great as a cell in the middle of a raster.

    >>> round(metres_of_cell("EPSG:4326", (1 / 3600, 0, 7, 0, -1 / 3600, 60), (100, 100)), 1)
    21.9
    """
    jacobian = Curvature(crs, transform, (shape[1] - 1) / 2, (shape[0] - 1) / 2, reach=1.0).jacobian
    return math.sqrt(abs(float(np.linalg.det(jacobian))))


def name_of(crs: Optional[str]) -> str:
    """A short name for people.

    >>> name_of("EPSG:32632"), name_of(None)
    ('EPSG:32632, WGS 84 / UTM zone 32N', 'no coordinate system')
    """
    if crs is None:
        return "no coordinate system"
    if crs == "globe":
        return "metres to the east, to the north and up about the middle, on the globe"
    found = crs_of(crs)
    return f"{crs}, {found.name}" if crs.upper().startswith("EPSG:") else str(found.name)


def geocentric(longitude: Floats, latitude: Floats, height: Floats) -> Floats:
    """Shape (count, 3): degrees and metres over WGS 84 as EPSG:4978. By numpy, thrice as fast as by PROJ."""
    a, b = HALF_AXES
    east, north = np.radians(longitude), np.radians(latitude)
    ratio = (b / a) ** 2
    radius = a / np.sqrt(1 - (1 - ratio) * np.sin(north) ** 2)
    out = (radius + height) * np.cos(north)
    return np.column_stack((out * np.cos(east), out * np.sin(east), (radius * ratio + height) * np.sin(north)))


def east_north_up(x: float, y: float, z: float) -> Floats:
    """The frame, 4 x 4, that takes (east, north, up) about a geocentric place to geocentric coordinates."""
    longitude, latitude, _ = transformer(GEOCENTRIC, GEODETIC).transform(x, y, z)
    a, b = math.radians(longitude), math.radians(latitude)
    return np.array([[-math.sin(a), -math.sin(b) * math.cos(a), math.cos(b) * math.cos(a), x],
                     [math.cos(a), -math.sin(b) * math.sin(a), math.cos(b) * math.sin(a), y],
                     [0, math.cos(b), math.sin(b), z],
                     [0, 0, 0, 1]])


class Curvature:
    """How the earth falls away below the plane that touches it at a place of a raster.

    Attributes:
        jacobian: 2 x 2: metres to the east and to the north of a step along columns and along rows.
        form: (cc, cr, rr): `drop` is cc column^2 + cr column row + rr row^2, in metres, below 0.
        frame: 4 x 4: from metres to the east, to the north and up about the place to those of the earth; without a system x and
            y, which are as they are, and height.
    """

    def __init__(self, crs: Optional[str], transform: Transform, column: float, row: float, reach: float) -> None:
        """About a place of a raster, from places `reach` columns and rows away."""
        a, b, c, d, e, f = transform
        if crs is None:
            self.jacobian, self.form, self.frame = np.array([[a, b], [d, e]]), (0.0, 0.0, 0.0), np.eye(4)
            self.frame[:2, 3] = a * column + b * row + c, d * column + e * row + f
            return
        steps = np.array([(0, 0), (-1, 0), (1, 0), (0, -1), (0, 1), (1, 1), (-1, -1)], float) * reach
        columns, rows = column + steps[:, 0], row + steps[:, 1]
        x, y = a * columns + b * rows + c, d * columns + e * rows + f
        places = np.column_stack(transformer(crs, GEOCENTRIC).transform(x, y, np.zeros(len(steps))))
        if not np.isfinite(places).all():
            raise ValueError(f"what lies {reach:g} points around {_place(x[0], y[0])} of {_horizontal(crs).name!r} is beyond "
                             "a pole, or nowhere on the earth: take a part, with smaller tiles, or warp to EPSG:3413 (Arctic) or "
                             "EPSG:3031 (Antarctic)")
        self.frame = east_north_up(*places[0])
        local = (places - places[0]) @ self.frame[:3, :3]
        across, down = local[2, :2] - local[1, :2], local[4, :2] - local[3, :2]
        self.jacobian = np.column_stack((across, down)) / (2 * reach)
        up = local[:, 2]
        cc, rr, both = ((up[i] + up[j]) / 2 / reach ** 2 for i, j in ((1, 2), (3, 4), (5, 6)))
        self.form = float(cc), float(both - cc - rr), float(rr)

    def drop(self, columns: Floats, rows: Floats) -> Floats:
        """The drop at places counted from the one that it is about; what fits together is broadcast."""
        cc, cr, rr = self.form
        found: Floats = cc * columns * columns + cr * columns * rows + rr * rows * rows
        return found


def longest_edges(mesh: Mesh) -> tuple[npt.NDArray[np.uint32], npt.NDArray[np.uint32]]:
    """The two ends of each edge of the largest triangles, as far as one edge tells how large they are."""
    one, two, _ = mesh.triangles.T
    length = np.hypot(mesh.column[one] - mesh.column[two], mesh.row[one] - mesh.row[two])
    large = mesh.triangles[np.argpartition(length, -min(len(length), LARGEST))[-LARGEST:]]
    return large.reshape(-1), np.roll(large, -1, axis=1).reshape(-1)


def sideways(mesh: Mesh, crs: str) -> float:
    """By how many metres at most, sideways, the middle of an edge lies off the place that its ground has in another
    system, over the longest edges."""
    if mesh.crs is None or crs == mesh.crs:
        return 0.0
    one, two = longest_edges(mesh)
    change = transformer(mesh.crs, crs)
    x, y = mesh.xy()
    a, b, middle = (np.column_stack(change.transform(*place)) for place in (
        (x[one], y[one]), (x[two], y[two]), ((x[one] + x[two]) / 2, (y[one] + y[two]) / 2)))
    return float(np.hypot(*((a + b) / 2 - middle).T).max())


def left_out(mesh: Mesh, earth: Curvature, middle: tuple[float, float]) -> float:
    """How far, straight up or down, the middles of the longest edges on the globe are from those that `earth` foretells.

    Args:
        mesh: with heights over the sea.
        earth: the curvature about the column and the row `middle`.
    """
    assert mesh.crs is not None
    one, two = longest_edges(mesh)
    x, y = mesh.xy()
    used, back = np.unique(np.concatenate((one, two)), return_inverse=True)
    places = np.column_stack(transformer(mesh.crs, GEOCENTRIC).transform(x[used], y[used], mesh.height[used]))
    chord = (places[back[:len(one)]] + places[back[len(one):]]) / 2
    sea = transformer(mesh.crs, GEODETIC)
    *_, found = transformer(GEOCENTRIC, GEODETIC).transform(*chord.T)
    at_column, at_row = ((values[one] + values[two]) / 2 for values in (mesh.column, mesh.row))
    a, b, c, d, e, f = mesh.transform
    drop = [earth.drop(columns - middle[0], rows - middle[1]) for columns, rows in (
        (mesh.column[one], mesh.row[one]), (mesh.column[two], mesh.row[two]), (at_column, at_row))]
    told = (mesh.height[one] + drop[0] + mesh.height[two] + drop[1]) / 2 - drop[2]
    *_, told = sea.transform(a * at_column + b * at_row + c, d * at_column + e * at_row + f, told)
    return float(np.abs(found - told).max())

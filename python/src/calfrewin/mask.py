"""Meshes cut along the outline of polygons, without cracks, for what lies within them."""
from __future__ import annotations

import json
import pathlib
from typing import Any, NamedTuple, Optional

import numpy as np

from ._types import Flags, Floats, Numbers, Transform
from .clip import Clip, GridMesh, split, with_triangles

AT_A_TIME = 16  # edges of an outline, along which triangles are cut
MARGIN = 1e-6  # of a cell, around what is cut
NOTHING = 1e-9  # of a cell: what lies nearer than this is at one place, but for rounding
DEGREES = "EPSG:4326"  # of GeoJSON that says nothing else


def read_polygons(path: str) -> tuple[Any, Optional[str]]:
    """The polygons of a file, as one shapely geometry, and their coordinate system: GeoJSON, or what fiona reads.

    Raises:
        ValueError: there is no polygon in the file.
    """
    from shapely.geometry import shape
    from shapely.ops import unary_union
    if pathlib.PurePath(path).suffix.lower() in (".geojson", ".json"):
        crs, geometries = _geojson(path)
    else:
        crs, geometries = _by_fiona(path)
    polygons = [found for found in map(shape, geometries) if found.geom_type in ("Polygon", "MultiPolygon")]
    if not polygons:
        raise ValueError(f"{path} has no polygon")
    return unary_union([polygon.buffer(0) for polygon in polygons]), crs


def _geojson(path: str) -> tuple[Optional[str], list[Any]]:
    try:
        found = json.loads(pathlib.Path(path).read_text())
        kind = found["type"]
    except (ValueError, KeyError, TypeError) as why:
        raise ValueError(f"{path} is no GeoJSON: {why}") from None
    named = (found.get("crs") or {}).get("properties", {}).get("name")
    features = found["features"] if kind == "FeatureCollection" else [found]
    geometries = [it["geometry"] if it["type"] == "Feature" else it for it in features]
    geometries = [it for it in geometries if it]
    if named is None:
        _refuse_no_degrees(path, geometries)
    return named or DEGREES, geometries


def _refuse_no_degrees(path: str, geometries: list[Any]) -> None:
    """Refuses GeoJSON without a system whose corners cannot be what it says that they are then."""
    from shapely.geometry import shape
    for geometry in geometries:
        found = shape(geometry)
        left, low, right, high = found.bounds or (0, 0, 0, 0)
        if max(-left, right) > 540 or max(-low, high) > 90:
            raise ValueError(f"{path} names no coordinate system, so its corners are degrees, and {left:.9g}, {low:.9g} are "
                             "none: bring it there, by ogr2ogr -t_srs EPSG:4326, or to a .gpkg")


def _by_fiona(path: str) -> tuple[Optional[str], list[Any]]:
    try:
        import fiona
    except ImportError:
        raise ValueError(f"{path} is no .geojson, and fiona, which reads other files, is not there: "
                         "apt-get install python3-fiona, or ogr2ogr mask.geojson") from None
    try:
        with fiona.open(path) as layer:
            return layer.crs_wkt or None, [it["geometry"] for it in layer if it["geometry"]]
    except fiona.errors.FionaError as why:
        raise ValueError(f"{path}: {why}") from None


def moved(polygons: Any, crs: Optional[str], to: Optional[str]) -> Any:
    """The polygons in another coordinate system: their corners are brought there, and edges are straight there."""
    if crs is None or to is None or crs == to:
        return polygons
    from shapely.ops import transform

    from .systems import flat_transformer
    change, outside = flat_transformer(crs, to), []

    def place(x: Any, y: Any) -> Any:
        found = change.transform(x, y)
        if not np.isfinite(found).all():
            outside.append((x, y))
            return np.zeros_like(found)
        return found
    found = transform(place, polygons)
    if outside:
        raise ValueError(f"mask: corners of polygons in {crs} have no place in the system of the heights: cut them first, by "
                         "ogr2ogr -clipsrc")
    return found


def by_points(polygons: Any, transform: Transform) -> Any:
    """Polygons by columns and rows of points."""
    from shapely.affinity import affine_transform
    a, b, c, d, e, f = transform
    inverse = np.linalg.inv(np.array([[a, b], [d, e]]))
    shift = -inverse @ (c, f)
    return affine_transform(polygons, [*inverse.reshape(-1), *shift])


def clip_to(polygons: Any, transform: Transform, shape: tuple[int, int]) -> Clip:
    """What cuts a mesh over an array along polygons that are in its coordinates."""
    from shapely.geometry import MultiPolygon, box
    within = by_points(polygons, transform).intersection(box(0, 0, shape[1] - 1, shape[0] - 1))
    # Where a polygon only touches the array, an intersection has lines and points, too.
    parts = [part for part in getattr(within, "geoms", [within]) if part.geom_type == "Polygon" and part.area > 0]
    if not parts:
        raise ValueError("mask: no polygon lies over the heights that were read")
    within = MultiPolygon(parts)
    return lambda mesh: _clipped(mesh, within, shape)


def _clipped(mesh: GridMesh, polygons: Any, shape: tuple[int, int]) -> GridMesh:
    """The mesh within polygons by columns and rows. Their corners become vertices, then edges are split where the outline
    crosses them, and then each triangle lies within or without."""
    is_near = _near(mesh, polygons, shape)
    far, near = mesh.triangles[~is_near], _boxed(mesh, mesh.triangles[is_near])
    rings = _rings(polygons)
    for ring in rings:
        for begin in range(0, len(ring), AT_A_TIME):
            mesh, near = _cut_along(mesh, near, ring[begin:begin + AT_A_TIME])
    edges = [edge for ring in rings for edge in ring]
    kept = [triangles[_are_within(mesh, triangles, edges)] for triangles in (far, near.triangles)]
    return with_triangles(mesh, np.concatenate(kept))


Edges = list[tuple[Floats, Floats]]


def _rings(polygons: Any) -> list[Edges]:
    """The edges of each ring, from corner to corner."""
    rings = [np.asarray(ring.coords) for part in polygons.geoms for ring in (part.exterior, *part.interiors)]
    return [[(one, two) for one, two in zip(ring[:-1], ring[1:]) if (one != two).any()] for ring in rings]


class Boxed(NamedTuple):
    """Triangles of a mesh, and the box of each."""
    triangles: Numbers
    boxes: Floats  #: shape (count, 4): least column and row, greatest column and row


def _boxed(mesh: GridMesh, triangles: Numbers) -> Boxed:
    column, row = mesh.column[triangles], mesh.row[triangles]
    return Boxed(triangles, np.column_stack((column.min(1), row.min(1), column.max(1), row.max(1))))


def _cut_along(mesh: GridMesh, near: Boxed, edges: Edges) -> tuple[GridMesh, Boxed]:
    """The triangles cut along some edges that follow one another: of those whose boxes these meet, as both triangles at a place
    that is cut have it in their boxes."""
    ends = np.array(edges)
    (left, top), (right, low) = ends.min((0, 1)) - MARGIN, ends.max((0, 1)) + MARGIN
    meets = (near.boxes[:, 0] <= right) & (near.boxes[:, 2] >= left) & (near.boxes[:, 1] <= low) & (near.boxes[:, 3] >= top)
    places, triangles = np.unique(near.triangles[meets], return_inverse=True)
    some = GridMesh(mesh.column[places], mesh.row[places], mesh.number[places], np.empty((0, 3), np.uint32))
    triangles = triangles.reshape(-1, 3).astype(np.uint32)
    for corner in (*(one for one, _ in edges), edges[-1][1]):
        some, triangles = _with_vertex(some, triangles, corner)
    for one, two in edges:
        some, triangles = _split_along(some, triangles, one, two)
    # What lay at a corner, nearly, lies there now.
    mesh.column[places], mesh.row[places] = some.column[:len(places)], some.row[:len(places)]
    number = np.concatenate((places, len(mesh.column) + np.arange(len(some.column) - len(places)))).astype(np.uint32)
    column, row, heights = (np.concatenate((old, new[len(places):])) for old, new in zip(mesh[:3], some[:3]))
    longer = GridMesh(column, row, heights, mesh.triangles)
    cut = _boxed(longer, number[triangles])
    return longer, Boxed(np.concatenate((near.triangles[~meets], cut.triangles)), np.concatenate((near.boxes[~meets], cut.boxes)))


def _near(mesh: GridMesh, polygons: Any, shape: tuple[int, int]) -> Flags:
    """Which triangles may touch the outline, or share a corner with one that does."""
    from rasterio.features import rasterize
    rows, columns = shape
    cells = rasterize([polygons.boundary], (rows - 1, columns - 1), all_touched=True, dtype=np.uint8)
    sums = np.zeros((rows, columns), np.int64)
    sums[1:, 1:] = cells.cumsum(0, dtype=np.int64).cumsum(1)
    # The cells of the triangle's box and one more around, as corners of the outline may lie on their borders.
    (left, right), (top, bottom) = ((np.floor(values.min(1)).astype(np.int64) - 1, np.ceil(values.max(1)).astype(np.int64) + 1)
                                    for values in (mesh.column[mesh.triangles], mesh.row[mesh.triangles]))
    left, right, top, bottom = (np.clip(found, 0, most - 1) for found, most in
                                ((left, columns), (right, columns), (top, rows), (bottom, rows)))
    touches = sums[bottom, right] - sums[top, right] - sums[bottom, left] + sums[top, left] > 0
    has_near = np.zeros(len(mesh.column), bool)
    has_near[mesh.triangles[touches].reshape(-1)] = True
    found: Flags = has_near[mesh.triangles].any(1)
    return found


def _with_vertex(mesh: GridMesh, triangles: Numbers, place: Floats) -> tuple[GridMesh, Numbers]:
    """The mesh with a vertex at a place: its triangle is cut into three, or the two at its edge into two each."""
    column, row = mesh.column - place[0], mesh.row - place[1]
    is_there = (np.abs(column) < NOTHING) & (np.abs(row) < NOTHING)
    if is_there.any():
        mesh.column[is_there], mesh.row[is_there] = place
        return mesh, triangles
    a, b, c = triangles.T
    # Twice the areas of the three triangles about the place: all are of one sign where it lies within.
    areas = np.stack([column[i] * row[j] - row[i] * column[j] for i, j in ((b, c), (c, a), (a, b))], axis=1)
    total = areas.sum(1, keepdims=True)
    parts = areas / total
    parts[np.abs(areas) < NOTHING * np.sqrt(np.abs(total))] = 0.0
    holds = (parts >= 0).all(1)
    if not holds.any():
        return mesh, triangles  # beyond the mesh
    found = holds.argmax()
    height = float((parts[found] * mesh.number[triangles[found]]).sum())
    new = np.uint32(len(mesh.column))
    longer = GridMesh(np.append(mesh.column, place[0]), np.append(mesh.row, place[1]), np.append(mesh.number, height),
                      mesh.triangles)
    pieces = [triangles[~holds]]
    for turn in range(3):
        # The piece at each edge from which the place is away.
        some = holds & (parts[:, turn] > 0)
        one, two = triangles[some, (turn + 1) % 3], triangles[some, (turn + 2) % 3]
        pieces.append(np.column_stack((np.full(len(one), new), one, two)))
    return longer, np.concatenate(pieces)


def _split_along(mesh: GridMesh, triangles: Numbers, one: Floats, two: Floats) -> tuple[GridMesh, Numbers]:
    """The triangles split where the edge of a polygon crosses them, whose ends are vertices."""
    way = two - one
    length = float(np.hypot(*way))
    value = (way[0] * (mesh.row - one[1]) - way[1] * (mesh.column - one[0])) / length
    value[np.abs(value) < NOTHING] = 0.0
    sides = np.sign(value)[triangles]
    some = (sides.min(1) < 0) & (sides.max(1) > 0)
    if not some.any():
        return mesh, triangles
    along = (way[0] * (mesh.column - one[0]) + way[1] * (mesh.row - one[1])) / length ** 2
    mesh, pieces = split(mesh, triangles[some], value, along)
    return mesh, np.concatenate((triangles[~some], pieces))


def _are_within(mesh: GridMesh, triangles: Numbers, edges: Edges) -> Flags:
    """Which triangles have their middle within the polygons: by the crossings of a ray to the right of it."""
    column, row = (values[triangles].mean(1) for values in (mesh.column, mesh.row))
    order = np.argsort(row)
    sorted_rows = row[order]
    found = np.zeros(len(triangles), bool)
    for one, two in edges:
        low, high = (one, two) if one[1] < two[1] else (two, one)
        begin, end = np.searchsorted(sorted_rows, (low[1], high[1]))
        some = order[begin:end]
        if len(some):
            crossing = low[0] + (row[some] - low[1]) / (high[1] - low[1]) * (high[0] - low[0])
            found[some] ^= crossing > column[some]
    return found


def mask_of(path: str, crs: Optional[str]) -> Any:
    """The polygons of a file, in the coordinate system of a raster."""
    polygons, own = read_polygons(path)
    return moved(polygons, own, crs)

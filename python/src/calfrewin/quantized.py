"""quantized-mesh-1.0, the terrain of Cesium: one tile, and the pyramid of a raster in the grid of geographic tiles.

A tile, all numbers little-endian, the file gzipped (served with Content-Encoding: gzip and
Content-Type: application/vnd.quantized-mesh):

    head      3 doubles   the middle, geocentric (EPSG:4978), metres
              2 floats    least and greatest height over the ellipsoid, metres
              4 doubles   bounding sphere: middle and radius
              3 doubles   horizon occlusion point, geocentric over the half axes of the ellipsoid
    vertices  uint32 count, then count uint16 each of u, v, height: 0 .. 32767 from west to east, south to north, least to
              greatest; each stands as the difference from the one before, zigzag ((d << 1) ^ (d >> 15))
    triangles padding to 2 bytes (to 4 where there are more than 65536 vertices), uint32 count, then 3 count uint16 (or
              uint32), counterclockwise from above, each as high - index, where high is the number of vertices named before
    edges     west, south, east, north: uint32 count and count indices as they are, of all vertices on that side
    extension uint8 id, uint32 length, bytes; 1: two bytes a vertex, its geocentric normal on an octahedron
"""
from __future__ import annotations

import gzip
import json
import math
import os
import struct
from typing import Any, Optional

import numpy as np
import numpy.typing as npt

from . import files
from ._types import Floats, Numbers
from .clip import grid_mesh
from .engine import MOST_HEIGHT, Engine
from .raster import Progress, Raster
from .systems import HALF_AXES, geocentric

A, B = HALF_AXES
MOST = 32_767
NO_HEIGHT = -32_768.0
HEAD = struct.Struct("<3d2f4d3d")
FIRST_ERROR = 2 * math.pi * A * 0.25 / (65 * 2)  # what CesiumJS takes for tiles of zoom 0; it halves with each zoom


def _zigzag(values: npt.NDArray[np.int64]) -> bytes:
    delta = np.diff(values, prepend=0)
    return bytes(((delta << 1) ^ (delta >> 63)).astype("<u2").tobytes())


def _octahedron(normals: Floats) -> bytes:
    n = normals / np.abs(normals).sum(1, keepdims=True)
    folded = (1 - np.abs(n[:, [1, 0]])) * np.where(n[:, :2] < 0, -1.0, 1.0)
    xy = np.where(n[:, 2:] < 0, folded, n[:, :2])
    return bytes(np.rint((np.clip(xy, -1, 1) * 0.5 + 0.5) * 255).astype(np.uint8).tobytes())


def _horizon(points: Floats, middle: Floats) -> Floats:
    """The point of which nothing is seen unless something of the tile may be (Cesium's EllipsoidalOccluder)."""
    radii = np.array([A, A, B])
    way = middle / radii
    way /= np.linalg.norm(way)
    p = points / radii
    length = np.linalg.norm(p, axis=1)
    unit, length = p / length[:, None], np.maximum(length, 1.0)
    cos_a, sin_a = unit @ way, np.linalg.norm(np.cross(unit, way), axis=1)
    cos_b = 1 / length
    sin_b = np.sqrt(length ** 2 - 1) * cos_b
    seen = cos_a * cos_b - sin_a * sin_b
    # Of half a globe there is no such point: one so far away hides nothing.
    return np.asarray(way * (1 / np.maximum(seen, 1e-6)).max())


Bounds = tuple[float, float, float, float]  #: west, south, east, north in degrees


def encode(u: npt.NDArray[np.int64], v: npt.NDArray[np.int64], height: Floats, triangles: Numbers, bounds: Bounds,
           normals: Optional[Floats] = None) -> bytes:
    """The bytes of a tile, not zipped.

    Args:
        u, v: of each vertex, from 0 to 32767.
        height: in metres over the ellipsoid.
        normals: geocentric, of length 1.
    """
    # Vertices in the order in which triangles first name them, which the coding of triangles wants.
    flat = triangles.reshape(-1).astype(np.int64)
    _, first = np.unique(flat, return_index=True)
    order = flat[np.sort(first)]
    number = np.empty(len(u), np.int64)
    number[order] = np.arange(len(order))
    u, v, height, index = u[order], v[order], height[order], number[flat]
    is_wide = len(u) > 65_536
    kind = "<u4" if is_wide else "<u2"
    low, high = float(np.float32(height.min())), float(np.float32(height.max()))
    h = np.rint((height - low) / ((high - low) or 1.0) * MOST).astype(np.int64).clip(0, MOST)
    parts = [_head(u, v, height, low, high, bounds), struct.pack("<I", len(u)), _zigzag(u), _zigzag(v), _zigzag(h)]
    parts.append(bytes(-sum(map(len, parts)) % (4 if is_wide else 2)))
    highest = np.maximum.accumulate(np.append(np.array([-1]), index[:-1])) + 1
    parts += [struct.pack("<I", len(index) // 3), (highest - index).astype(kind).tobytes()]
    for is_on, along in ((u == 0, v), (v == 0, u), (u == MOST, v), (v == MOST, u)):
        edge = np.flatnonzero(is_on)
        edge = edge[np.argsort(along[edge], kind="stable")]
        parts += [struct.pack("<I", len(edge)), edge.astype(kind).tobytes()]
    if normals is not None:
        data = _octahedron(normals[order])
        parts += [struct.pack("<BI", 1, len(data)), data]
    return b"".join(parts)


def _head(u: npt.NDArray[np.int64], v: npt.NDArray[np.int64], height: Floats, low: float, high: float,
          bounds: Bounds) -> bytes:
    west, south, east, north = bounds
    points = geocentric(west + (east - west) * u / MOST, south + (north - south) * v / MOST, height)
    middle = (points.min(0) + points.max(0)) / 2
    radius = float(np.linalg.norm(points - middle, axis=1).max())
    return HEAD.pack(*middle, low, high, *middle, radius, *_horizon(points, middle))


def decode(data: bytes) -> dict[str, Any]:
    """What `encode` wrote, for tests and for who wants to look."""
    head = HEAD.unpack_from(data)
    at = HEAD.size
    count, = struct.unpack_from("<I", data, at)
    at += 4

    def values() -> npt.NDArray[np.int64]:
        nonlocal at
        it = np.frombuffer(data, "<u2", count, at).astype(np.int64)
        at += 2 * count
        return np.cumsum((it >> 1) ^ -(it & 1))

    u, v, h = values(), values(), values()
    kind, size = ("<u4", 4) if count > 65_536 else ("<u2", 2)
    at += -at % size
    triangles, = struct.unpack_from("<I", data, at)
    at += 4
    code = np.frombuffer(data, kind, 3 * triangles, at).astype(np.int64)
    at += size * 3 * triangles
    index = np.cumsum(code == 0) - (code == 0) - code
    edges = []
    for _ in range(4):
        n, = struct.unpack_from("<I", data, at)
        edges.append(np.frombuffer(data, kind, n, at + 4))
        at += 4 + size * n
    found = {"middle": head[:3], "low": head[3], "high": head[4], "sphere": head[5:9], "horizon": head[9:12],
             "u": u, "v": v, "height": head[3] + h / MOST * (head[4] - head[3]),
             "triangles": index.reshape(-1, 3), "edges": edges, "extensions": {}}
    while at < len(data):
        kind_, length = struct.unpack_from("<BI", data, at)
        found["extensions"][kind_] = data[at + 5:at + 5 + length]
        at += 5 + length
    return found


def tile_of(heights: Floats, bounds: Bounds, error: float, normals: bool = True) -> tuple[bytes, float, int]:
    """A tile of side x side heights over the ellipsoid, the northern row first: its bytes, its greatest error in metres,
    and its triangles."""
    side = heights.shape[0]
    x, y, drop = _on_plane(bounds, side)
    ground = heights - drop
    low = float(ground.min())
    unit = max(error / 40, (float(ground.max()) - low) / (MOST_HEIGHT - 1), 0.001)
    grid = np.rint((ground - low) / unit).astype(np.uint16)
    # A vertex moves by up to half a step of 1/32767 sideways; its height is that of its place before.
    slope = max(float(np.abs(np.diff(heights, axis=axis)).max()) for axis in (0, 1)) * (side - 1) / 2 / MOST
    rounding = unit / 2 + float(heights.max() - heights.min()) / MOST / 2
    with Engine(grid, 2) as engine:
        found = engine.fit(max(0.0, (error - rounding) / unit))
    column, row, _, triangles = grid_mesh(found.triangles, grid, side - 1, side - 1)
    at = row.astype(np.int64), column.astype(np.int64)
    up = None
    if normals:
        down, right = np.gradient(heights)
        up = _geocentric_normals(right[at] / (x[1] - x[0]), -down[at] / (y[1] - y[0]), bounds, column / (side - 1),
                                 row / (side - 1))
    u, v = (np.rint(part * MOST / (side - 1)).astype(np.int64) for part in (column, side - 1 - row))
    data = encode(u, v, heights[at].astype(np.float64), triangles, bounds, up)
    return data, float(found.deviation) * unit + rounding + slope, len(triangles)


def _on_plane(bounds: Bounds, side: int) -> tuple[Floats, Floats, Floats]:
    """Metres to the east and to the north of a tile's points about its middle, and by how much the ellipsoid lies below the
    plane that touches it there: with that taken off, flat sea is cut as often as the earth is round."""
    west, south, east, north = bounds
    middle = math.radians((south + north) / 2)
    radius = A / math.sqrt(1 - (1 - (B / A) ** 2) * math.sin(middle) ** 2)
    parts = np.arange(side) / (side - 1) - 0.5
    x, y = math.radians(east - west) * parts * radius * math.cos(middle), math.radians(north - south) * parts * radius
    return x, y, np.add.outer(y * y, x * x) / (2 * radius)


def _geocentric_normals(slope_east: Floats, slope_north: Floats, bounds: Bounds, right: Floats, down: Floats) -> Floats:
    """Normals of ground with these slopes, at parts of a tile's width and depth."""
    west, south, east, north = bounds
    lon, lat = np.radians(west + (east - west) * right), np.radians(north + (south - north) * down)
    local = np.column_stack((-slope_east, -slope_north, np.ones(len(slope_east))))
    local /= np.linalg.norm(local, axis=1, keepdims=True)
    to_east = np.column_stack((-np.sin(lon), np.cos(lon), np.zeros(len(lon))))
    to_north = np.column_stack((-np.sin(lat) * np.cos(lon), -np.sin(lat) * np.sin(lon), np.cos(lat)))
    up = np.column_stack((np.cos(lat) * np.cos(lon), np.cos(lat) * np.sin(lon), np.sin(lat)))
    found: Floats = local[:, :1] * to_east + local[:, 1:2] * to_north + local[:, 2:] * up
    return found


def terrain(raster: Raster, out: str, *, zoom: Optional[int] = None, side: int = 129, normals: bool = True,
            progress: Optional[Progress] = None) -> dict[str, Any]:
    """The pyramid out/z/x/y.terrain with layer.json, from zoom 0 to one as fine as the raster, each tile within the error
    that CesiumJS takes for its zoom.

    The raster is warped (bilinear, GDAL) to the geographic tiles, whose points are not its own: this resampling is not in
    any error.
    """
    import rasterio
    from rasterio.warp import transform_bounds
    told = {"tiles": 0, "triangles": 0, "bytes": 0}
    with rasterio.open(raster.path) as source:
        covered: Bounds = transform_bounds(source.crs, "EPSG:4326", *source.bounds)
        fine = (covered[3] - covered[1]) / source.height
        last = zoom if zoom is not None else max(0, math.ceil(math.log2(180 / (side - 1) / fine)))
        available = [_tiles_of_zoom(covered, at) for at in range(last + 1)]
        for at, (first_x, first_y, last_x, last_y) in enumerate(available):
            size = 180 / 2 ** at
            for x in range(first_x, last_x + 1):
                for y in range(first_y, last_y + 1):
                    bounds = x * size - 180, y * size - 90, (x + 1) * size - 180, (y + 1) * size - 90
                    heights = _warped(raster, source, covered, bounds, side)
                    data, _, triangles = tile_of(heights, bounds, FIRST_ERROR / 2 ** at, normals)
                    path = os.path.join(out, str(at), str(x % (2 << at)), f"{y}.terrain")  # beyond 180 degrees from -180 on
                    os.makedirs(os.path.dirname(path), exist_ok=True)
                    packed = gzip.compress(data, 6, mtime=0)
                    files.write_bytes(path, packed)
                    for name, more in (("tiles", 1), ("triangles", triangles), ("bytes", len(packed))):
                        told[name] += more
            if progress:
                progress(at + 1, last + 1)
    layer = {"tilejson": "2.1.0", "format": "quantized-mesh-1.0", "version": "1.0.0", "scheme": "tms",
             "projection": "EPSG:4326", "tiles": ["{z}/{x}/{y}.terrain"], "minzoom": 0, "maxzoom": last,
             "bounds": [-180, -90, 180, 90], "extensions": ["octvertexnormals"] if normals else [],
             "available": [[dict(zip(("startX", "startY", "endX", "endY"), ends)) for ends in _around(at, *found)]
                           for at, found in enumerate(available)]}
    files.write_bytes(os.path.join(out, "layer.json"), json.dumps(layer).encode())
    return told | {"zoom": last}


def _around(zoom: int, first_x: int, first_y: int, last_x: int, last_y: int) -> list[tuple[int, int, int, int]]:
    """The same by the tiles that there are around the earth: two parts beyond 180 degrees.

    >>> _around(2, 6, 1, 8, 2), _around(2, 1, 1, 3, 2)
    ([(6, 1, 7, 2), (0, 1, 0, 2)], [(1, 1, 3, 2)])
    """
    count = 2 << zoom
    if last_x < count and first_x >= 0:
        return [(first_x, first_y, last_x, last_y)]
    if last_x - first_x >= count:
        return [(0, first_y, count - 1, last_y)]
    first_x, last_x = first_x % count, last_x % count
    return [(first_x, first_y, last_x, last_y)] if first_x <= last_x else [
        (first_x, first_y, count - 1, last_y), (0, first_y, last_x, last_y)]


def _tiles_of_zoom(covered: Bounds, zoom: int) -> tuple[int, int, int, int]:
    """First x and y and last x and y of the tiles that meet these bounds; of zoom 0 both tiles are always asked for."""
    west, south, east, north = covered
    size = 180 / 2 ** zoom
    first_x, last_x = (int((it + 180) // size) for it in (west, east - 1e-9)) if zoom else (0, 1)
    return first_x, int((south + 90) // size), last_x, int((north - 1e-9 + 90) // size)


def _warped(raster: Raster, source: Any, covered: Bounds, bounds: Bounds, side: int) -> Floats:
    """The heights of a tile, 0 where the raster has none."""
    from rasterio.enums import Resampling
    from rasterio.transform import Affine
    from rasterio.vrt import WarpedVRT
    west, _, east, north = bounds
    step, heights = (east - west) / (side - 1), np.zeros((side, side))
    # Only what the raster covers is warped: a projection need not reach as far as a tile of a low zoom.
    left, right = max(0, math.floor((covered[0] - west) / step)), min(side, math.ceil((covered[2] - west) / step) + 1)
    top, low = max(0, math.floor((north - covered[3]) / step)), min(side, math.ceil((north - covered[1]) / step) + 1)
    if left < right and top < low:
        # The middle of a cell of the warped raster is a point of the tile.
        where = Affine(step, 0, west + (left - 0.5) * step, 0, -step, north - (top - 0.5) * step)
        with WarpedVRT(source, crs="EPSG:4326", transform=where, width=right - left, height=low - top, dtype="float32",
                       resampling=Resampling.bilinear, nodata=NO_HEIGHT, src_nodata=raster.nodata) as warped:
            found = warped.read(raster.band).astype(np.float64)
        heights[top:low, left:right] = np.where(found == NO_HEIGHT, 0.0, found * raster.factor + raster.offset)
    return heights

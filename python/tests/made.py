"""Inputs of the tests: hills, the files that hold them, and damaged tiles."""
import json
import struct

import numpy as np


def hills(rows, columns, seed=0, relief=300.0):
    """Waves of some lengths, a little noise, and a sea at 0.3 of the relief: float32."""
    rng = np.random.default_rng(seed)
    y, x = np.mgrid[0:rows, 0:columns] / max(rows, columns)
    found = np.zeros((rows, columns))
    for k in range(1, 7):
        for _ in range(3):
            a, b, c = rng.uniform(-4, 4, 3) * k
            found += np.sin(a * x + b * y + c) / k ** 1.3
    found = relief * (found - found.min()) / np.ptp(found) + rng.normal(0, relief / 300, found.shape)
    return np.maximum(found, relief * 0.3).astype(np.float32)


def write_tif(path, heights, crs="EPSG:32632", cell=30.0, x=500000.0, y=5000000.0, nodata=None, unit=None, scale=None,
              transform=None):
    """A GeoTIFF whose first cell has its upper left corner at (x, y)."""
    import rasterio
    from rasterio.transform import from_origin
    bands = heights.reshape(-1, *heights.shape[-2:])
    with rasterio.open(path, "w", driver="GTiff", width=heights.shape[-1], height=heights.shape[-2], count=len(bands),
                       dtype=heights.dtype, crs=crs, transform=transform or from_origin(x, y, cell, cell), nodata=nodata,
                       tiled=True, blockxsize=64, blockysize=64) as file:
        file.write(bands)
        if unit:
            file.units = (unit,) * len(bands)
        if scale:
            file.scales, file.offsets = (scale[0],) * len(bands), (scale[1],) * len(bands)
    return str(path)


def write_pgm(path, heights, most=65535, is_plain=False):
    """A PGM file with a comment in its head."""
    rows, columns = heights.shape
    head = f"P{2 if is_plain else 5}\n# made for a test\n{columns} {rows}\n{most}\n".encode()
    if is_plain:
        body = " ".join(map(str, heights.reshape(-1))).encode()
    else:
        body = heights.astype(">u2" if most > 255 else "u1").tobytes()
    path.write_bytes(head + body)
    return str(path)


def vertex_moved(path, change):
    """A GLB whose positions are changed."""
    data = bytearray(open(path, "rb").read())
    size, = struct.unpack_from("<I", data, 12)
    head = json.loads(data[20:20 + size])
    count = head["accessors"][0]["count"]
    points = np.frombuffer(data, "<f4", 3 * count, 28 + size).reshape(-1, 3).copy()
    change(points)
    data[28 + size:28 + size + points.nbytes] = points.tobytes()
    open(path, "wb").write(data)


def triangles_changed(path, change):
    """A GLB whose triangles are changed, as many as before."""
    data = bytearray(open(path, "rb").read())
    size, = struct.unpack_from("<I", data, 12)
    head = json.loads(data[20:20 + size])
    it = head["accessors"][-1]
    kind = {5123: "<u2", 5125: "<u4"}[it["componentType"]]
    at = 28 + size + head["bufferViews"][it["bufferView"]]["byteOffset"]
    triangles = np.frombuffer(data, kind, it["count"], at).reshape(-1, 3).copy()
    change(triangles)
    data[at:at + triangles.nbytes] = triangles.tobytes()
    open(path, "wb").write(data)

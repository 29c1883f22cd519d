"""Pictures over a mesh: PNG or JPEG as they are, and what GDAL reads with a place, warped to the array."""
from __future__ import annotations

import math
import os
import pathlib
from typing import Any

import numpy as np
import numpy.typing as npt

from ._types import Path, Transform
from .glb import PICTURES
from .mesh import Mesh
from .raster import opened

MOST_PIXELS = 4096  # a side: what viewers take
Bytes = npt.NDArray[np.uint8]


def texture_of(path: Path, mesh: Mesh) -> bytes:
    """The bytes of a PNG or a JPEG over the array of a mesh, from its first point to its last one.

    Raises:
        ValueError: the file is no picture, or lies elsewhere, and what mends it.
    """
    name = os.fspath(path)
    data = pathlib.Path(name).read_bytes()
    is_picture = any(data.startswith(begin) for begin in PICTURES)
    from rasterio.errors import RasterioIOError
    try:
        dataset = opened(name)
    except RasterioIOError as why:
        raise ValueError(f"texture: {why}") from None
    with dataset:
        if dataset.transform.is_identity:
            if not is_picture:
                raise ValueError(f"texture is {name}, which has no place and is no PNG and no JPEG")
            return data
        if dataset.crs is None or mesh.crs is None:
            raise ValueError(f"texture is {name}, which has a place, and it or the heights have no coordinate system")
        return _png(_laid(dataset, mesh))


def _laid(dataset: Any, mesh: Mesh) -> Bytes:
    """Shape (3, rows, columns): the picture over the array."""
    from rasterio.enums import ColorInterp, Resampling
    from rasterio.transform import Affine
    from rasterio.vrt import WarpedVRT
    if set(dataset.dtypes[:3]) != {"uint8"}:
        raise ValueError(f"texture is {dataset.name}, whose bands are {dataset.dtypes[0]}, and have to be bytes: "
                         "gdal_translate -ot Byte -scale")
    is_map = dataset.colorinterp[0] == ColorInterp.palette
    wide, high = _pixels(dataset, mesh)
    rows, columns = mesh.shape
    a, b, c, d, e, f = mesh.transform
    right, down = (columns - 1) / wide, (rows - 1) / high
    where: Transform = (a * right, b * down, c, d * right, e * down, f)
    how = Resampling.nearest if is_map else Resampling.bilinear
    with WarpedVRT(dataset, crs=mesh.crs, transform=Affine(*where), width=wide, height=high, resampling=how) as warped:
        bands: Bytes = warped.read(list(range(1, min(dataset.count, 3) + 1)))
    if is_map:
        colours = np.zeros((256, 3), np.uint8)
        for number, colour in dataset.colormap(1).items():
            colours[number] = colour[:3]
        return np.moveaxis(colours[bands[0]], 2, 0)
    return bands if len(bands) == 3 else np.repeat(bands[:1], 3, axis=0)


def _pixels(dataset: Any, mesh: Mesh) -> tuple[int, int]:
    """Columns and rows of a picture as fine as the file's part over the array."""
    from .systems import corners_of, flat_transformer
    assert mesh.crs is not None
    x, y = flat_transformer(mesh.crs, dataset.crs.to_wkt()).transform(*corners_of(mesh.transform, mesh.shape))
    at = np.column_stack([~dataset.transform * place for place in zip(x, y)])
    low, high = at.min(1), at.max(1)
    if (high <= 0).any() or (low >= (dataset.width, dataset.height)).any():
        raise ValueError(f"texture is {dataset.name}, which lies elsewhere than the heights")
    upper_left, upper_right, lower_left = at[:, 0], at[:, 1], at[:, 2]
    sides = (float(np.hypot(*(end - upper_left))) for end in (upper_right, lower_left))
    wide, tall = (min(MOST_PIXELS, max(2, math.ceil(side))) for side in sides)
    return wide, tall


def _png(bands: Bytes) -> bytes:
    from rasterio.io import MemoryFile
    with MemoryFile() as file:
        with file.open(driver="PNG", width=bands.shape[2], height=bands.shape[1], count=3, dtype="uint8") as picture:
            picture.write(bands)
        return bytes(file.read())

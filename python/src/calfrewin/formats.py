"""Heights that GDAL does not read, or not always: .npy, PGM raw and plain, .hgt of any side; and colours that are heights."""
from __future__ import annotations

import contextlib
import functools
import math
import os
import pathlib
import re
from typing import Any, Iterator, NamedTuple

import numpy as np
import numpy.typing as npt

Array = npt.NDArray[Any]
ENCODINGS = ("terrain-rgb", "terrarium")


class Unreadable(ValueError):
    """A file that cannot be read as heights, and what mends it."""


class Tile(NamedTuple):
    """What the name and the size of an .hgt file say."""
    side: int  #: points of a side
    west: float  #: degrees
    south: float


def stamp(path: str) -> tuple[int, int]:
    """What changes with a file: when it was written, and its size; of a URL nothing is known."""
    try:
        found = os.stat(path)
    except OSError:
        return 0, 0
    return found.st_mtime_ns, found.st_size


_MEMORY: dict[str, Array] = {}


@contextlib.contextmanager
def in_memory(array: Array) -> Iterator[str]:
    """A name under which an array is read as a file of the form `memory` is, in this process."""
    path = f"memory:{id(array)}"
    _MEMORY[path] = array
    try:
        yield path
    finally:
        del _MEMORY[path]


def array_of_file(path: str, form: str) -> Array:
    """rows x columns of numbers as they stand: read by pages where the form allows that."""
    if form == "memory":
        return _MEMORY[path]
    return _array(path, form, stamp(path))


@functools.lru_cache(maxsize=8)
def _array(path: str, form: str, stamp: tuple[int, int]) -> Array:
    return {"npy": _npy, "pgm": _pgm, "hgt": _hgt}[form](path)


def form_of(path: str) -> str:
    """Which reader takes a file: npy, pgm, hgt, or gdal, which takes all else."""
    kind = pathlib.PurePath(path).suffix.lower()
    if kind == ".npy":
        return "npy"
    if kind == ".hgt" and os.path.isfile(path):
        return "hgt"
    if os.path.isfile(path):
        with open(path, "rb") as file:
            if file.read(2) in (b"P5", b"P2"):
                return "pgm"
    return "gdal"


def _npy(path: str) -> Array:
    try:
        array: Array = np.load(path, mmap_mode="r")
    except ValueError as why:
        raise Unreadable(f"{path}: {why}") from None
    if array.ndim != 2 or array.dtype.kind not in "iuf":
        raise Unreadable(f"{path} has the shape {array.shape} of {array.dtype}, and has to have rows x columns of numbers")
    return array


def _pgm(path: str) -> Array:
    """The samples of a PGM file, raw (P5) or plain (P2); comments stand in the head alone."""
    with open(path, "rb") as file:
        begin = file.read(1 << 16)
    head = re.match(rb"P([25])" + 3 * rb"\s(?:\s|#[^\n]*\n)*(\d+)" + rb"\s", begin)
    if not head:
        raise Unreadable(f"{path} begins as a PGM file, and has no columns, rows and maxval")
    columns, rows, most = (int(head[k]) for k in (2, 3, 4))
    if not 0 < most <= 65_535:
        raise Unreadable(f"{path} has a maxval of {most}, and has to have one from 1 to 65535")
    if head[1] == b"5":
        kind = np.dtype(">u2" if most > 255 else "u1")
        there, wanted = os.path.getsize(path) - head.end(), rows * columns * kind.itemsize
        if there < wanted:
            raise Unreadable(f"{path} ends early: {there} bytes for {columns} x {rows} heights, and {wanted} are wanted")
        return np.memmap(path, kind, "r", head.end(), (rows, columns))
    text = pathlib.Path(path).read_bytes()[head.end():].split()
    try:
        numbers = np.array(text[:rows * columns], np.int64)
    except ValueError:
        raise Unreadable(f"{path} has something that is no number among its heights") from None
    if len(numbers) < rows * columns:
        raise Unreadable(f"{path} ends early: {len(numbers)} heights of {columns} x {rows}")
    return numbers.reshape(rows, columns)


def tile_of_name(path: str) -> Tile:
    """Where an .hgt file lies, by its name as N36W085.hgt, and its side."""
    name = re.match(r"([NS])(\d\d)([EW])(\d\d\d)", pathlib.PurePath(path).name.upper())
    side = math.isqrt(os.path.getsize(path) // 2)
    if not name or 2 * side * side != os.path.getsize(path) or side < 2:
        raise Unreadable(f"{path} is no SRTM tile: it has to be named as N36W085.hgt and to have side x side heights of two "
                         "bytes, 1201 or 3601 a side in most")
    south, west = int(name[2]), int(name[4])
    return Tile(side, -west if name[3] == "W" else west, -south if name[1] == "S" else south)


def _hgt(path: str) -> Array:
    side = tile_of_name(path).side
    return np.memmap(path, ">i2", "r", 0, (side, side))


def decoded(encoding: str, bands: Array) -> npt.NDArray[np.float64]:
    """Heights in metres of the red, green and blue of Mapbox's Terrain-RGB or Mapzen's Terrarium.

    >>> decoded("terrain-rgb", np.array([[[1]], [[134]], [[160]]])).tolist()
    [[0.0]]
    >>> decoded("terrarium", np.array([[[128]], [[7]], [[64]]])).tolist()
    [[7.25]]
    """
    red, green, blue = (band.astype(np.float64) for band in bands[:3])
    if encoding == "terrain-rgb":
        return np.asarray((red * 65_536 + green * 256 + blue - 100_000) / 10)
    return np.asarray(red * 256 + green + blue / 256 - 32_768)

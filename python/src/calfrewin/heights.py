"""From heights of any kind to a grid of whole numbers: holes filled, rounded to multiples of a unit, padded to a square."""
from __future__ import annotations

import math
from typing import Any, NamedTuple, Optional

import numpy as np
import numpy.typing as npt

from ._types import Fill, Flags, Floats
from .engine import MOST_HEIGHT

MOST_POINTS = 2049  # a side, of one mesh: what is larger is made of tiles
UNITS = tuple(float(f"{digit}e{power}") for power in range(-9, 0) for digit in (1, 2, 5)) + (1.0,)
NO_PART = 1e-9  # of a unit: what is off by less is a multiple, but for the last bits of a float
SMOOTH = "smooth"  # how points without a height are filled
NOTHING = (-9999.0, -32768.0, -32767.0, -99999.0)  # what stands for no height where nobody says so
LEAST = -3.4e38  # what is below it is no height, as ESRI has it
FINEST = 1e-9  # of the greatest height: finer units would be rounding of floats alone


class Rounded(NamedTuple):
    """Heights as whole numbers: a height is base + unit * number, but for the rounding."""
    numbers: npt.NDArray[np.uint16]
    unit: float
    base: float
    rounding: float  #: how far a height is from its rounded one, at most


def rounded(heights: npt.NDArray[Any], unit: Optional[float] = None) -> Rounded:
    """Heights as multiples of a unit over the least one.

    Args:
        heights: an array without holes.
        unit: without it 1 where all heights are whole, else the finest of 1, 2, 5 by powers of ten, to 1, that their
            range allows.

    >>> rounded(np.array([[10.5, 11.0]]), unit=0.5)
    Rounded(numbers=array([[0, 1]], dtype=uint16), unit=0.5, base=10.5, rounding=0.0)
    """
    low, high = float(heights.min()), float(heights.max())
    if not math.isfinite(high - low):
        raise ValueError(f"heights are from {low:g} to {high:g}, and have to be finite (NaN is filled, infinity is not)")
    if unit is None:
        unit = finest_unit(low, high, heights.dtype.kind in "iu" or bool((heights == np.rint(heights)).all()))
    elif not 0 < unit < math.inf:
        raise ValueError(f"unit is {unit!r}, and has to be above 0")
    elif not _fits(low, high, unit):
        raise ValueError(f"unit is {unit:g}, and has to be at least {_no_less((high - low) / (MOST_HEIGHT - 1))} "
                         f"for heights from {low:g} to {high:g}")
    base = base_of(low, unit)
    numbers, part = multiples(heights, unit, base)
    return Rounded(numbers, unit, base, part * unit if part > NO_PART else 0.0)


def multiples(heights: npt.NDArray[Any], unit: float, base: float) -> tuple[npt.NDArray[np.uint16], float]:
    """Heights as multiples of a unit over a base, rounded, and by what part of the unit at most."""
    exact = heights.astype(np.float64)
    exact -= base
    exact /= unit
    numbers = np.rint(exact)
    exact -= numbers
    return numbers.astype(np.uint16), max(float(exact.max()), -float(exact.min()))


def base_of(low: float, unit: float) -> float:
    """The height that is 0, of heights from `low` on."""
    # The 1e-6 keeps a least height that is a multiple but for its last bits from adding a step.
    return math.floor(low / unit + 1e-6) * unit


def finest_unit(low: float, high: float, is_whole: bool) -> float:
    """The finest unit for heights of this range: 1 where all are whole numbers."""
    if is_whole and high - low <= MOST_HEIGHT:
        return 1.0
    least = FINEST * max(abs(low), abs(high))
    fits = next((unit for unit in UNITS if unit >= least and _fits(low, high, unit)), None)
    if fits is None:
        raise ValueError(f"heights are from {low:g} to {high:g}, more than {MOST_HEIGHT} steps of 1: is a value among them that "
                         f"stands for none (nodata)? Otherwise give a unit of "
                         f"{_no_less((high - low) / (MOST_HEIGHT - 1))} or more")
    return fits


def _no_less(value: float) -> str:
    """Three digits of a number, rounded up, so that who gives them is not refused again.

    >>> _no_less(1.00002), _no_less(0.5)
    ('1.01', '0.5')
    """
    step = 10.0 ** (math.floor(math.log10(value)) - 2)
    return f"{math.ceil(value / step - 1e-9) * step:.3g}"


def _fits(low: float, high: float, unit: float) -> bool:
    """Whether heights of this range have no more steps of a unit than a grid holds, over the multiple that is 0."""
    return round((high - base_of(low, unit)) / unit) <= MOST_HEIGHT


class Filled(NamedTuple):
    """Heights with one at each point."""
    heights: npt.NDArray[Any]
    holes: int  #: how many points had none


def fill_of(fill: Fill) -> Fill:
    """What is said of points without a height, looked through.

    >>> fill_of("flat")
    Traceback (most recent call last):
    ValueError: fill is 'flat', and has to be a height or 'smooth'; without it points that have no height get no triangles
    """
    if fill is None or fill == SMOOTH:
        return fill
    if isinstance(fill, (str, bytes)) or not math.isfinite(fill):
        raise ValueError(f"fill is {fill!r}, and has to be a height or 'smooth'; without it points that have no height get no "
                         "triangles")
    return float(fill)


def alone(holes: Flags) -> int:
    """How many points without a height have one at each of the points around them, over which triangles go.

    >>> alone(np.array([[1, 0, 0, 0], [0, 0, 1, 1]], bool))
    1
    """
    wide = np.pad(holes, 1).astype(np.uint8)
    across = wide[:, :-2] + wide[:, 1:-1] + wide[:, 2:]
    return int((holes & (across[:-2] + across[1:-1] + across[2:] == 1)).sum())


def filled(heights: npt.NDArray[Any], holes: Flags, fill: Fill = None) -> Filled:
    """The heights with one at each point.

    Args:
        heights: rows x columns of numbers.
        holes: of the same shape, true where there is no height.
        fill: the height that holes get; without it they are filled smoothly from their edges.

    >>> filled(np.array([[1.0, np.nan, 3.0]]), np.array([[False, True, False]]), fill=2).heights.tolist()
    [[1.0, 2.0, 3.0]]
    """
    count = int(holes.sum())
    if count == holes.size:
        raise ValueError("heights: no point has one")
    if count == 0:
        return Filled(heights, 0)
    found = heights.copy()
    if fill is None or isinstance(fill, str):
        smooth = _from_edges(heights.astype(np.float64 if heights.dtype.kind == "f" else np.int64), holes)
        # What whole heights are filled with is whole, so that their unit stays 1.
        there = heights[~holes]
        found[holes] = np.rint(smooth) if heights.dtype.kind in "iu" or (there == np.rint(there)).all() else smooth
        return Filled(found, count)
    kept = np.dtype(heights.dtype)
    if kept.kind in "iu" and (fill != int(fill) or not np.iinfo(kept).min <= fill <= np.iinfo(kept).max):
        found = found.astype(np.float64)
    found[holes] = fill
    return Filled(found, count)


def _from_edges(heights: npt.NDArray[Any], holes: Flags) -> Floats:
    """Heights of the holes, from coarser and coarser means: each level has the mean of the heights in 2 x 2 points of the
    one below, and what has none there takes what lies between the means around it (push and pull, Gortler et al. 1996)."""
    sums, counts = _halved(np.where(holes, heights.dtype.type(0), heights)), _halved((~holes).astype(np.uint8))
    means = sums / np.maximum(counts, 1)
    if (counts == 0).any():
        means[counts == 0] = _from_edges(means, counts == 0)
    return _between(means, *np.nonzero(holes))


def _halved(values: npt.NDArray[Any]) -> npt.NDArray[Any]:
    """The sums of 2 x 2 points each; beyond an odd end there are none."""
    for _ in range(2):
        found = values[::2].copy()
        found[:len(values) // 2] += values[1::2]
        values = found.T
    return values


def _between(means: Floats, row: npt.NDArray[np.int64], column: npt.NDArray[np.int64]) -> Floats:
    """At points of the level below, what lies between the middles of the means around them (bilinear)."""
    rows, columns = means.shape
    i, j = row // 2, column // 2
    # Of the two points of a mean along an axis, the first lies towards the mean before, the second towards the one after.
    near_i, near_j = np.clip(i + row % 2 * 2 - 1, 0, rows - 1), np.clip(j + column % 2 * 2 - 1, 0, columns - 1)
    return np.asarray((9 * means[i, j] + 3 * means[near_i, j] + 3 * means[i, near_j] + means[near_i, near_j]) / 16)


def is_none(numbers: npt.NDArray[Any], nodata: Optional[float]) -> Flags:
    """Where numbers stand for no height: NaN, what is said, and the least float of 32 bits, of which ESRI's has some digits.

    >>> is_none(np.array([1, -9999, -3.40282306074e38, np.nan], np.float32), -9999).tolist()
    [False, True, True, True]
    """
    if numbers.dtype.kind != "f":
        found: Flags = np.zeros(numbers.shape, bool) if nodata is None or math.isnan(nodata) else numbers == nodata
        return found
    holes: Flags = np.isnan(numbers)
    if numbers.dtype.itemsize >= 4:
        holes |= (numbers <= LEAST) & (numbers > -np.inf)
    if nodata is not None and not math.isnan(nodata):
        with np.errstate(over="ignore"):
            holes |= numbers == numbers.dtype.type(nodata)
    return holes


def suspect(edge: npt.NDArray[Any], within: npt.NDArray[Any], numbers: tuple[float, ...]) -> Optional[str]:
    """A warning, where most points of the edge have a number that may stand for no height, and points within have others."""
    part, number = max((float((edge == it).mean()), it) for it in numbers)
    if part <= 0.5 or (within == number).all():
        return None
    return (f"{100 * part:.3g} % of the edge has the height {number:g}, which is taken as one: if it stands for none, "
            f"give --nodata {number:g} (in Python nodata={number:g})")


def rises(numbers: npt.NDArray[Any], row: npt.NDArray[np.int64], column: npt.NDArray[np.int64],
          unit: float) -> tuple[Floats, Floats]:
    """How much the ground rises by a step along columns and along rows at some points: central differences, at ends one-sided.

    >>> [it.tolist() for it in rises(np.array([[0, 4], [6, 8]], np.uint16), np.array([0]), np.array([1]), 0.5)]
    [[2.0], [2.0]]
    """
    last_row, last_column = (count - 1 for count in numbers.shape)
    left, right = np.maximum(column - 1, 0), np.minimum(column + 1, last_column)
    top, bottom = np.maximum(row - 1, 0), np.minimum(row + 1, last_row)
    east, west, south, north = (numbers[at].astype(np.int64) for at in (
        (row, right), (row, left), (bottom, column), (top, column)))
    return (east - west) / (right - left) * unit, (south - north) / (bottom - top) * unit


def side_of(shape: tuple[int, ...]) -> int:
    """The least side 2^n + 1 of a grid that holds rows x columns points.

    >>> side_of((100, 129)), side_of((2, 130))
    (129, 257)
    """
    if len(shape) != 2 or min(shape) < 2 or max(shape) > MOST_POINTS:
        raise ValueError(f"heights have the shape {shape}, and have to be rows x columns, 2 to {MOST_POINTS} of each: "
                         "every second point is heights[::2, ::2], and fit without globe takes more")
    return (1 << max(1, (max(shape) - 2).bit_length())) + 1


def padded(numbers: npt.NDArray[np.uint16], side: int) -> npt.NDArray[np.uint16]:
    """The numbers to the right and below repeated up to side x side points: the mesh is cut there afterwards."""
    rows, columns = numbers.shape
    if rows == columns == side:
        return numbers
    return np.pad(numbers, ((0, side - rows), (0, side - columns)), mode="edge")

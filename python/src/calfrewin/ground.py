"""A tile's heights as a grid for a fitter: less the drop of the earth below a plane, so that flat sea is cut as often as
the earth is round.

An error straight up or down is the same for heights that differ by a plane. So all tiles have one form of curvature, and
what they take for the ground differs by planes with whole slopes: a triangle has the same error in whichever tile and level
it lies. Where the earth bends too differently over the raster for that, each tile has its own form.
"""
from __future__ import annotations

import functools
import math
from fractions import Fraction
from typing import NamedTuple, Union

import numpy as np
import numpy.typing as npt

from ._types import Numbers
from .blocks import AT_ONCE, Multiples, Points
from .engine import MOST_HEIGHT, MOST_TOLERANCE
from .fitter import ANY
from .tileset import Plan


class Ground(NamedTuple):
    """What a fitter is given of a tile."""
    grid: npt.NDArray[np.uint16]
    unit: float  #: of its numbers, in metres: the plan's, or where the relief is too great for that a greater one
    rounding: float  #: how far the mesh is from that of the raster's heights at most, in metres

    def tolerance(self, error: float) -> int:
        """The tolerance in thousandths of the unit that is within an error in metres, with the rounding."""
        exact = _thousandths(error, self.rounding, self.unit)
        if exact < 0:
            raise ValueError(f"error is {error:g}, and has to be at least {self.rounding:.3g}, by which the heights of a tile "
                             "are rounded for their relief: give a greater one, or smaller tiles")
        return min(exact, MOST_TOLERANCE)

    def tolerances(self, error: float, points: Points) -> Union[float, Numbers]:
        """What a fitter takes: one tolerance, or one for each point where some do not count."""
        one = self.tolerance(error)
        if points.counts is None:
            return one / 1000
        return np.where(points.counts, np.uint32(one), np.uint32(ANY))


@functools.lru_cache(maxsize=256)
def _thousandths(error: float, rounding: float, unit: float) -> int:
    """An error less the rounding in thousandths of a unit, by the decimals that floats print as, so that 0.3 is three tenths."""
    return math.floor((Fraction(str(error)) - Fraction(str(rounding))) / Fraction(str(unit)) * 1000)


def ground_of(plan: Plan, level: int, row: int, column: int, points: Points) -> Ground:
    """The grid of the tile (row, column) of a level, of its points, side x side."""
    field, rounding = points.numbers, plan.rounding
    if plan.crs is not None:
        left_out = plan.left_out * 4 ** level
        if plan.form is not None and left_out <= plan.unit / 4 * 2 ** level:
            field = _drop(plan, plan.form, level, row, column)
            rounding += left_out
        else:
            field = _own_drop(plan, level, row, column)
        field += points.numbers
    low = field.min()
    high = int(field.max()) - int(low)
    if high < MOST_HEIGHT:
        return Ground(np.subtract(field, low, dtype=np.uint16, casting="unsafe"), plan.unit, rounding)
    field = field - low
    coarser = high / (MOST_HEIGHT - 1)
    unit = plan.unit * coarser
    return Ground(np.rint(field / coarser).astype(np.uint16), unit, rounding + unit)


def _own_drop(plan: Plan, level: int, row: int, column: int) -> Multiples:
    """The drop below the plane that touches the earth in the tile's middle, in whole units at each point."""
    step = float(1 << level)
    at = (np.arange(plan.steps + 1) - plan.steps / 2) * step
    earth = plan.curvature((column + 0.5) * plan.steps * step, (row + 0.5) * plan.steps * step, level)
    found: Multiples = np.rint(earth.drop(at[None, :], at[:, None]) / plan.unit).astype(np.int32)
    return found


def _drop(plan: Plan, form: tuple[float, float, float], level: int, row: int, column: int) -> Multiples:
    """The drop below the plane that touches the earth in the raster's middle, in whole units at each point, the same for all
    tiles, less a plane of whole slopes that takes most of it away."""
    rows, columns = plan.raster.shape
    x, y = ((at * plan.steps + np.arange(plan.steps + 1)) * float(1 << level) - (points - 1) / 2
            for at, points in ((column, columns), (row, rows)))
    cc, cr, rr = (it / plan.unit for it in form)
    both, by_column, by_row = cr * x, cc * x * x, rr * y * y
    found = np.empty((len(y), len(x)), np.int32)
    for begin in range(0, len(y), AT_ONCE):
        at = np.s_[begin:begin + AT_ONCE, None]
        exact = both * y[at]
        exact += by_column
        exact += by_row[at]
        found[begin:begin + AT_ONCE] = np.rint(exact, exact)
    last, half = plan.steps, plan.steps // 2
    across, down = (int(rise) // last for rise in (found[half, last] - found[half, 0], found[last, half] - found[0, half]))
    steps = np.arange(plan.steps + 1, dtype=np.int32)
    if across:
        found -= across * steps
    if down:
        found -= (down * steps)[:, None]
    return found

"""Heights of a raster by pages, for a `Pager`: rounded to one unit, with a height at each point of a square."""
from __future__ import annotations

import math
from typing import Any, Optional

import numpy as np
import numpy.typing as npt

from ._types import Floats
from .heights import MOST_POINTS, base_of, filled, finest_unit, multiples
from .mesh import coarser_unit, spacing_of
from .raster import Progress, Raster

Columns = npt.NDArray[np.int64]


class RasterPages:
    """Gives the heights of pages of a raster, as `Pager` asks for them.

    The raster lies at the far left of a square of 2^large + 1 points a side; what is beyond its last row and column has their
    heights. It is read once to its end here, for its range and for the few heights that coarse pages take, and later by the
    windows of fine pages. Points that have no height get one that lies between those of the coarse pages.

    Args:
        step: metres from a point to the next one that is taken.
        side: points of a page's side, 2^n + 1.
        every: one of so many points is taken, along rows and along columns.
    """

    def __init__(self, raster: Raster, step: float, *, side: int = 257, every: int = 1,
                 progress: Optional[Progress] = None) -> None:
        self.raster, self.side, self._every = raster, side, every
        self.rows, self.columns = ((count - 1) // every + 1 for count in raster.shape)  #: points that are taken
        longer = max(side - 1, self.rows - 1, self.columns - 1)
        self.large = (longer - 1).bit_length()
        self._finest = max(0, self.large - (MOST_POINTS - 1).bit_length() + 1)  # of the pages that are kept in memory
        low, high, coarse = self._read(progress)
        holes = np.isnan(coarse)
        self._coarse = filled(coarse, holes).heights
        self.unit = coarser_unit(finest_unit(low, high, raster.is_whole), step)
        self.base, self.spacing = base_of(low, self.unit), spacing_of(step, self.unit)
        self._numbers = self._rounded(self._coarse)

    def _rounded(self, heights: npt.NDArray[Any]) -> npt.NDArray[np.uint16]:
        return multiples(heights, self.unit, self.base)[0]

    def _taken(self, first: int, span: int, step: int, count: int) -> Columns:
        """Which rows, or columns, of the file are some of the square; `count` are taken of the file."""
        return np.minimum(np.arange(first, first + span + 1, step), count - 1) * self._every

    def _read(self, progress: Optional[Progress]) -> tuple[float, float, npt.NDArray[Any]]:
        """The range of all heights, and those of the finest resolution that is kept in memory."""
        low, high, step, span = math.nan, math.nan, 1 << self._finest, 1 << self.large
        rows, columns = self._taken(0, span, step, self.rows), self._taken(0, span, step, self.columns)
        strips = []
        for begin, heights in self.raster.strips(self.raster.window(), progress=progress):
            low, high = float(np.fmin(low, np.fmin.reduce(heights, None))), float(np.fmax(high, np.fmax.reduce(heights, None)))
            strips.append(heights[rows[(begin <= rows) & (rows < begin + len(heights))] - begin][:, columns])
        return low, high, np.concatenate(strips)

    def __call__(self, q: int, column: int, row: int) -> npt.NDArray[np.uint16]:
        """The heights of the page in a square, the far row first."""
        span, step = self.side - 1 << q, 1 << q
        top, left = (1 << self.large) - (row + 1) * span, column * span
        if q >= self._finest:
            k = self._finest
            return self._numbers[top >> k:(top + span >> k) + 1:step >> k, left >> k:(left + span >> k) + 1:step >> k]
        rows, columns = self._taken(top, span, step, self.rows), self._taken(left, span, step, self.columns)
        heights = self.raster.heights(rows[0], columns[0], rows[-1] - rows[0] + 1, columns[-1] - columns[0] + 1)
        heights = heights[rows - rows[0]][:, columns - columns[0]]
        holes = np.isnan(heights)
        if holes.any():
            heights = np.where(holes, self._between(np.arange(top, top + span + 1, step), np.arange(left, left + span + 1, step)),
                               heights)
        return self._rounded(heights)

    def _between(self, rows: Columns, columns: Columns) -> Floats:
        """What lies between the four heights in memory about a point (bilinear)."""
        (i, down), (j, right) = (self._cell(it) for it in (rows, columns))
        ends = self._coarse[i.min():i.max() + 2, j.min():j.max() + 2].astype(np.float64)
        i, j, down = i - i.min(), j - j.min(), down[:, None]
        upper, lower = (ends[it][:, j] * (1 - right) + ends[it][:, j + 1] * right for it in (i, i + 1))
        found: Floats = upper * (1 - down) + lower * down
        return found

    def _cell(self, at: Columns) -> tuple[Columns, Floats]:
        """Between which heights in memory points of the square lie, and how far from the first, in parts."""
        cell = np.minimum(at >> self._finest, (1 << self.large - self._finest) - 1)
        return cell, at / (1 << self._finest) - cell

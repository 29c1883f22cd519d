"""Names of types that several modules use."""
from __future__ import annotations

import os
from typing import Union

import numpy as np
import numpy.typing as npt

Floats = npt.NDArray[np.float64]
Numbers = npt.NDArray[np.uint32]
Flags = npt.NDArray[np.bool_]
Fill = Union[float, str, None]  #: the height of points without one; "smooth": from their edges; None: they are left out
Path = Union[str, "os.PathLike[str]"]
#: (a, b, c, d, e, f), from column and row of a point: x = a column + b row + c, y = d column + e row + f
Transform = tuple[float, float, float, float, float, float]

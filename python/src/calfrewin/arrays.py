"""What an xarray.DataArray says of its heights: place, coordinate system, the number that stands for none."""
from __future__ import annotations

from typing import Any, Optional

import numpy as np
import numpy.typing as npt

from ._types import Transform

EVEN = 1e-6  # of a step: so far the steps of coordinates may be off one another
# Names of dimensions, and what coordinates are told to be by the CF conventions.
ACROSS = ("x", "lon", "long", "longitude", "east", "easting", "projection_x_coordinate", "grid_longitude", "column")
DOWN = ("y", "lat", "latitude", "north", "northing", "projection_y_coordinate", "grid_latitude", "row")


def of_xarray(array: Any) -> tuple[npt.NDArray[Any], Optional[Transform], Optional[str], Optional[float]]:
    """Heights, transform, crs and nodata: by rioxarray where its accessor is there, otherwise by the two coordinates."""
    if not hasattr(array, "to_numpy"):
        names = ", ".join(map(str, array.data_vars))
        raise TypeError(f"heights are a Dataset of {names or 'no variable'}, and have to be one of its variables: "
                        f"heights[{str(next(iter(array.data_vars), 'name'))!r}]")
    array = array.squeeze()
    if array.ndim != 2:
        raise ValueError(f"heights have the dimensions {array.dims}, and have to have two: choose a band, heights.sel(band=1)")
    array = in_rows(array)
    transform: Optional[Transform] = None
    down, across = (array.coords.get(name) for name in array.dims)
    if down is not None and across is not None:
        x, y = (np.asarray(found, np.float64) for found in (across, down))
        for name, found in zip(reversed(array.dims), (x, y)):
            if len(found) > 2 and np.abs(np.diff(found, 2)).max() > EVEN * abs(found[1] - found[0]):
                raise ValueError(f"heights have a coordinate {name} whose steps are not even: "
                                 f"interpolate first, heights.interp({name}=..)")
        if len(x) > 1 and len(y) > 1:
            transform = ((x[-1] - x[0]) / (len(x) - 1), 0.0, float(x[0]), 0.0, (y[-1] - y[0]) / (len(y) - 1), float(y[0]))
    accessor = getattr(array, "rio", None)
    crs, nodata = None, None
    if accessor is not None:
        crs = accessor.crs.to_wkt() if accessor.crs else None
        nodata = accessor.nodata
    return array.to_numpy(), transform, crs, nodata


def in_rows(array: Any) -> Any:
    """The array with rows first, where the names of its dimensions, or what their coordinates say, tell that they are not."""
    first, second = (_axis(array, name) for name in array.dims)
    if first == "X" or second == "Y":
        if first == second or "Y" == first or "X" == second:
            raise ValueError(f"heights have the dimensions {array.dims}, of which both lie one way: rename them to y and x")
        return array.transpose(*reversed(array.dims))
    return array


def _axis(array: Any, name: Any) -> Optional[str]:
    """X or Y, where it is known along which a dimension goes."""
    said = array.coords[name].attrs if name in array.coords else {}
    if str(said.get("axis", "")).upper() in ("X", "Y"):
        return str(said["axis"]).upper()
    names = {str(name).lower(), str(said.get("standard_name", "")).lower()}
    return "X" if names & set(ACROSS) else "Y" if names & set(DOWN) else None

"""The view planes of a camera: what `Engine.look` takes, from where it stands, where it looks and how wide it sees.

It stands on the standard library alone: examples/frustum.py runs it as it lies here.
"""
from __future__ import annotations

import math
from typing import Sequence

__all__ = ["frustum", "pixel_threshold"]

Plane = tuple[int, int, int, int]


def frustum(eye: Sequence[int], direction: Sequence[float], degrees: float, width: float = 4, height: float = 3) -> list[Plane]:
    """The left, right, bottom and top plane of a view, each (a, b, c, d): a x + b y + c z + d >= 0 is inside.

    Args:
        eye: the camera's place, whole numbers in world units as `Engine.camera` takes them.
        direction: where it looks, of any length, but neither straight up nor straight down.
        degrees: the field of view from left to right, up to 170, as is the one from bottom to top that follows.
        width, height: the size of the picture, in any unit.

    All planes go through the eye; by rounding, what is d away from it is off by at most 0.00002 d.

    Raises:
        ValueError: names what is out of range.

    >>> frustum((2000, 2000, 1200), (3, 4, 0), 90)
    [(7, 1, 0, -16000), (-1, 7, 0, -12000), (9, 12, 20, -66000), (9, 12, -20, -18000)]
    """
    (x, y, z), (dx, dy, dz) = eye, direction
    if max(abs(x), abs(y), abs(z)) > 2 ** 30:
        raise ValueError(f"the camera is at {x} {y} {z}: each of X, Y and Z is to be from -1073741824 to 1073741824")
    if not math.isfinite(dx + dy + dz) or not dx and not dy:
        raise ValueError(f"the view goes to {dx:g} {dy:g} {dz:g}: one straight up, straight down or nowhere has no left and"
                         " right, so give DX or DY")
    if not 0 < degrees <= 170:
        raise ValueError(f"DEGREES is {degrees:g}: a number above 0 and up to 170 is wanted")
    across = math.tan(math.radians(degrees / 2))
    if not (0 < width < math.inf and 0 < height < math.inf and across * height / width <= math.tan(math.radians(85))):
        raise ValueError(f"WIDTH and HEIGHT are {width:g} and {height:g}: both are to be above 0, and the view from bottom to"
                         " top at most 170 degrees")
    flat, length = math.hypot(dx, dy), math.hypot(dx, dy, dz)
    forward, right = (dx / length, dy / length, dz / length), (dy / flat, -dx / flat, 0.0)
    up = (-dx * dz / flat / length, -dy * dz / flat / length, flat / length)
    planes = []
    for axis, reach in (right, across), (up, across * height / width):
        for sign in 1, -1:
            a, b, c = (round(50000 * (reach * f + sign * s)) for f, s in zip(forward, axis))
            common = math.gcd(a, b, c)
            a, b, c = a // common, b // common, c // common
            planes.append((a, b, c, -(a * x + b * y + c * z)))
    return planes


def pixel_threshold(pixels: float, degrees: float, rows: float) -> int:
    """The threshold of an error of so many pixels, for `Engine.threshold`.

    The picture of a height error is so high where it is in the middle of the picture, and seen from the side.

    Args:
        pixels: the error, above 0.
        degrees: the field of view from bottom to top, up to 170.
        rows: the height of the screen, in pixels.

    Raises:
        ValueError: names what is out of range.

    >>> pixel_threshold(1, 60, 1080)
    140
    """
    if not 0 < degrees <= 170:
        raise ValueError(f"degrees is {degrees:g}: a number above 0 and up to 170 is wanted")
    if not (0 < pixels < math.inf and 0 < rows < math.inf):
        raise ValueError(f"pixels and rows are {pixels:g} and {rows:g}: both are to be above 0")
    return min(int(262144 * pixels * math.tan(math.radians(degrees / 2)) / rows), 10 ** 15)

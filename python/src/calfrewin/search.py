"""The least error at which a terrain of any size has at most so many triangles."""
from __future__ import annotations

import math
import shutil
from dataclasses import replace
from fractions import Fraction
from typing import Any, Optional

from .engine import MOST_HEIGHT
from .rounds import Enough, Rounds, Tell, settle
from .tileset import Plan
from .workers import Workers

POWER = 0.73  # of the triangles, that errors go with, as seen on terrain
NEARER = 0.9944  # so that a guess is rather too low, and the error is between two that are near


def with_steps(plan: Plan, steps: int) -> Plan:
    """The plan with an error of so many thousandths of its unit, above what rounding takes."""
    exact = Fraction(str(plan.rounding)) + Fraction(str(plan.left_out)) + Fraction(steps, 1000) * Fraction(str(plan.unit))
    return replace(plan, error=float(exact))


def _between(low: int, high: int, part: float, guesses: bool) -> int:
    """The next error to try, in steps: every second time by how many of the triangles there are at `high`, which are some
    power of the error; else the middle on a scale of ratios.

    >>> _between(100, 10000, 0.5, True), _between(100, 10000, 0.5, False), _between(7, 9, 1.0, True)
    (5995, 1000, 8)
    """
    middle = math.isqrt(max(1, low) * high)
    if guesses:
        middle = round(high * part ** POWER * NEARER)
    return middle if low < middle < high else (low + high) // 2


def least_error(plan: Plan, workers: Workers, triangles: int, tell: Optional[Tell] = None) -> tuple[Plan, dict[str, Any]]:
    """The plan with the least error, in thousandths of its unit, at which all tiles have at most so many triangles; and what
    the search has tried.

    The meshes of a greater error have no more triangles. So it is between two errors that were fitted, a thousandth of a unit
    apart: it, and one that has more triangles. A try ends as soon as there are more, and the meshes of the error that is found
    stay for the tiles.

    Raises:
        ValueError: even at the greatest error there are more, since no mesh is coarser than the tiles.
    """
    tried: list[dict[str, Any]] = []

    def fitted(steps: int) -> Optional[Rounds]:
        it = with_steps(plan, steps)

        def told(done: int, total: int, text: str) -> None:
            if tell:
                tell(0, total, f"try {len(tried) + 1}, error {it.error:.6g}: {text}")

        try:
            found: Optional[Rounds] = settle(it, workers, told, triangles)
        except Enough:
            found = None
            shutil.rmtree(it.meshes, ignore_errors=True)
        tried.append({"error": it.error, "triangles": found.total() if found else None})
        return found

    low, high = -1, 1000 * MOST_HEIGHT  # more triangles than asked for at `low`, which no error is, and not at `high`
    steps, best = max(1, round((plan.error - plan.rounding) / plan.unit * 1000)), None
    while high - low > 1:
        found = fitted(steps)
        if found is None:
            low = steps
        else:
            if best is not None:
                shutil.rmtree(with_steps(plan, high).meshes, ignore_errors=True)
            high, best = steps, found
        if low < 0:
            steps = high // 4
        elif best is None:
            if low >= 1000 * MOST_HEIGHT - 1:
                break
            steps = min(4 * max(1, low), 1000 * MOST_HEIGHT - 1)
        else:
            steps = _between(low, high, best.total() / triangles, len(tried) % 2 == 0)
    if best is None:
        raise ValueError(f"triangles is {triangles}, and has to be more: no mesh is coarser than tiles of {plan.steps + 1} "
                         "points a side")
    return with_steps(plan, high), {"tried": tried}

"""A run's folder: one run at a time in it, and of one plan."""
from __future__ import annotations

import contextlib
import fcntl
import json
import os
import shutil
from typing import Iterator, Optional

from . import files
from .tileset import Plan


class Busy(OSError):
    """Another run writes into the same folder."""


class Other(OSError):
    """An earlier run of another plan has left something in the folder."""


@contextlib.contextmanager
def locked(plan: Plan, overwrite: bool, triangles: Optional[int] = None) -> Iterator[None]:
    """Holds the folder of a run, which ends with the process, however that ends.

    Args:
        overwrite: lets go of what an earlier run has left.
        triangles: what was asked for in the place of the plan's error.
    """
    os.makedirs(plan.out, exist_ok=True)
    with _lock(os.path.join(plan.out, ".calfrewin.lock")) as lock:
        digest = f"{plan.digest} {plan.depth} {triangles}"  # what is kept is kept by blocks
        path = os.path.join(plan.run, "plan.json")
        if overwrite:
            shutil.rmtree(plan.run, ignore_errors=True)
            # From here on nothing in the folder looks finished.
            with contextlib.suppress(FileNotFoundError):
                os.unlink(os.path.join(plan.out, "tileset.json"))
        elif os.path.exists(path):
            with open(path, encoding="utf-8") as file:
                if json.load(file)["plan"] != digest:
                    raise Other(f"{plan.out} has what a run with other options, or of another state of the raster, has left: "
                                "--overwrite begins anew")
        os.makedirs(plan.run, exist_ok=True)
        files.write_bytes(path, json.dumps({"plan": digest}).encode())
        yield
        if not os.path.exists(plan.run):
            os.unlink(lock)


@contextlib.contextmanager
def _lock(path: str) -> Iterator[str]:
    """Holds a lock that ends with the process."""
    while True:
        with open(path, "a", encoding="utf-8") as lock:
            try:
                fcntl.flock(lock, fcntl.LOCK_EX | fcntl.LOCK_NB)
            except BlockingIOError:
                raise Busy(f"{path}: another run is writing there") from None
            # The run that held it may have ended, and unlinked it, since it was opened.
            if os.path.exists(path) and os.path.samestat(os.fstat(lock.fileno()), os.stat(path)):
                yield path
                return

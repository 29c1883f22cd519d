"""Files that are whole or not there: written under another name in the same folder, and then renamed."""
from __future__ import annotations

import json
import os
import pathlib
import tempfile
from typing import Any, Callable

_UMASK = os.umask(0)
os.umask(_UMASK)


def whole_file(path: str, write: Callable[[str], None]) -> None:
    """Writes by `write(name)` beside `path`, and renames: whoever looks finds the old file, the new one, or none."""
    goal = os.path.realpath(path)
    if os.path.isdir(goal):
        raise IsADirectoryError(f"{path} is a folder, and a file is to be written")
    if os.path.exists(goal) and not os.path.isfile(goal):
        raise OSError(f"{path} is no regular file, so it cannot be replaced")
    folder, name = os.path.split(goal)
    handle, room = tempfile.mkstemp(dir=folder, prefix=".", suffix=pathlib.Path(name).suffix)
    os.close(handle)
    try:
        write(room)
        os.chmod(room, 0o666 & ~_UMASK)
        os.replace(room, goal)
    except BaseException:  # an interrupt, too, leaves nothing behind
        os.unlink(room)
        raise


def json_of(told: Any) -> bytes:
    """Lines of JSON, which has no infinity and no NaN: a ValueError."""
    return (json.dumps(told, indent=1, allow_nan=False) + "\n").encode()


def write_bytes(path: str, *data: Any) -> None:
    """Writes pieces of bytes, or arrays that are contiguous, one after the other."""
    def write(room: str) -> None:
        with open(room, "wb") as file:
            file.writelines(data)
    whole_file(path, write)


def move(path: str, goal: str) -> None:
    """Puts a file that is whole in the place of `goal`, on the same file system."""
    os.chmod(path, 0o666 & ~_UMASK)
    os.replace(path, os.path.realpath(goal))

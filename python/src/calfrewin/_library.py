"""libroam by ctypes: the structures and calls of roam.h. Each call lets go of the interpreter's lock."""
from __future__ import annotations

import ctypes
import os
import pathlib
import platform
import sys
from ctypes import POINTER, c_char_p, c_int32, c_int64, c_size_t, c_uint16, c_uint32, c_uint64, c_void_p
from typing import Any, Callable, Dict

__all__ = ["ChangesNote", "DeviationNote", "FitNote", "FrameNote", "Handle", "Plane", "RequiredNote", "StateNote", "TileNote",
           "WorldNote", "calls", "load", "path"]


class Handle(ctypes.Structure):
    _fields_ = [("mark", c_uint64), ("at", c_void_p)]


class FrameNote(ctypes.Structure):
    _fields_ = [("worst", c_uint64)] + [(name, c_uint32) for name in (
        "triangles", "vertices", "splits", "merges", "blocking", "need", "inside", "cut", "outside", "spare")]


class Plane(ctypes.Structure):
    _fields_ = [(name, c_int64) for name in "abcd"]


class ChangesNote(ctypes.Structure):
    _fields_ = [("gone", c_size_t), ("come", c_size_t)]


class DeviationNote(ctypes.Structure):
    _fields_ = [("off", c_uint64), ("over", c_uint64)]


class FitNote(ctypes.Structure):
    _fields_ = [("off", c_uint64), ("over", c_uint64), ("triangles", c_uint32), ("vertices", c_uint32)]


class StateNote(ctypes.Structure):
    _fields_ = [("side", c_size_t), ("way", c_uint64), ("evaluations", c_uint64), ("frames", c_uint32),
                ("most", c_uint32), ("budget", c_uint32), ("planes", c_uint32)]


class TileNote(ctypes.Structure):
    _fields_ = [(name, c_uint32) for name in ("column", "row", "waits", "spare")]


class RequiredNote(ctypes.Structure):
    _fields_ = [("count", c_size_t), ("lacks", c_uint32), ("spare", c_uint32)]


class WorldNote(ctypes.Structure):
    _fields_ = [("worst", c_uint64), ("evaluations", c_uint64)] + [(name, c_uint32) for name in (
        "triangles", "splits", "merges", "blocking", "need", "spare")]


_HANDLE, _COUNT, _ARRAY = POINTER(Handle), POINTER(c_size_t), c_void_p
_PLACE = [c_int64, c_int64, c_int64]
_LIST = [_HANDLE, _ARRAY, c_size_t, _COUNT]
_WITHIN = [c_uint32, _ARRAY, c_size_t, _ARRAY, c_size_t]  # a tolerance for all, those of points, required points
CALLS = {
    "open": [_HANDLE, _ARRAY, c_size_t, c_uint32, c_uint32],
    "close": [_HANDLE],
    "camera": [_HANDLE, *_PLACE],
    "add_plane": [_HANDLE, c_int64, c_int64, c_int64, c_int64],
    "clear_planes": [_HANDLE],
    "look": [_HANDLE, POINTER(Plane), c_size_t],
    "renew": [_HANDLE],
    "threshold": [_HANDLE, c_uint64],
    "budget": [_HANDLE, c_uint32],
    "set": [_HANDLE, c_uint32, c_uint32, c_uint16],
    "raise": [_HANDLE, c_uint32, c_uint32, c_uint32, c_uint32, c_int32],
    "frame": [_HANDLE, POINTER(FrameNote)],
    "indices": _LIST,
    "leaves": _LIST,
    "positions": _LIST,
    "compact": _LIST,
    "strip": _LIST,
    "deviation": [_HANDLE, POINTER(DeviationNote)],
    "fit": [_HANDLE, c_uint32, c_uint32, _ARRAY, c_size_t, POINTER(FitNote)],
    "certificate": [_HANDLE, *_PLACE, c_char_p, c_size_t, _COUNT],
    "changed": [_HANDLE, _ARRAY, c_size_t, _ARRAY, c_size_t, POINTER(ChangesNote)],
    "changes": [_ARRAY, c_size_t, _ARRAY, c_size_t, _ARRAY, c_size_t, _ARRAY, c_size_t, POINTER(ChangesNote)],
    "state": [_HANDLE, POINTER(StateNote)],
    "fitter_open": [_HANDLE, _ARRAY, c_size_t],
    "fitter_close": [_HANDLE],
    "fitter_fit": [_HANDLE, *_WITHIN, POINTER(c_uint32)],
    "fitter_more": [_HANDLE, *_WITHIN, POINTER(c_uint32)],
    "fitter_indices": _LIST,
    "fitter_leaves": _LIST,
    "fitter_border": _LIST,
    "fitter_deviation": [_HANDLE, POINTER(DeviationNote)],
    "fitter_restore": [_HANDLE, _ARRAY, c_size_t],
    "fit_with": [_ARRAY, c_size_t, *_WITHIN, _ARRAY, c_size_t, POINTER(FitNote)],
    "tin": [_ARRAY, c_size_t, c_uint32, c_uint32, _ARRAY, c_size_t, POINTER(FitNote)],
    "mosaic_open": [_HANDLE, c_uint32, c_uint32, c_uint32],
    "mosaic_close": [_HANDLE],
    "mosaic_next": [_HANDLE, POINTER(TileNote)],
    "mosaic_required": [_HANDLE, c_uint32, c_uint32, _ARRAY, c_size_t, POINTER(RequiredNote)],
    "mosaic_put": [_HANDLE, c_uint32, c_uint32, _ARRAY, c_size_t],
    "page_make": [_HANDLE, _ARRAY, c_size_t],
    "page_drop": [_HANDLE],
    "page_set_height": [_HANDLE, c_uint32, c_uint32, c_uint16],
    "page_raise": [_HANDLE, c_uint32, c_uint32, c_uint32, c_uint32, c_int32],
    "world_open": [_HANDLE, _HANDLE, c_uint32, c_uint32, c_uint32],
    "world_close": [_HANDLE],
    "world_load": [_HANDLE, c_uint32, c_uint32, c_uint32, _HANDLE],
    "world_unload": [_HANDLE, c_uint32, c_uint32, c_uint32, _HANDLE],
    "world_set_height": [_HANDLE, c_uint32, c_uint32, c_uint16],
    "world_raise": [_HANDLE, c_uint32, c_uint32, c_uint32, c_uint32, c_int32],
    "world_camera": [_HANDLE, *_PLACE],
    "world_look": [_HANDLE, POINTER(Plane), c_size_t],
    "world_threshold": [_HANDLE, c_uint64],
    "world_budget": [_HANDLE, c_uint32],
    "world_frame": [_HANDLE, POINTER(WorldNote)],
    "world_leaves": _LIST,
    "world_draws": [_HANDLE, _ARRAY, c_size_t, _COUNT, _ARRAY, c_size_t, _COUNT],
}
HERE = pathlib.Path(__file__).resolve().parent
NAME = {"win32": "roam.dll", "darwin": "libroam.dylib"}.get(sys.platform, "libroam.so")
PLACES = (
    HERE / NAME,  # of a wheel
    HERE.parents[2] / "lib/out/lib/libroam.so",  # of a clone, by lib/build
    HERE.parents[1] / "libroam.so",  # of an installation by lib/build PREFIX: PREFIX/lib/python/calfrewin
)


def _wants_v2() -> None:
    """Refuses a processor below x86-64-v2, for which the library is built: it would die of SIGILL, without a word."""
    if platform.machine() != "x86_64":
        return
    try:
        with open("/proc/cpuinfo") as file:
            flags = next(line for line in file if line.startswith("flags")).split()
    except (OSError, StopIteration):
        return
    lacks = sorted({"cx16", "lahf_lm", "popcnt", "sse4_1", "sse4_2", "ssse3"} - set(flags))
    if lacks:
        raise ImportError(f"calfrewin wants a processor of x86-64-v2 (2009 and later); this one lacks {', '.join(lacks)}")


def _found() -> str:
    """The library: as CALFREWIN_LIBRARY says, else in the places of a wheel, a clone, an installation, the system."""
    named = os.environ.get("CALFREWIN_LIBRARY")
    if named:
        return named
    return next((str(place) for place in PLACES if place.exists()), "libroam.so.1" if NAME == "libroam.so" else NAME)


def _load(found: str) -> dict[str, Any]:
    """The calls by their names, without roam_."""
    _wants_v2()
    try:
        loaded = ctypes.CDLL(found)
    except OSError as why:
        raise ImportError(f"{why}: build the library with lib/build, or name it in CALFREWIN_LIBRARY") from None
    calls = {}
    for name, types in CALLS.items():
        call = getattr(loaded, "roam_" + name, None)
        if call is None:
            raise ImportError(f"{found} has no roam_{name}: it is older than this package; lib/build makes it anew")
        call.argtypes, call.restype = types, None if name == "changes" else c_int32
        calls[name] = call
    return calls


class _Calls(Dict[str, Any]):
    """The calls by their names, without roam_. The first one loads the library, so that words, options and files are refused
    without it."""

    def __missing__(self, name: str) -> Any:
        load()
        return self[name]


def _do_nothing() -> None:
    pass


def load() -> None:
    """Loads the library, where that is not done: as the first call does."""
    global path
    if not calls:
        before_load()
        path = _found()
        calls.update(_load(path))


before_load: Callable[[], None] = _do_nothing  # in a clone: builds the library where that is due
path = _found()
calls = _Calls()

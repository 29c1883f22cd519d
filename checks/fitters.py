"""The fitters, mosaics, pages and worlds of the library for the tables of checks, by the words of roam.h alone."""
from __future__ import annotations

import ctypes
import dataclasses
import math
from collections.abc import Callable, Sequence
from pathlib import Path
from typing import Any, Optional

OK, BAD_GRID, OUTSIDE_GRID, NO_ROOM, IS_EMPTY, BAD_TOLERANCE, BAD_MESH, SHRUNK = 0, 2, 8, 11, 12, 13, 14, 15
BAD_CHANGE, BAD_PAGE, NOT_THERE = 9, 16, 17
UNCOUNTED = 0xFFFFFFFF  # the tolerance of a point that does not count


class Handle(ctypes.Structure):
    _fields_ = [("mark", ctypes.c_uint64), ("at", ctypes.c_void_p)]


class TileNote(ctypes.Structure):
    _fields_ = [(name, ctypes.c_uint32) for name in ("column", "row", "waits", "spare")]


class RequiredNote(ctypes.Structure):
    _fields_ = [("count", ctypes.c_size_t), ("lacks", ctypes.c_uint32), ("spare", ctypes.c_uint32)]


class DeviationNote(ctypes.Structure):
    _fields_ = [("off", ctypes.c_uint64), ("over", ctypes.c_uint64)]


class FitNote(ctypes.Structure):
    _fields_ = [("off", ctypes.c_uint64), ("over", ctypes.c_uint64), ("triangles", ctypes.c_uint32),
                ("vertices", ctypes.c_uint32)]


class WorldNote(ctypes.Structure):
    _fields_ = [("worst", ctypes.c_uint64), ("evaluations", ctypes.c_uint64)] + [
        (name, ctypes.c_uint32) for name in ("triangles", "splits", "merges", "blocking", "need", "spare")]


class Plane(ctypes.Structure):
    _fields_ = [(name, ctypes.c_int64) for name in "abcd"]


HANDLE, SIZE, WORD = ctypes.POINTER(Handle), ctypes.c_size_t, ctypes.c_uint32
HEIGHTS, WORDS, COUNT = ctypes.POINTER(ctypes.c_uint16), ctypes.POINTER(WORD), ctypes.POINTER(SIZE)
LIST, FIT, SQUARE = (HANDLE, WORDS, SIZE, COUNT), (WORD, WORDS, SIZE, WORDS, SIZE), (WORD, WORD, WORD)
SET, RAISE = (WORD, WORD, ctypes.c_uint16), (WORD, WORD, WORD, WORD, ctypes.c_int32)
CALLS = {
    "fitter_open": (HANDLE, HEIGHTS, SIZE), "fitter_close": (HANDLE,), "fitter_fit": (HANDLE, *FIT, WORDS),
    "fitter_more": (HANDLE, *FIT, WORDS), "fitter_indices": LIST, "fitter_leaves": LIST, "fitter_border": LIST,
    "fitter_deviation": (HANDLE, ctypes.POINTER(DeviationNote)), "fitter_restore": (HANDLE, WORDS, SIZE),
    "fit_with": (HEIGHTS, SIZE, *FIT, WORDS, SIZE, ctypes.POINTER(FitNote)),
    "tin": (HEIGHTS, SIZE, WORD, WORD, WORDS, SIZE, ctypes.POINTER(FitNote)),
    "mosaic_open": (HANDLE, WORD, WORD, WORD), "mosaic_close": (HANDLE,),
    "mosaic_next": (HANDLE, ctypes.POINTER(TileNote)), "mosaic_put": (HANDLE, WORD, WORD, WORDS, SIZE),
    "mosaic_required": (HANDLE, WORD, WORD, WORDS, SIZE, ctypes.POINTER(RequiredNote)),
    "page_make": (HANDLE, HEIGHTS, SIZE), "page_drop": (HANDLE,),
    "page_set_height": (HANDLE, *SET), "page_raise": (HANDLE, *RAISE),
    "world_set_height": (HANDLE, *SET), "world_raise": (HANDLE, *RAISE),
    "world_open": (HANDLE, HANDLE, WORD, WORD, WORD), "world_close": (HANDLE,),
    "world_load": (HANDLE, *SQUARE, HANDLE), "world_unload": (HANDLE, *SQUARE, HANDLE),
    "world_camera": (HANDLE, *3 * (ctypes.c_int64,)), "world_look": (HANDLE, ctypes.POINTER(Plane), SIZE),
    "world_threshold": (HANDLE, ctypes.c_uint64), "world_budget": (HANDLE, WORD),
    "world_frame": (HANDLE, ctypes.POINTER(WorldNote)), "world_leaves": LIST,
}


class Refused(Exception):
    """What a call answered that was not ROAM_OK."""

    def __init__(self, call: str, answer: int) -> None:
        super().__init__(f"roam_{call} answers {answer}")
        self.answer = answer


def lying(kind: Any, method: str, lie: Callable[[Any], Any]) -> Any:
    """A class like this one, one of whose methods tells a lie in the place of what it has found: a comparison has to see it."""
    def told(self: Any, *words: Any) -> Any:
        return lie(getattr(kind, method)(self, *words))
    return type(f"Lying{kind.__name__}", (kind,), {method: told})


def one_more(name: str) -> Callable[[Any], Any]:
    """The lie of a note in which one number is too great by 1."""
    def lie(note: Any) -> Any:
        setattr(note, name, getattr(note, name) + 1)
        return note
    return lie


def exchanged(found: list[Any]) -> list[Any]:
    """The lie of a list whose first and last items have changed places."""
    return [*found[-1:], *found[1:-1], *found[:1]] if len(found) > 1 else found


def refusal(_: Any) -> Any:
    """The lie of a call that is refused."""
    raise Refused("nothing", NO_ROOM)


class Library:
    """The library under the prefix of `lib/build PREFIX`."""

    def __init__(self, prefix: Path) -> None:
        self.library = ctypes.CDLL(str(prefix / "lib/libroam.so"))
        for name, arguments in CALLS.items():
            getattr(self.library, f"roam_{name}").argtypes = arguments

    def call(self, name: str, *arguments: Any) -> None:
        answer = getattr(self.library, f"roam_{name}")(*arguments)
        if answer != OK:
            raise Refused(name, answer)


def words(items: Sequence[int], kind: Any = WORD) -> Any:
    """An array, never without a place."""
    return (kind * max(len(items), 1))(*items)


@dataclasses.dataclass
class Request:
    """A tolerance for all points, in thousandths, or one for each; and the places that have to be vertices."""
    thousandths: int = 0
    tolerances: Sequence[int] = ()
    required: Sequence[int] = ()

    def arguments(self) -> tuple[Any, ...]:
        own, places = self.tolerances, self.required
        return self.thousandths, words(own), len(own), words(places), len(places)


class Fitter:
    """A fitter over heights, rows from the far side to the near one."""

    def __init__(self, library: Library, heights: Sequence[int]) -> None:
        self.library, self.handle, self.triangles = library, Handle(), 2
        library.call("fitter_open", self.handle, words(heights, ctypes.c_uint16), len(heights))
        self.side = math.isqrt(len(heights))

    def close(self) -> None:
        self.library.call("fitter_close", self.handle)

    def fit(self, request: Request, call: str = "fitter_fit") -> int:
        count = WORD()
        self.library.call(call, self.handle, *request.arguments(), count)
        self.triangles = count.value
        return count.value

    def more(self, request: Request) -> int:
        return self.fit(request, "fitter_more")

    def listed(self, call: str, each: int, places: int) -> list[int]:
        out, count = (WORD * places)(), SIZE()
        self.library.call(call, self.handle, out, places, count)
        return list(out)[:each * count.value]

    def indices(self) -> list[int]:
        return self.listed("fitter_indices", 3, 3 * self.triangles)

    def leaves(self) -> list[int]:
        return self.listed("fitter_leaves", 1, self.triangles)

    def border(self) -> list[int]:
        return self.listed("fitter_border", 1, 4 * (self.side - 2))

    def deviation(self) -> tuple[int, int]:
        note = DeviationNote()
        self.library.call("fitter_deviation", self.handle, note)
        return note.off, note.over

    def restore(self, leaves: Sequence[int]) -> None:
        self.library.call("fitter_restore", self.handle, words(leaves), len(leaves))
        self.triangles = len(leaves)


def fit_with(library: Library, heights: Sequence[int], request: Request) -> tuple[list[int], FitNote]:
    """The indices of the mesh and its note, by the one call for all."""
    out, note = (WORD * (6 * len(heights)))(), FitNote()
    own = words(heights, ctypes.c_uint16)
    library.call("fit_with", own, len(heights), *request.arguments(), out, len(out), note)
    return list(out)[:3 * note.triangles], note


class Mosaic:
    """The rounds of columns x rows tiles of so many points a side."""

    def __init__(self, library: Library, columns: int, rows: int, side: int) -> None:
        self.library, self.handle, self.side = library, Handle(), side
        library.call("mosaic_open", self.handle, columns, rows, side)

    def close(self) -> None:
        self.library.call("mosaic_close", self.handle)

    def next(self) -> Optional[tuple[int, int]]:
        note = TileNote()
        self.library.call("mosaic_next", self.handle, note)
        return (note.column, note.row) if note.waits else None

    def required(self, tile: tuple[int, int]) -> tuple[list[int], bool]:
        out, note = (WORD * (4 * (self.side - 1)))(), RequiredNote()
        self.library.call("mosaic_required", self.handle, *tile, out, len(out), note)
        return list(out)[:note.count], bool(note.lacks)

    def put(self, tile: tuple[int, int], border: Sequence[int]) -> None:
        self.library.call("mosaic_put", self.handle, *tile, words(border), len(border))


class Page:
    """A page over heights, rows from the far side to the near one; once a world has taken it, it is empty."""

    def __init__(self, library: Library, heights: Sequence[int]) -> None:
        self.library, self.handle = library, Handle()
        library.call("page_make", self.handle, words(heights, ctypes.c_uint16), len(heights))

    def drop(self) -> None:
        self.library.call("page_drop", self.handle)

    def set_height(self, x: int, y: int, height: int) -> None:
        self.library.call("page_set_height", self.handle, x, y, height)

    def raise_area(self, area: tuple[int, int, int, int], dz: int) -> None:
        self.library.call("page_raise", self.handle, *area, dz)


class World:
    """A world of a terrain of 2^large grid steps a side, over its coarsest page."""

    def __init__(self, library: Library, coarsest: Page, large: int, budget: int, spacing: int) -> None:
        self.library, self.handle, self.triangles = library, Handle(), 2
        library.call("world_open", self.handle, coarsest.handle, large, budget, spacing)

    def close(self) -> None:
        self.library.call("world_close", self.handle)

    def load(self, square: tuple[int, int, int], page: Page) -> None:
        self.library.call("world_load", self.handle, *square, page.handle)

    def unload(self, square: tuple[int, int, int], page: Page) -> None:
        self.library.call("world_unload", self.handle, *square, page.handle)

    def set_height(self, x: int, y: int, height: int) -> None:
        self.library.call("world_set_height", self.handle, x, y, height)

    def raise_area(self, area: tuple[int, int, int, int], dz: int) -> None:
        self.library.call("world_raise", self.handle, *area, dz)

    def camera(self, at: tuple[int, int, int]) -> None:
        self.library.call("world_camera", self.handle, *at)

    def look(self, planes: Sequence[tuple[int, int, int, int]]) -> None:
        self.library.call("world_look", self.handle, words([Plane(*it) for it in planes], Plane), len(planes))

    def threshold(self, ratio: int) -> None:
        self.library.call("world_threshold", self.handle, ratio)

    def budget(self, triangles: int) -> None:
        self.library.call("world_budget", self.handle, triangles)

    def frame(self) -> WorldNote:
        note = WorldNote()
        self.library.call("world_frame", self.handle, note)
        self.triangles = note.triangles
        return note

    def leaves(self) -> list[int]:
        out, count = (WORD * self.triangles)(), SIZE()
        self.library.call("world_leaves", self.handle, out, self.triangles, count)
        return list(out)[:count.value]

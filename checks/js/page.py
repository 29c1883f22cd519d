"""The page of examples/web in a headless Chromium, served as files: a line 'ok NAME' or 'FAILED NAME: why' a check.

usage: python3 checks/js/page.py TOP CHROMIUM PICTURES SAME
  TOP       a copy of js/ with its module, of examples/web, examples/jacksboro and checks/js
  PICTURES  a folder for what was seen
  SAME      the lines that the native program of same.c has written
CALFREWIN_LIBRARY names the native library, which flies the same way."""
from __future__ import annotations

import functools
import http.server
import json
import pathlib
import struct
import sys
import tempfile
import threading
import zlib

TOP = pathlib.Path(__file__).resolve().parents[2]
sys.path[:0] = [str(TOP / "checks"), str(TOP / "python/src")]
import viewer  # noqa: E402

FRAMES, AT_ONCE = 300, 50
BACKGROUND = (221, 230, 238)


class Files(http.server.SimpleHTTPRequestHandler):
    def do_GET(self) -> None:
        if self.path == "/favicon.ico":  # which browsers ask for
            self.send_response(204)
            self.end_headers()
        else:
            super().do_GET()

    def log_message(self, *_words: object) -> None:
        pass


def served(top: pathlib.Path) -> http.server.ThreadingHTTPServer:
    server = http.server.ThreadingHTTPServer(("127.0.0.1", 0), functools.partial(Files, directory=str(top)))
    threading.Thread(target=server.serve_forever, daemon=True).start()
    return server


def geotiff(side: int, heights: list[int], deflated: bool) -> bytes:
    """A GeoTIFF of 16 bits in one strip, with differences where it is deflated."""
    rows = []
    for y in range(side):
        row = heights[y * side:(y + 1) * side]
        rows.append([row[0]] + [(b - a) % 65536 for a, b in zip(row, row[1:])] if deflated else row)
    data = b"".join(struct.pack(f"<{side}H", *row) for row in rows)
    data = zlib.compress(data) if deflated else data
    nodata = b"0\0\0\0"
    tags = [(256, 4, 1, side), (257, 4, 1, side), (258, 3, 1, 16), (259, 3, 1, 8 if deflated else 1), (273, 4, 1, 0),
            (277, 3, 1, 1), (278, 4, 1, side), (279, 4, 1, len(data)), (317, 3, 1, 2 if deflated else 1), (339, 3, 1, 1),
            (33550, 12, 3, 0), (42113, 2, 2, int.from_bytes(nodata, "little"))]
    at = 8 + 2 + 12 * len(tags) + 4
    places = {33550: at, 273: at + 24}
    body = b"".join(struct.pack("<HHII", tag, kind, count, places.get(tag, value)) for tag, kind, count, value in tags)
    return struct.pack("<2sHIH", b"II", 42, 8, len(tags)) + body + bytes(4) + struct.pack("<3d", 25, 25, 0) + data


def drop(browser: viewer.Browser, path: pathlib.Path) -> None:
    data = {"items": [], "files": [str(path)], "dragOperationsMask": 1}
    for kind in ("dragEnter", "dragOver", "drop"):
        browser.call("Input.dispatchDragEvent", type=kind, x=600, y=400, data=data)


def told_of(browser: viewer.Browser, text: str) -> str:
    browser.wait(f"document.getElementById('told').value.includes({json.dumps(text)})", 90)
    return str(browser.value("document.getElementById('told').value"))


def drawn(browser: viewer.Browser, path: pathlib.Path) -> float:
    """The part of the picture's right half that is not background."""
    png = browser.picture()
    path.write_bytes(png)
    rows = viewer.pixels(png)
    half = [it for row in rows for it in row[len(row) // 2:]]
    return sum(tuple(it[:3]) != BACKGROUND for it in half) / len(half)


def same_flight(told: dict[str, object], heights: list[int], side: int) -> list[str]:
    """The flight by the native library; why the indices differ."""
    import numpy as np

    import calfrewin
    total = 2166136261
    with calfrewin.Engine(heights, int(str(told["budget"])), spacing=int(str(told["spacing"]))) as engine:
        for step in told["places"]:  # type: ignore
            engine.camera(*step["place"])
            engine.look([tuple(it) for it in step["planes"]])
            engine.frame()
            found = engine.indices().reshape(-1).astype(np.uint64)
            of_frame = int((found * (2 * np.arange(len(found), dtype=np.uint64) + 1)).sum()) & 0xFFFFFFFF
            total = (total ^ of_frame) * 16777619 & 0xFFFFFFFF
    return [] if total == told["sum"] else [f"{total} natively, {told['sum']} in the page"]


def check_others(browser: viewer.Browser, address: str) -> None:
    """The page of docs/JAVASCRIPT.md, and those of examples/javascript."""
    for name, path, seen, text in (
            ("page_of_the_docs", "first.html", "document.title", "4 triangles"),
            ("page_fits_in_a_worker", "examples/javascript/worker.html", "document.getElementById('told').textContent", "off by"),
            ("page_flies_in_three_js", "examples/javascript/three.html", "document.title", " triangles")):
        browser.call("Page.navigate", url=address + path)
        browser.wait(f"String({seen}).includes({json.dumps(text)})", 60)
        found = str(browser.value(seen))
        viewer.decide(name, [] if text in found else [found])


def check(top: pathlib.Path, chromium: str, pictures: pathlib.Path, same: list[str]) -> None:
    server = served(top)
    pgm = (top / "examples/jacksboro/grid.pgm").read_bytes()
    side = 257
    heights = list(struct.unpack(f">{side * side}H", pgm[-2 * side * side:]))
    with tempfile.TemporaryDirectory() as profile:
        browser = viewer.Browser(chromium, profile)
        try:
            address = f"http://127.0.0.1:{server.server_address[1]}/"
            browser.call("Page.navigate", url=address + "examples/web/")
            told = told_of(browser, "triangles, off")
            viewer.decide("page_fits_the_example", [] if "21,988 triangles, off by at most 20.00" in told else [told])
            part = drawn(browser, pictures / "example.png")
            viewer.decide("page_draws_the_mesh", [] if part > 0.2 else [f"{part:.2f} of the picture is drawn"])
            browser.value("document.getElementById('wire').click()")
            drawn(browser, pictures / "edges.png")
            for name, deflated in (("plain", False), ("deflated", True)):
                path = pathlib.Path(profile) / f"{name}.tif"
                path.write_bytes(geotiff(129, [heights[y * side + x] for y in range(129) for x in range(129)], deflated))
                drop(browser, path)
                found = told_of(browser, f"{name}.tif: 129 x 129")
                spacing = browser.value("document.getElementById('spacing').value")
                viewer.decide(f"page_takes_a_dropped_geotiff_{name}",
                              [] if "triangles, off by at most" in found and spacing == "25" else [found, spacing])
            path.write_bytes(b"II*\0damaged")
            drop(browser, path)
            found = told_of(browser, "cannot be read")
            viewer.decide("page_says_why_a_file_is_no_grid", [] if "deflated.tif cannot be read" in found else [found])
            path = top / "examples/jacksboro/grid.pgm"
            drop(browser, path)
            told_of(browser, "grid.pgm: 257")
            flight = None
            for _ in range(FRAMES // AT_ONCE):  # an answer of the browser is awaited for two minutes
                flight = browser.value(f"flown({AT_ONCE})")
            viewer.decide("page_flies_as_the_native_engine", same_flight(flight, heights, side) if flight else ["no flight"])
            part = drawn(browser, pictures / "flight.png")
            viewer.decide("page_draws_the_flight", [] if part > 0.2 else [f"{part:.2f} of the picture is drawn"])
            lines = browser.call("Runtime.evaluate", awaitPromise=True, returnByValue=True, expression=(
                f"import('/checks/js/same.js').then((it) => it.linesOf(1, {len(same)}))"))["result"].get("value")
            viewer.decide("page_answers_as_natively", [] if lines == same else [f"{lines}"[:200]])
            check_others(browser, address)
            viewer.decide("page_reports_no_fault", browser.wrong)
        finally:
            browser.close()
            server.shutdown()


if __name__ == "__main__":
    place, browser_, seen, file = sys.argv[1:5]
    check(pathlib.Path(place), browser_, pathlib.Path(seen), pathlib.Path(file).read_text(encoding="ascii").splitlines())

"""A flight over a raster in the browser: each frame is the engine's mesh for the camera of that moment.

`calfrewin fly IN` serves the page in viewer/ on 127.0.0.1 and opens the browser there; it ends at an interrupt (Ctrl-C).
The page asks by POST, with whole numbers of 64 bits, lowest byte first:

    /ground   the edits that the page knows, or -1; the answer is GROUND_HEAD, PAGE_HEAD for each page of the ground, and the
              heights of those that were changed by a later edit, 16 bits each
    /frame    budget, threshold, x, y, z, then a, b, c, d of each plane; the answer is FRAME_HEAD, then a name a triangle,
              32 bits each
    /raise    x, y, radius, dz: a hill of nested squares about a grid point, or a hole where dz is negative
"""
from __future__ import annotations

import http.server
import math
import pathlib
import re
import struct
import sys
import time
import webbrowser
from typing import Any, Callable, Optional, Sequence

import click

from .command import by_rows, numbers, stage
from .flight import Flight, GridFlight, WorldFlight
from .heights import MOST_POINTS

VIEWER = pathlib.Path(__file__).resolve().parent / "viewer"
PAGES = {"/": ("page.html", "text/html; charset=utf-8"), "/fly.js": ("fly.js", "text/javascript; charset=utf-8")}
MOST_BODY = 8 * 29
MOST_STEPS = 1 << 14  # a side, of a world's terrain


class Handler(http.server.BaseHTTPRequestHandler):
    """Pages by GET, all else by POST with whole numbers of 64 bits. Wrong ones get 4xx and a line."""
    protocol_version, disable_nagle_algorithm, timeout = "HTTP/1.1", True, 60
    server: Server

    def answer(self, status: int, body: bytes, kind: str = "text/plain; charset=utf-8", spent: float = 0.0) -> None:
        self.send_response_only(status)
        for name, value in {"Content-Type": kind, "Content-Length": len(body), "Cache-Control": "no-store",
                            "Server-Timing": f"engine;dur={1000 * spent:.3f}"}.items():
            self.send_header(name, str(value))
        self.end_headers()
        self.wfile.write(body)

    def own(self) -> bool:
        """Whether it is our page that asks, and no other site that reaches for this machine by a name of its own."""
        here = {f"{name}:{self.server.server_port}" for name in ("127.0.0.1", "localhost")}
        origin = self.headers.get("Origin")
        return self.headers.get("Host") in here and (origin is None or origin.partition("://")[2] in here)

    def do_GET(self) -> None:
        page = PAGES.get(self.path.partition("?")[0])
        if not self.own():
            self.answer(403, b"this server answers its own page alone\n")
        elif page:
            self.answer(200, (VIEWER / page[0]).read_bytes(), page[1])
        else:
            self.answer(404, b"there is /, /fly.js, and by POST /ground, /frame, /raise\n")

    def do_POST(self) -> None:
        flight = self.server.flight
        calls: dict[str, Callable[[Sequence[int]], bytes]] = {
            "/frame": flight.frame, "/raise": flight.lift, "/ground": flight.ground}
        length = self.headers.get("Content-Length", "")
        size = int(length) if re.fullmatch("[0-9]{1,9}", length) else -1
        if not 0 <= size <= MOST_BODY or not self.own() or self.path not in calls:
            self.close_connection = True  # what follows is not read
            self.answer(*((403, b"not our page\n") if not self.own() else (404, b"no such call\n")
                          if self.path not in calls else (413, b"a body has at most 232 bytes, and a Content-Length\n")))
            return
        body = self.rfile.read(size)
        try:
            if len(body) % 8:
                raise ValueError(f"the body has {len(body)} bytes, and has to be whole numbers of 8 bytes each")
            numbers = struct.unpack(f"<{len(body) // 8}q", body)
            began = time.perf_counter()
            with flight.lock:
                found = calls[self.path](numbers)
            self.answer(200, found, "application/octet-stream", time.perf_counter() - began)
        except ValueError as why:
            self.answer(400, f"{why}\n".encode())

    def log_message(self, *_: Any) -> None:
        pass


class Server(http.server.ThreadingHTTPServer):
    """The page and its flight, on 127.0.0.1 alone."""
    daemon_threads = True

    def __init__(self, flight: Flight, port: int) -> None:
        self.flight = flight
        super().__init__(("127.0.0.1", port), Handler)

    def handle_error(self, *_: Any) -> None:
        if not isinstance(sys.exc_info()[1], (ConnectionError, TimeoutError)):  # the browser may go at any time
            super().handle_error(*_)


def flight_of(source: str, triangles: int, window: Optional[Sequence[int]], every: Optional[int], spacing: Optional[float],
              nodata: Optional[float], report: bool) -> Flight:
    """The flight over a raster: over one grid where few enough points are taken of it, else over pages."""
    from . import systems
    from .raster import array_of_raster, open_raster
    from .raster_pages import RasterPages
    raster = open_raster(source, spacing=spacing, nodata=nodata).part(window)
    every = every or max(1, math.ceil((max(raster.shape) - 1) / MOST_STEPS))
    rows, columns = ((count - 1) // every + 1 for count in raster.shape)
    a, b, c, d, e, f = raster.transform
    step = systems.metres_of_cell(raster.crs, (a * every, b * every, c, d * every, e * every, f), (rows, columns))
    if max(rows, columns) <= MOST_POINTS:
        return GridFlight(array_of_raster(raster, every=every).array, triangles, step, report)
    with stage("reading", False) as progress:
        return WorldFlight(RasterPages(raster, step, every=every, progress=progress), triangles, report)


@click.command("fly", context_settings={"help_option_names": ["-h", "--help"], "max_content_width": 120})
@click.argument("source", metavar="IN")
@click.option("--triangles", type=click.IntRange(2, 1_048_576), default=20_000, show_default=True, help="The most of a frame.")
@click.option("--window", callback=numbers(int, "COLUMN,ROW,COLUMNS,ROWS"), help="Only this part of IN.")
@click.option("--every", type=click.IntRange(1), help="Takes every Nth point; without it few enough for 16385 a side.")
@click.option("--spacing", type=click.FloatRange(0, min_open=True), help="Metres from point to point, where IN does not say.")
@click.option("--nodata", type=float, help="The number that stands for no height, where IN does not say.")
@click.option("--port", type=click.IntRange(0, 65_535), default=8135, show_default=True, help="On 127.0.0.1; 0 is any free one.")
@click.option("--browser/--no-browser", default=True, show_default=True, help="Opens the browser.")
@click.option("--report", is_flag=True, help="Prints a line for each frame.")
def fly(source: str, triangles: int, window: Optional[tuple[int, int, int, int]], every: Optional[int], spacing: Optional[float],
        nodata: Optional[float], port: int, browser: bool, report: bool) -> None:
    """Flies over the heights of IN in the browser, in meshes of the proved engine.

    IN is whatever `calfrewin` reads. The keys are told on the page.

    \b
      calfrewin fly my.tif
      calfrewin fly my.pgm --spacing 90 --triangles 6000
    """
    try:
        flight = flight_of(source, triangles, by_rows(window), every, spacing, nodata, report)
        server = Server(flight, port)
    except (ValueError, TypeError, OSError, OverflowError, MemoryError, ImportError) as why:
        raise click.ClickException(str(why) or type(why).__name__) from None
    where = f"http://127.0.0.1:{server.server_port}/"
    click.echo(f"{where} (Ctrl-C ends it)")
    sys.stdout.flush()
    if browser:
        webbrowser.open(where)
    try:
        server.serve_forever()
    except KeyboardInterrupt:
        click.echo()
    server.server_close()
    with flight.lock:
        flight.close()

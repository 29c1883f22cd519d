"""The program `calfrewin`: its commands, its stages."""
from __future__ import annotations

import contextlib
import json
import math
import os
import pathlib
import sys
import time
from typing import TYPE_CHECKING, Any, Callable, Iterator, Optional

import click

from . import __version__
from .export import GLOBE, KINDS
from .heights import MOST_POINTS
from .options import SETTINGS, Command, OfCheck, OfTerrain, OfTiles, Reading, Several, Words
from .report import told

if TYPE_CHECKING:
    from .raster import Raster, Window

Progress = Callable[..., None]
WRONG = (ValueError, TypeError, OSError, MemoryError, ImportError, RuntimeError)  # each has a line for people
TRIES = 4  # of an error with what two bytes a coordinate lose
# Options that have no meaning for the other kind of OUT.
OF_A_FILE = {name: f"--{name}" for name in (
    "camera", "window", "bounds", "every", "measure", "crs", "origin", "texture", "uv", "quantize", "base", "size")}
OF_A_FOLDER = {"zoom": "--zoom", "skirts": "--skirts", "certify": "--certify"}
OF_TILES = {"triangles": "--triangles", "skirts": "--skirts", "certify": "--certify"}  # and not of quantized-mesh


def numbers(kind: type, names: str) -> Callable[[click.Context, click.Parameter, Optional[str]], Any]:
    """Reads a word as X,Y,Z."""
    several = Several(kind, names)
    return lambda context, parameter, text: None if text is None else several.convert(text, parameter, context)


@contextlib.contextmanager
def stage(label: str, quiet: bool) -> Iterator[Optional[Progress]]:
    """A progress bar on standard error where that is a terminal, else one line."""
    if quiet:
        yield None
        return
    if not sys.stderr.isatty():
        click.echo(f"calfrewin: {label}", err=True)
        yield None
        return
    with click.progressbar(length=1, label=label, file=sys.stderr, width=30) as bar:
        def tell(done: int, total: int, text: str = "") -> None:
            bar.length, bar.label = total, f"{label}: {text}" if text else label
            bar.update(done - bar.pos)
        yield tell
        tell(1, 1)


def make(asked: Words) -> None:
    """Meshes of few triangles of the heights of IN, with an error that is told.

    IN is what GDAL reads (GeoTIFF, .hgt, .vrt, .zip, a URL), PGM or .npy. OUT is a file (.glb .ply .stl .obj .vtk .vtu .off
    .npz), or a folder, which gets 3D Tiles.

    \b
      calfrewin my.tif my.glb --error 2.5
      calfrewin N36W085.hgt my.ply --triangles 20000
      calfrewin my.tif print.stl --error 5 --size 150 --exaggerate 2
      calfrewin my.tif tiles/ --error 1
    """
    try:
        report = run(asked)
    except KeyboardInterrupt:
        raise click.ClickException(f"interrupted; {_left(asked)}") from None
    except WRONG as why:
        raise click.ClickException(_line(why, _kept(asked))) from None
    click.echo(json.dumps(report, allow_nan=False) if asked.as_json else told(report))


def _line(why: BaseException, more: str = "") -> str:
    """What went wrong, on one line."""
    what = f"{why.args[0]!r} is missing" if isinstance(why, KeyError) and why.args else " ".join(str(why).split())
    return (what or type(why).__name__) + more


def _left(words: Words) -> str:
    """What an interrupted call has left."""
    if pathlib.Path(words.out, ".calfrewin").exists():
        return f"{words.out} has what is done, and the same call goes on"
    return f"{words.out} is as it was{_kept(words)}"


def _kept(words: Words) -> str:
    """What is kept of a file of many tiles until it is whole."""
    run_ = words.out + ".run"
    return f"; {run_} has what is done: the same call goes on, or remove it" if os.path.isdir(run_) else ""


def run(words: Words) -> dict[str, Any]:
    """Does what the words say; the report."""
    has_ending = pathlib.PurePath(words.out).suffix.lower() in KINDS
    is_folder = (words.kind is not None or words.tile is not None or words.out.endswith("/")
                 or not has_ending and os.path.isdir(words.out))
    _refuse(words, is_folder)
    began = time.perf_counter()
    raster = opened(words.source, words, words.vertical)
    warned = list(_warnings(raster, words))
    report = folder(raster, words) if is_folder else one(raster, words)
    if warned:
        report["warnings"] = warned
    return report | {"seconds": round(time.perf_counter() - began, 2)}


def opened(source: str, reading: Reading, vertical: Optional[str] = None) -> Raster:
    """The raster of a file, read as the words say."""
    from .raster import open_raster
    return open_raster(source, band=reading.band, nodata=reading.nodata, spacing=reading.spacing, vertical=vertical,
                       encoding=reading.encoding, scale=reading.scale, offset=reading.offset)


def _warnings(raster: Raster, words: Words) -> Iterator[str]:
    """What may be meant otherwise."""
    from .systems import is_in_degrees
    told = raster.suspect()
    if told is not None:
        yield told
    if words.crs not in (None, GLOBE) and is_in_degrees(words.crs):
        yield (f"--crs {words.crs} has degrees, and heights are in metres, so what is written has no shape: without --crs all "
               "is in metres")


def _refuse(words: Words, is_folder: bool) -> None:
    """What can be said of the words without the file."""
    kind = pathlib.PurePath(words.out).suffix.lower()
    wrong = {
        f"OUT is {words.out!r}, and has to end in one of {' '.join(KINDS)}, or in / for a folder of tiles":
            not is_folder and kind not in KINDS,
        "one of --error METRES and --triangles N is wanted":
            words.kind != "quantized-mesh" and (words.error is None) == (words.triangles is None),
        f"OUT is {words.out!r}, and no such folder is there":
            not is_folder and not pathlib.Path(words.out).resolve().parent.is_dir(),
        f"OUT is {words.out!r}, and a folder is there": not is_folder and os.path.isdir(words.out),
        "--camera is for --triangles": words.camera is not None and words.triangles is None,
        "--camera is for a map, and not for --crs globe or --mask":
            words.camera is not None and (words.crs == GLOBE or words.mask is not None),
        f"--fill is {words.fill}, and has to be a finite height, or smooth":
            isinstance(words.fill, float) and not math.isfinite(words.fill),
        "--mask is for 3D Tiles, and not for quantized-mesh": words.mask is not None and words.kind == "quantized-mesh",
        "--texture, --uv and --quantize are for .glb only":
            kind != ".glb" and not is_folder and bool(words.texture or words.uv or words.quantize),
        "--texture and --uv are for a mesh, and --base and --size make a solid":
            bool(words.texture or words.uv) and (words.base is not None or words.size is not None),
        "--band, --encoding: one of them is wanted": words.band is not None and words.encoding is not None,
        "--measure is for a map, and not for --crs globe": words.measure and words.crs == GLOBE,
        "--crs globe is for a mesh, and --base and --size make a print of a map":
            words.crs == GLOBE and (words.base is not None or words.size is not None),
        "one of --window and --bounds is wanted": words.window is not None and words.bounds is not None,
    }
    options = OF_A_FILE if is_folder else OF_A_FOLDER
    for_mesh = [option for name, option in OF_TILES.items() if words.kind == "quantized-mesh" and getattr(words, name)]
    wrong[f"{' and '.join(for_mesh)}: for 3D Tiles, and not for quantized-mesh"] = bool(for_mesh)
    wrong["--skirts has no certificate: its tiles do not meet"] = words.skirts and words.certify
    given = [option for name, option in options.items() if (it := getattr(words, name)) is not None and it is not False]
    given += ["--exaggerate"] if is_folder and words.exaggerate != 1 else []
    of = "one file, and OUT is a folder of tiles" if is_folder else "a folder of tiles, and OUT is one file"
    wrong[f"{' and '.join(given)}: for {of}"] = bool(given)
    for text, is_so in wrong.items():
        if is_so:
            raise click.UsageError(text)
    there = [words.out] if not is_folder else [os.path.join(words.out, name) for name in ("tileset.json", "layer.json")]
    for path in there:
        if os.path.exists(path) and not words.overwrite:
            raise click.ClickException(f"{path} is there already: --overwrite replaces it")


def folder(raster: Raster, words: Words) -> dict[str, Any]:
    """A folder of tiles."""
    if words.kind == "quantized-mesh":
        return quantized(raster, words.out, words.zoom, words.tile or 129, words.normals, words.quiet)
    from . import tiles
    if words.mask:
        from .mask import mask_of
        raster = raster.masked(mask_of(words.mask, raster.crs))
    with client_of(words) as client, stage("making tiles", words.quiet) as progress:
        out = words.out
        if client:
            out, raster = os.path.abspath(out), raster.absolute()
        plan = tiles.plan_of(raster, out, error=words.error, tile=words.tile or 513, unit=words.unit, fill=words.fill,
                             normals=words.normals, skirts=words.skirts, certify=words.certify)
        found = tiles.build(plan, client=client, workers=words.workers, triangles=words.triangles, overwrite=words.overwrite,
                            progress=progress)
        return {"out": os.path.join(out, "tileset.json"), "kind": "3dtiles"} | found


def quantized(raster: Raster, out: str, zoom: Optional[int], side: int, normals: bool, quiet: bool) -> dict[str, Any]:
    """A folder of quantized-mesh."""
    if raster.form != "gdal":
        raise ValueError(f"{raster.path} is not read by GDAL, which warps to the tiles: bring it to a GeoTIFF with its place, "
                         "by gdal_translate")
    if raster.crs is None:
        raise ValueError(f"{raster.path} has no coordinate system, and the tiles lie on the globe: gdal_edit.py -a_srs EPSG:CODE")
    from .quantized import terrain
    with stage("making tiles", quiet) as progress:
        found = terrain(raster, out, zoom=zoom, side=side, normals=normals, progress=progress)
    return {"out": out, "kind": "quantized-mesh"} | found


def one(raster: Raster, words: Words) -> dict[str, Any]:
    """One file."""
    from . import raster as r
    from . import systems
    from .export import save, solid_count
    window = raster.window_of(words.bounds) if words.bounds else raster.window(by_rows(words.window))
    polygons = None
    if words.mask:
        from .mask import mask_of
        polygons = mask_of(words.mask, raster.crs)
        window = raster.window_about(polygons, window)
    part = raster.part(window)
    crs = words.crs or systems.metres_crs(raster.crs, part.transform, part.shape)
    systems.refuse_unplaced(raster.crs, crs, part.transform, part.shape)
    if is_joined(words, window, crs):
        return joined(raster if polygons is None else raster.masked(polygons), words, window, crs)
    if words.scheduler or words.workers > 1:
        raise click.UsageError("--workers and --dask: for tiles, and for a .glb of more than 2049 points a side with --error or "
                               "--triangles; OUT is one mesh")
    is_solid = words.base is not None or words.size is not None
    error, camera = words.error, _camera(words, raster, crs)
    for _ in range(TRIES):
        with stage(f"reading {words.source}, {window.columns} x {window.rows} points, and meshing", words.quiet) as progress:
            found = r.fit_raster(raster, error=error, triangles=words.triangles, window=window, every=words.every,
                                 fill=words.fill, unit=words.unit, camera=camera, globe=crs == GLOBE, polygons=polygons,
                                 count=solid_count if is_solid else None, progress=progress)
        made = found.mesh
        with stage(f"writing {words.out}", words.quiet):
            report = save(made, words.out, crs=crs, origin=words.origin, normals=words.normals, uv=words.uv,
                          texture=words.texture, quantize=words.quantize, base=words.base, size=words.size,
                          exaggerate=words.exaggerate)
        if error is None or words.error is None or report["error"] <= words.error:
            break
        error = max(0.0, error - 1.1 * report["quantized"])  # that what two bytes lose is within the error
    covered = made.cells() * found.every ** 2 / ((raster.shape[0] - 1) * (raster.shape[1] - 1))
    report |= {"out": words.out, "rounding": made.rounding, "unit": made.unit, "points": list(made.shape),
               "of": list(raster.shape), "every": found.every, "covered": round(covered, 4), "filled": made.filled,
               "holes": made.holes, "alone": made.alone}
    if crs and made.crs and crs not in (made.crs, GLOBE):
        report["sideways"] = round(systems.sideways(made, crs), 3)
    if words.measure:
        with stage(f"measuring {words.source}", words.quiet) as progress:
            report["error_at_all_points"] = r.measured(raster, found, progress)
    return report


def _camera(words: Words, raster: Raster, crs: Optional[str]) -> Optional[tuple[float, float, float]]:
    """Where the camera stands in the raster's system."""
    if words.camera is None or crs is None or raster.crs is None or crs == raster.crs:
        return words.camera
    from .systems import flat_transformer
    x, y = flat_transformer(crs, raster.crs).transform(*words.camera[:2])
    return x, y, words.camera[2]


def is_joined(words: Words, window: Window, crs: Optional[str]) -> bool:
    """Whether a file is made of tiles that are joined: a plain .glb of all points, where these are too many for one mesh."""
    other = (words.camera, words.every, words.texture, words.base, words.size)
    return (pathlib.PurePath(words.out).suffix.lower() == ".glb" and max(window.rows, window.columns) > MOST_POINTS
            and all(it is None for it in other) and not words.uv and not words.quantize and crs != GLOBE)


def joined(raster: Raster, words: Words, window: Window, crs: Optional[str]) -> dict[str, Any]:
    """One file of tiles that are joined."""
    from .join import join
    label = f"meshing {words.source}, {window.columns} x {window.rows} points"
    with client_of(words) as client, stage(label, words.quiet) as progress:
        part = (raster.absolute() if client else raster).part(window)
        report = join(part, os.path.abspath(words.out) if client else words.out, error=words.error, triangles=words.triangles,
                      crs=crs, origin=words.origin, normals=words.normals, exaggerate=words.exaggerate, unit=words.unit,
                      fill=words.fill, client=client, workers=words.workers, overwrite=words.overwrite, progress=progress)
    cells = report.pop("cells")
    return report | {"out": words.out, "points": list(part.shape), "of": list(raster.shape), "every": 1, "filled": 0,
                     "covered": round(cells / ((raster.shape[0] - 1) * (raster.shape[1] - 1)), 4)}


@contextlib.contextmanager
def client_of(words: Words) -> Iterator[Any]:
    """A client of the scheduler, if one is named, which is closed: what it waits for would complain at the end."""
    if not words.scheduler:
        yield None
        return
    from distributed import Client
    client = Client(words.scheduler)  # type: ignore[no-untyped-call]
    try:
        yield client
    finally:
        client.close()  # type: ignore[no-untyped-call]


def looked(label: str, asked: OfTiles, look: Callable[[Optional[Raster], Optional[Progress]], dict[str, Any]]
           ) -> dict[str, Any]:
    """What `look` finds beside a raster, if one is named."""
    try:
        raster = None if asked.source is None else opened(asked.source, asked)
        if raster is not None and asked.mask:
            from .mask import mask_of
            raster = raster.masked(mask_of(asked.mask, raster.crs))
        with stage(label, asked.quiet) as progress:
            return look(raster, progress)
    except (*WRONG, KeyError, IndexError) as why:
        raise click.ClickException(_line(why)) from None


def end(found: dict[str, Any], as_json: bool, kind: str, told: str) -> None:
    """Tells what was found, and ends with status 1 where something is wrong."""
    if as_json:
        click.echo(json.dumps(found))
    else:
        for line in found["wrong"]:
            click.echo(f"{kind}: {line}")
        click.echo(told)
    sys.exit(1 if found["wrong"] else 0)


def by_rows(window: Optional[tuple[int, int, int, int]]) -> Optional[tuple[int, int, int, int]]:
    """(row, column, rows, columns) of (column, row, columns, rows)."""
    return None if window is None else (window[1], window[0], window[3], window[2])


def check(asked: OfCheck) -> None:
    """Checks 3D Tiles beside the raster that they were made of, by code that shares nothing with what makes them: each point is
    covered once, no mixture of levels has a crack, and every point of IN is within the error that is told."""
    if asked.source is None:
        raise click.UsageError("Missing option '--raster'.")
    from .check import check as look

    def see(raster: Optional[Raster], progress: Optional[Progress]) -> dict[str, Any]:
        assert raster is not None
        return look(asked.folder, raster, workers=asked.workers, error=asked.error, progress=progress)
    found = looked(f"checking {asked.folder}", asked, see)
    end(found, asked.as_json, "wrong", "{folder}: {tiles} tiles, {triangles} triangles in the finest, {points} points measured, "
        "the finest are off by at most {off:.6g} m, {verdict}; {seconds} s".format(
            folder=asked.folder, verdict="and more is wrong" if found["wrong"] else "without a crack or a hole", **found))


def certify(asked: OfTiles) -> None:
    """Checks the certificates of 3D Tiles that were made with --certify, tile by tile and then side by side, by code that shares
    nothing with what makes them: no mesh as fine as the tiles that is as near to the heights of IN has fewer triangles."""
    from .certify import certify as look
    found = looked(f"checking the certificates of {asked.folder}", asked, lambda raster, progress: look(
        asked.folder, raster, workers=asked.workers, progress=progress))
    verdict = "not certified" if found["wrong"] else (
        "certified: none within {tolerance:.6g} m of the heights, in units of {unit:g} m, has fewer".format(**found))
    end(found, asked.as_json, "refused", "{folder}: {tiles} tiles, {triangles} triangles, in {rounds} rounds; {verdict}; "
        "{seconds} s".format(folder=asked.folder, verdict=verdict, **found))


def terrain(asked: OfTerrain) -> None:
    """Makes quantized-mesh, the terrain of Cesium, in the folder OUT: IN is warped to tiles of the globe, which is in no
    error."""
    try:
        layer = os.path.join(asked.out, "layer.json")
        if os.path.exists(layer) and not asked.overwrite:
            raise ValueError(f"{layer} is there already: --overwrite replaces it")
        began = time.perf_counter()
        report = quantized(opened(asked.source, asked), asked.out, asked.zoom, asked.tile, asked.normals, asked.quiet)
        report["seconds"] = round(time.perf_counter() - began, 2)
    except WRONG as why:
        raise click.ClickException(_line(why)) from None
    click.echo(json.dumps(report, allow_nan=False) if asked.as_json else told(report))


class Program(click.Group):
    """The commands by their names; what begins with no such name makes a mesh."""

    def parse_args(self, context: click.Context, args: list[str]) -> list[str]:
        if args[:1] not in ([name] for name in ("--version", *self.commands)):
            args = [mesh.name or "", *args]
        return super().parse_args(context, args)

    def get_command(self, context: click.Context, name: str) -> Optional[click.Command]:
        if name == "fly":
            from .fly import fly
            return fly
        return super().get_command(context, name)


class MeshCommand(Command[Words]):
    """The command that makes a mesh, whose help names the others."""

    def format_usage(self, context: click.Context, formatter: click.HelpFormatter) -> None:
        parent = context.parent  # of `rio mesh` another one
        path = context.command_path if parent is None or parent.command is not program else parent.command_path
        formatter.write_usage(path, " ".join(self.collect_usage_pieces(context)))

    def format_options(self, context: click.Context, formatter: click.HelpFormatter) -> None:
        super().format_options(context, formatter)
        with formatter.section("Other commands"):
            formatter.write_dl([(f"calfrewin {name}", told_of) for name, told_of in OTHERS.items()])


OTHERS = {"fly": "Flies over the heights of IN in the browser.",
          "check": "Checks 3D Tiles beside the raster that they were made of.",
          "certify": "Checks the certificates of 3D Tiles that were made with --certify.",
          "terrain": "Makes quantized-mesh, the terrain of Cesium."}
mesh = MeshCommand("mesh", Words, make)
program = Program("calfrewin", {"mesh": mesh, "check": Command("check", OfCheck, check), "fly": click.Command("fly"),
                                "certify": Command("certify", OfTiles, certify),
                                "terrain": Command("terrain", OfTerrain, terrain)}, context_settings=SETTINGS)
click.version_option(__version__)(program)


def main() -> None:
    """`calfrewin`, and `python3 -m calfrewin`."""
    # A window of a raster wants no more than some rows; GDAL takes a twentieth of the memory if nothing is said.
    os.environ.setdefault("GDAL_CACHEMAX", "64")
    if sys.stdout is None:
        sys.exit("calfrewin: standard output is closed")
    try:
        program(prog_name="calfrewin")
    except OSError as why:  # all others have their line
        os.dup2(os.open(os.devnull, os.O_WRONLY), sys.stdout.fileno())
        sys.exit(f"calfrewin: standard output: {why.strerror or why}")

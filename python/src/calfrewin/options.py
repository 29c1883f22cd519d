"""The options of the program: dataclasses, whose fields have the types that commands are given."""
from __future__ import annotations

import dataclasses
from typing import Any, Callable, Generic, Optional, TypeVar, Union, get_args, get_type_hints

import click

from .formats import ENCODINGS

T = TypeVar("T")
SETTINGS = {"help_option_names": ["-h", "--help"], "max_content_width": 120}
Numbers3 = tuple[float, float, float]
Numbers4 = tuple[float, float, float, float]
Whole4 = tuple[int, int, int, int]
ABOVE_0, A_FILE = click.FloatRange(0, min_open=True), click.Path(exists=True, dir_okay=False)


class Several(click.ParamType):
    """Numbers with commas, as X,Y,Z."""

    def __init__(self, kind: type, name: str) -> None:
        self.kind, self.name = kind, name

    def convert(self, value: Any, param: Optional[click.Parameter], context: Optional[click.Context]) -> Any:
        if not isinstance(value, str):
            return value
        try:
            found = tuple(self.kind(word) for word in value.replace(",", " ").split())
        except ValueError:
            found = ()
        if len(found) != self.name.count(",") + 1:
            self.fail(f"{value!r} has to be {self.name}, numbers with commas and without spaces", param, context)
        return found


class Filling(click.ParamType):
    """METRES, or the word smooth."""
    name = "METRES|smooth"

    def convert(self, value: Any, param: Optional[click.Parameter], context: Optional[click.Context]) -> Union[float, str]:
        if value == "smooth":
            return str(value)
        try:
            return float(value)
        except ValueError:
            self.fail(f"{value!r} has to be METRES or smooth", param, context)


def argument(metavar: str, kind: Optional[click.ParamType] = None) -> Any:
    """A field that is given by its place."""
    return dataclasses.field(default="", metadata={"metavar": metavar, "type": kind, "is_argument": True})


def option(help_: str, kind: Optional[click.ParamType] = None, metavar: Optional[str] = None, *, default: Any = None,
           names: tuple[str, ...] = (), is_shown: bool = False) -> Any:
    """A field that is given by its name."""
    return dataclasses.field(default=default, metadata={
        "help": help_, "type": kind, "metavar": metavar, "names": names, "show_default": is_shown})


@dataclasses.dataclass(frozen=True)
class Reading:
    """How heights are read."""
    band: Optional[int] = option("Which band of IN; without it the first.", click.IntRange(1))
    encoding: Optional[str] = option("For pictures whose colours are heights.", click.Choice(ENCODINGS))
    nodata: Optional[float] = option("The number that stands for no height, where IN does not say.")
    scale: Optional[float] = option("Heights are numbers times it plus --offset, whatever IN says: for pictures of 16 bits.")
    offset: Optional[float] = option("Metres that are added to each number times --scale.")
    spacing: Optional[float] = option("Metres from point to point, where IN does not say.", ABOVE_0, "METRES")


@dataclasses.dataclass(frozen=True)
class Telling:
    """What is said, and how."""
    as_json: bool = option("The report as one line of JSON.", names=("--json",), default=False)
    quiet: bool = option("No progress.", names=("--quiet", "-q"), default=False)


@dataclasses.dataclass(frozen=True)
class Words(Telling, Reading):
    """The words of a call that makes a mesh or tiles."""
    source: str = argument("IN")
    out: str = argument("OUT")
    error: Optional[float] = option("The fewest triangles that are nowhere off by more metres.", click.FloatRange(0), "METRES")
    triangles: Optional[int] = option(
        "The least greatest error of at most so many; of a solid walls and floor are counted.", click.IntRange(2), "N")
    camera: Optional[Numbers3] = option(
        "With --triangles: the best mesh for a viewer there, in coordinates of OUT with its origin added.",
        Several(float, "X,Y,Z"))
    window: Optional[Whole4] = option("Only this part of IN.", Several(int, "COLUMN,ROW,COLUMNS,ROWS"))
    bounds: Optional[Numbers4] = option(
        "Only what lies between these coordinates of IN's system: least X, least Y, greatest X, greatest Y.",
        Several(float, "X,Y,X,Y"))
    every: Optional[int] = option(
        "Takes every Nth point; without it as few are left out as 2049 points a side need.", click.IntRange(1), "N")
    measure: bool = option("Reads IN once more and tells the error at all its points, those left out too.", default=False)
    mask: Optional[str] = option(
        "A file of polygons (.geojson, or what fiona reads): only what lies within, cut along them; in tiles, and above 2049 "
        "points a side, points within.", A_FILE, "FILE")
    fill: Union[float, str, None] = option(
        "The height of points without one, or smooth: from their edges. Without it they get no triangles.", Filling())
    unit: Optional[float] = option(
        "Heights are rounded to multiples of it; without it the finest that their range allows.", ABOVE_0, "METRES")
    crs: Optional[str] = option(
        "The system of the vertices, as EPSG:25832; without it IN's own if it is in metres, otherwise UTM. globe: metres to the "
        "east, to the north and up about the middle, on the curved earth.", metavar="EPSG:CODE")
    vertical: Optional[str] = option(
        "What heights are over: EPSG:5773 for SRTM, EPSG:3855 for Copernicus; without it what IN says, otherwise the ellipsoid.",
        metavar="EPSG:CODE")
    origin: Optional[Numbers3] = option("What is 0 in OUT; without it a whole place in the middle.", Several(float, "X,Y,Z"))
    normals: bool = option("For .glb and tiles.", default=True, names=("--normals/--no-normals",), is_shown=True)
    texture: Optional[str] = option(
        "A picture over the window, for .glb: PNG or JPEG, or what GDAL reads with a place, which is laid where it belongs.",
        A_FILE, "FILE")
    uv: bool = option("Texture coordinates over the window, for .glb.", default=False)
    quantize: bool = option(
        "Two bytes a coordinate, for .glb (KHR_mesh_quantization); what that takes from the error is told.", default=False)
    base: Optional[float] = option("Closes the mesh to a solid down to this height, for a print.", metavar="METRES")
    size: Optional[float] = option(
        "A solid whose longer side is so many millimetres and whose floor is 0; without --base that is 2 mm below the lowest "
        "point.", ABOVE_0, "MILLIMETRES")
    exaggerate: float = option("Heights are multiplied by it.", ABOVE_0, "FACTOR", default=1.0)
    tile: Optional[int] = option(
        "OUT is a folder of 3D Tiles with so many points a side [513]; of quantized-mesh [129].", metavar="N")
    kind: Optional[str] = option("What a folder OUT holds [3dtiles].", click.Choice(["3dtiles", "quantized-mesh"]),
                                 names=("--format",))
    zoom: Optional[int] = option("The finest zoom of quantized-mesh; without it as fine as IN.", click.IntRange(0, 22))
    skirts: bool = option(
        "Tiles with walls down from their borders, which hide cracks; without it borders match, and there are none.",
        default=False)
    certify: bool = option(
        "Writes a certificate for each tile: that no mesh of the whole has fewer triangles.", default=False)
    workers: int = option("Processes for tiles.", click.IntRange(1), "N", default=1, is_shown=True)
    scheduler: Optional[str] = option("Makes tiles on the workers of this scheduler, as tcp://127.0.0.1:8786.",
                                      metavar="ADDRESS", names=("--dask",))
    overwrite: bool = option("Replaces OUT where it is there.", default=False)


@dataclasses.dataclass(frozen=True)
class OfTiles(Telling, Reading):
    """The words of a command that looks at a folder of tiles."""
    folder: str = argument("TILES", click.Path(exists=True, file_okay=False))
    source: Optional[str] = option("What the tiles were made of.", names=("--raster",), metavar="IN")
    mask: Optional[str] = option("The polygons that the tiles were made within.", A_FILE, "FILE")
    workers: int = option("Processes.", click.IntRange(1), "N", default=1, is_shown=True)


@dataclasses.dataclass(frozen=True)
class OfCheck(OfTiles):
    """The words of `check`."""
    error: Optional[float] = option("What the finest tiles are to be within; without it what they tell.", click.FloatRange(0),
                                    "METRES")


@dataclasses.dataclass(frozen=True)
class OfTerrain(Telling, Reading):
    """The words of `terrain`."""
    source: str = argument("IN")
    out: str = argument("OUT")
    zoom: Optional[int] = option("The finest zoom; without it as fine as IN.", click.IntRange(0, 22))
    tile: int = option("Points of a tile's side.", metavar="N", default=129, is_shown=True)
    normals: bool = option("Normals for lighting.", default=True, names=("--normals/--no-normals",), is_shown=True)
    overwrite: bool = option("Replaces OUT where it is there.", default=False)


class Command(click.Command, Generic[T]):
    """A command that is given a dataclass of its words."""

    def __init__(self, name: str, asked: type[T], do: Callable[[T], None]) -> None:
        super().__init__(name, params=parameters(asked), help=do.__doc__, context_settings=SETTINGS)
        self.asked, self.do = asked, do

    def invoke(self, context: click.Context) -> None:
        self.do(self.asked(**context.params))


def parameters(asked: type) -> list[click.Parameter]:
    """click's of the fields of a dataclass, its own before those that it stands on."""
    hints, every = get_type_hints(asked), dataclasses.fields(asked)
    own = [it for kind in asked.__mro__ for it in every if it.name in vars(kind).get("__annotations__", {})]
    return [_argument(it) if it.metadata.get("is_argument") else _option(it, hints[it.name]) for it in own]


def _argument(it: dataclasses.Field[Any]) -> click.Parameter:
    return click.Argument([it.name], metavar=it.metadata["metavar"], type=it.metadata["type"])


def _option(it: dataclasses.Field[Any], hint: Any) -> click.Parameter:
    names = it.metadata["names"] or (f"--{it.name}",)
    kind = next((each for each in get_args(hint) or (hint,) if each in (int, float, str, bool)), str)
    is_flag = kind is bool
    asked: dict[str, Any] = {"is_flag": True} if is_flag else {
        "type": it.metadata["type"] or kind, "metavar": it.metadata["metavar"] or getattr(it.metadata["type"], "name", None)
        if isinstance(it.metadata["type"], (Several, Filling)) else it.metadata["metavar"]}
    return click.Option([it.name, *names], default=it.default, help=it.metadata["help"], show_default=it.metadata["show_default"],
                        **asked)

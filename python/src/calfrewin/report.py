"""What the program says of a mesh."""
from __future__ import annotations

from typing import Any, Iterator

from .look import how_to_look

MUCH_FILLED = 0.05  # of the points: above this it warns


def told(report: dict[str, Any]) -> str:
    """The report for people."""
    if report.get("kind") == "quantized-mesh":
        return "{out}: {tiles} tiles to zoom {zoom}, {triangles} triangles, {bytes} bytes, {seconds} s".format(**report)
    if report.get("kind") == "3dtiles":
        return ("{out}: {tiles} tiles in {levels} levels, {triangles} triangles in the finest, {bytes} bytes, {seconds} s\n"
                "error at most {error:.6g} m in the finest level, {root_error:.6g} m in the coarsest, over all points of the "
                "file\n").format(**report) + "\n".join([*_warned(report), how_to_look(report["out"])])
    return "\n".join(_lines(report))


def _lines(report: dict[str, Any]) -> Iterator[str]:
    from .systems import name_of
    rows, columns = report["points"]
    points = rows * columns
    yield "{out}: {triangles} triangles, {vertices} vertices, {seconds} s".format(**report)
    taken = "all points" if report["every"] == 1 else f"the {columns} x {rows} points taken, one of {report['every']} each way"
    rounding = f"{report['rounding']:.2g} m for rounding to {report['unit']:g} m"
    yield f"error at most {report['error']:.6g} m at {taken}, of which {rounding}"
    if "error_at_all_points" in report:
        yield f"greatest error {report['error_at_all_points']:.6g} m at all points of the file, measured"
    elif report["every"] > 1:
        yield "what lies between the points taken was not looked at: --measure tells the error there"
    if report.get("sideways"):
        yield f"the middles of the longest edges lie {report['sideways']:g} m sideways of their ground, as the two systems bend"
    whole = f"{report['of'][1]} x {report['of'][0]} points"
    yield f"covers {100 * report['covered']:.4g} % of the file's {whole}"
    share = report["filled"] / points
    if report["filled"]:
        warning = "warning: " if share > MUCH_FILLED else ""
        yield f"{warning}{report['filled']} points, {100 * share:.2g} %, had no height and were filled"
    if report["holes"]:
        yield (f"{report['holes']} points, {100 * report['holes'] / points:.2g} %, have no height and get no triangles: "
               "--fill METRES or --fill smooth gives them some")
    if report.get("alone"):
        yield f"{report['alone']} of them have heights all around, and triangles go over them"
    if "quantized" in report:
        yield f"quantized to {report['quantized']:.2g} m, which is in the error"
    yield from _warned(report)
    yield f"origin {' '.join(f'{number:.10g}' for number in report['origin'])}; {name_of(report['crs'])}"
    yield how_to_look(report["out"])


def _warned(report: dict[str, Any]) -> list[str]:
    return [f"warning: {text}" for text in report.get("warnings", ())]

"""Writing a mesh: .glb by this package, .npz by numpy, and by meshio .ply, .stl, .obj, .vtk, .vtu and .off."""
from __future__ import annotations

import os
import pathlib
from typing import Any, NamedTuple, Optional, Union

import numpy as np
import numpy.typing as npt

from . import glb as gltf
from ._types import Floats, Numbers, Path
from .files import json_of, whole_file, write_bytes
from .mesh import Mesh
from .normals import Normals, ground_normals, normals_of
from .solid import solid, solid_count
from .texture import texture_of

BY_MESHIO = (".ply", ".stl", ".obj", ".vtk", ".vtu", ".off")
BINARY = (".ply", ".stl", ".vtk", ".vtu")
NARROW = (".glb", ".ply", ".stl")  # floats of 32 bits
__all__ = ["GLOBE", "KINDS", "kind_of", "metres_of", "origin_of", "save", "solid_count"]
KINDS = (".glb", ".npz", *BY_MESHIO)
GLOBE = "globe"
MOST = 65_535  # of a number of two bytes
NOTHING = 1e-6  # of a step
FLOOR = 2.0  # millimetres below the lowest point of a print


class Picture(NamedTuple):
    """What is drawn on a mesh."""
    normals: Optional[Normals]  #: in axes of glTF
    uv: Optional[Floats]
    image: Optional[bytes]


class Places(NamedTuple):
    """Where vertices are."""
    x: Floats
    y: Floats
    z: Floats
    frame: Optional[Floats]  #: 4 x 4, from these to EPSG:4978, where they are about a place of the globe


def kind_of(path: Path) -> str:
    """The ending of a name, which is that of a format.

    >>> kind_of("my.GLB")
    '.glb'
    """
    kind = pathlib.PurePath(path).suffix.lower()
    if kind not in KINDS:
        raise ValueError(f"path is {os.fspath(path)!r}, and has to end in one of {' '.join(KINDS)}")
    return kind


def save(mesh: Mesh, path: Path, *, crs: Optional[str] = None, origin: Optional[tuple[float, float, float]] = None,
         normals: bool = True, uv: bool = False, texture: Union[bytes, Path, None] = None, quantize: bool = False,
         base: Optional[float] = None, size: Optional[float] = None, exaggerate: float = 1.0) -> dict[str, Any]:
    """Writes the mesh, and PATH.json beside it with the origin, the coordinate system and the error; what that says comes
    back. The error is that of the ground, before it is exaggerated and brought to a size.

    Args:
        path: its ending is the format: .glb .npz .ply .stl .obj .vtk .vtu .off.
        crs: the system to write in; without it that of the mesh if it is in metres and true to scale, otherwise UTM, as
            heights beside degrees are no shape. "globe": metres to the east, to the north and up about the middle, with the
            matrix from there to EPSG:4978; for a mesh that was made with globe=True.
        origin: x, y, z that are 0 in the file; without it a whole place in the middle for .glb, .ply, .stl and .obj, and
            0 for the rest.
        normals: writes them, in .glb.
        uv: writes texture coordinates over the array, in .glb: (0, 0) at its first point.
        texture: the bytes of a PNG or a JPEG over the array, in .glb, or a file: one that has a place is laid there.
        quantize: writes two bytes a coordinate, in .glb (KHR_mesh_quantization, which f3d 1 and Blender before 3 do not
            read). Columns, rows and heights that are whole steps of an array north up lose nothing; of others the error has
            what they lose.
        base: closes the mesh to a solid down to this height.
        size: makes a solid whose longer side is so many millimetres; without `base` its floor is 2 mm below the lowest
            point. Without `origin` the floor is at 0.
        exaggerate: heights are multiplied by it.

    Raises:
        ValueError: options that do not go together, a system that PROJ does not know or that has no place for a vertex, a
            base above the ground.
        OSError: the file cannot be written; an old one is as it was.

    >>> import tempfile
    >>> from calfrewin import fit
    >>> mesh = fit([[0, 0, 0], [0, 9, 0], [0, 0, 0]], error=0, cell=30)
    >>> with tempfile.TemporaryDirectory() as folder:
    ...     told = save(mesh, folder + "/print.stl", size=100)
    >>> told["triangles"], round(told["millimetres_to_a_metre"], 3)
    (16, 1.667)
    """
    path, kind = os.fspath(path), kind_of(path)
    is_solid = base is not None or size is not None
    if kind != ".glb" and (uv or texture or quantize):
        raise ValueError(f"path is {path!r}, and uv, texture and quantize are for .glb alone")
    if is_solid and (uv or texture or quantize):
        raise ValueError("uv, texture and quantize are for a mesh, and base and size make a solid")
    if crs == GLOBE and (base is not None or size is not None or origin is not None):
        raise ValueError("crs globe is no system for base, size and origin: give one of a map")
    crs = crs or metres_of(mesh)
    x, y, z, frame = _places(mesh, crs, exaggerate)
    _refuse_not_finite(mesh, crs, (x, y, z))
    if origin is not None:
        zero = np.array(origin, np.float64)
    elif frame is None and (kind in NARROW or kind == ".obj"):
        zero = origin_of(x, y)
    else:
        zero = np.zeros(3)
    told = {"origin": zero.tolist(), "crs": crs or mesh.crs, "error": mesh.error,
            "triangles": len(mesh.triangles), "vertices": len(mesh.height), "exaggerate": exaggerate}
    if frame is not None:
        told["to_EPSG:4978"] = frame.T.reshape(-1).tolist()
    if kind == ".glb" and not is_solid:
        up = _normals(mesh, crs, (x, y, z), exaggerate) if normals else None
        image = texture_of(texture, mesh) if texture is not None and not isinstance(texture, bytes) else texture
        picture = Picture(None if up is None else gltf.y_up(up), _texture_places(mesh) if uv or image else None, image)
        if quantize:
            write_bytes(path, *_quantized(mesh, (x, y, z), crs, zero, picture, exaggerate, told))
        else:
            places = np.empty((len(x), 3), "<f4")
            places[:, 0], places[:, 1], places[:, 2] = x - zero[0], z - zero[2], zero[1] - y
            del x, y, z
            write_bytes(path, *gltf.glb(places, mesh.triangles, normals=picture.normals, uv=picture.uv, image=image, extras=told))
    else:
        points = np.column_stack((x, y, z))
        points -= zero
        triangles = mesh.triangles
        if is_solid:
            points, triangles = _solid(mesh, points, zero, base, size, exaggerate, told)
            if size is not None and origin is None:
                floor = float(points[:, 2].min())
                points[:, 2] -= floor
                told["origin"][2] += floor / told["millimetres_to_a_metre"]
            told |= {"triangles": len(triangles), "vertices": len(points)}
        if kind == ".glb":
            up = gltf.y_up(normals_of(points, triangles)) if normals else None
            write_bytes(path, *gltf.glb(gltf.y_up(points).astype("<f4"), triangles, normals=up, extras=told))
        elif kind == ".npz":
            _npz(path, points, triangles, told)
        else:
            _by_meshio(path, kind, points, triangles)
    write_bytes(path + ".json", json_of(told))
    return told


def metres_of(mesh: Mesh) -> Optional[str]:
    """The system that a mesh is written in where none is named."""
    if mesh.crs is None or mesh.is_curved:
        return mesh.crs
    from .systems import metres_crs
    return metres_crs(mesh.crs, mesh.transform, mesh.shape)


def _refuse_not_finite(mesh: Mesh, crs: Optional[str], places: tuple[Floats, Floats, Floats]) -> None:
    """A vertex without a place is never written."""
    is_bad = ~(np.isfinite(places[0]) & np.isfinite(places[1]) & np.isfinite(places[2]))
    if is_bad.any():
        x, y = (values[is_bad][0] for values in mesh.xy())
        raise ValueError(f"crs is {crs}, and has no place for {int(is_bad.sum())} of {len(is_bad)} vertices, as for x = {x:.9g}, "
                         f"y = {y:.9g}: take a part, with --bounds or --window, or another --crs")


def _places(mesh: Mesh, crs: Optional[str], exaggerate: float) -> Places:
    """x, y and z of each vertex in a system; heights change where that one says so."""
    heights = mesh.height if exaggerate == 1 else mesh.height * exaggerate
    if crs is None or crs == mesh.crs:
        return Places(*mesh.xy(), heights, None)
    if mesh.crs is None:
        raise ValueError(f"crs is {crs}, and the mesh has no system from which it could be brought there")
    from . import systems
    if crs != GLOBE:
        x, y, *z = systems.transformer(mesh.crs, crs).transform(*mesh.xy(), heights)
        return Places(x, y, z[0], None)
    if not mesh.is_curved:
        raise ValueError("crs is globe, and the mesh was not made with globe=True, so its error would not hold there")
    middle = systems.transformer(mesh.crs, systems.GEOCENTRIC).transform(*systems.middle_of(mesh.transform, mesh.shape), 0.0)
    frame = systems.east_north_up(*middle)
    over = systems.transformer(mesh.crs, systems.GEODETIC).transform(*mesh.xy(), heights)
    x, y, z = ((systems.geocentric(*over) - middle) @ frame[:3, :3]).T
    return Places(x, y, z, frame)


def _normals(mesh: Mesh, crs: Optional[str], places: tuple[Floats, Floats, Floats], exaggerate: float) -> Normals:
    """Those of the ground; on the globe those of the triangles."""
    if mesh.rises is None or crs == GLOBE:
        return normals_of(np.column_stack(places), mesh.triangles)
    return ground_normals(mesh, crs, exaggerate)


def _solid(mesh: Mesh, points: Floats, zero: Floats, base: Optional[float], size: Optional[float], exaggerate: float,
           told: dict[str, Any]) -> tuple[Floats, Numbers]:
    """The points and triangles of a solid, in millimetres where a size is wanted."""
    scale = 1.0
    if size is not None:
        scale = size / float(np.ptp(points[:, :2], axis=0).max())
        points *= scale
        told["millimetres_to_a_metre"] = scale
    floor = float(points[:, 2].min()) - FLOOR if base is None else (base * exaggerate - float(zero[2])) * scale
    return solid(points, mesh.triangles, floor, not mesh.is_clipped)


def origin_of(x: Floats, y: Floats) -> Floats:
    """A whole place in the middle, so that floats of 32 bits lose less than a millimetre within 16 km of it.

    >>> origin_of(np.array([500000.0, 500901.0]), np.array([5000000.0, 5000090.0])).tolist()
    [500450.0, 5000045.0, 0.0]
    """
    return np.array([np.floor((x.min() + x.max()) / 2), np.floor((y.min() + y.max()) / 2), 0.0])


def _texture_places(mesh: Mesh) -> Floats:
    rows, columns = mesh.shape
    return np.column_stack((mesh.column / (columns - 1), mesh.row / (rows - 1)))


def _npz(path: str, points: Floats, triangles: Numbers, told: dict[str, Any]) -> None:
    words = {"origin": np.array(told["origin"]), "crs": np.array(told["crs"] or "", np.str_), "error": np.array(told["error"])}
    arrays: dict[str, Any] = {"vertices": points, "triangles": triangles} | words
    whole_file(path, lambda room: np.savez_compressed(room, **arrays))


def _by_meshio(path: str, kind: str, points: Floats, triangles: Numbers) -> None:
    import meshio
    options = {"binary": True} if kind in BINARY else {}
    narrow = points.astype(np.float32) if kind in NARROW else points
    body = meshio.Mesh(narrow, [("triangle", triangles)])

    def write(room: str) -> None:
        body.write(room, **options)
    whole_file(path, write)


def _quantized(mesh: Mesh, places: tuple[Floats, Floats, Floats], crs: Optional[str], origin: Floats, picture: Picture,
               exaggerate: float, told: dict[str, Any]) -> list[Any]:
    """A GLB of two bytes a coordinate: columns, rows and heights as they are where they are whole, otherwise parts of their
    range; what these are off is told, and in the error."""
    x, y, z = places
    a, b, _, d, e, _ = mesh.transform
    is_own = crs in (None, mesh.crs) and not b and not d
    steps = (abs(a), mesh.unit * exaggerate, abs(e)) if is_own else (0.0, 0.0, 0.0)
    axes = [_whole_steps(values, step) for values, step in zip((x - x.min(), z - z.min(), y.max() - y), steps)]
    off_x, off_z, off_y = (it.off for it in axes)
    if max(off_x, off_y, off_z) > 0:
        east, north = _steepest(x, y, z, mesh.triangles)
        told["quantized"] = (off_z + east * off_x + north * off_y) / exaggerate
        told["error"] += told["quantized"]
    return gltf.glb(np.column_stack([it.numbers for it in axes]), mesh.triangles, uv=picture.uv, image=picture.image, extras=told,
                    normals=picture.normals, scale=[it.step for it in axes],
                    translation=(x.min() - origin[0], z.min() - origin[2], origin[1] - y.max()))


class Steps(NamedTuple):
    """Numbers of two bytes."""
    numbers: npt.NDArray[np.uint16]
    step: float
    off: float  #: by how much a value is off its number of steps, at most


def _whole_steps(values: Floats, step: float) -> Steps:
    """Values from 0 on as whole numbers of a step, or where they are none of its finest possible one."""
    exact = values / step if step else values
    if not step or exact.max() > MOST or np.abs(exact - np.rint(exact)).max() > NOTHING:
        step = float(values.max()) / MOST or 1.0
        exact = values / step
    numbers = np.rint(exact)
    off = float(np.abs(exact - numbers).max())
    return Steps(numbers.astype("<u2"), step, off * step if off > NOTHING else 0.0)


def _steepest(x: Floats, y: Floats, z: Floats, triangles: Numbers) -> tuple[float, float]:
    """How much a triangle rises to the east, and to the north, for each step of 1, at most."""
    one, two, three = triangles.T
    (ax, ay, az), (bx, by, bz) = ([it[end] - it[one] for it in (x, y, z)] for end in (two, three))
    double = ax * by - ay * bx
    return float(np.abs((az * by - ay * bz) / double).max()), float(np.abs((ax * bz - az * bx) / double).max())

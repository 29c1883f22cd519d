"""GLB (glTF 2.0 binary) of one triangle mesh, with numpy.

The file: 12 bytes of head ("glTF", version 2, length of all), a chunk of JSON padded with spaces to 4 bytes, and a chunk of
the buffer padded with zeros. Each view of the buffer begins at a multiple of 4. glTF has y up: (east, north, up) is written
as (east, up, -north), which turns nothing around, so triangles stay counterclockwise.
"""
from __future__ import annotations

import json
import struct
from typing import Any, NamedTuple, Optional, Sequence

import numpy as np
import numpy.typing as npt

FLOAT, UNSIGNED_SHORT, UNSIGNED_INT, BYTE = 5126, 5123, 5125, 5120
ARRAY_BUFFER, ELEMENT_ARRAY_BUFFER = 34962, 34963
CLAMP_TO_EDGE, LINEAR, LINEAR_MIPMAP_LINEAR = 33071, 9729, 9987
TRIANGLES = 4
COLOR = (0.72, 0.69, 0.62, 1.0)
PICTURES = {b"\x89PNG": "image/png", b"\xff\xd8": "image/jpeg"}  # by their first bytes
Array = npt.NDArray[Any]


def y_up(vectors: Array) -> Array:
    """(east, north, up) as (east, up, -north).

    >>> y_up(np.array([[1, 2, 3]])).tolist()
    [[1, 3, -2]]
    """
    return np.stack((vectors[:, 0], vectors[:, 2], -vectors[:, 1]), axis=1)


class Buffer:
    """The buffer of a GLB, its views and accessors."""

    def __init__(self) -> None:
        self.parts: list[Any] = []
        self.length = 0
        self.views: list[dict[str, Any]] = []
        self.accessors: list[dict[str, Any]] = []

    def view(self, data: Any, size: int, **fields: Any) -> int:
        """A view of so many bytes: its number."""
        self.views.append({"buffer": 0, "byteOffset": self.length, "byteLength": size, **fields})
        self.parts += [data, bytes(-size % 4)]
        self.length += size + -size % 4
        return len(self.views) - 1

    def attribute(self, array: Array, component: int, has_bounds: bool = False, normalized: bool = False) -> int:
        """An accessor of one row a vertex; rows are padded to 4 bytes, as KHR_mesh_quantization wants."""
        width = array.shape[1] * array.itemsize
        stride = width + -width % 4
        if stride != width:
            wide = np.zeros((len(array), stride // array.itemsize), array.dtype)
            wide[:, :array.shape[1]] = array
        else:
            wide = np.ascontiguousarray(array)
        accessor = {"bufferView": self.view(wide.data, wide.nbytes, byteStride=stride, target=ARRAY_BUFFER),
                    "componentType": component, "count": len(array), "type": f"VEC{array.shape[1]}"}
        if normalized:
            accessor["normalized"] = True
        if has_bounds:
            # Column by column, which numpy does many times as fast as all at once.
            accessor["min"], accessor["max"] = ([bound(column).item() for column in array.T] for bound in (np.min, np.max))
        self.accessors.append(accessor)
        return len(self.accessors) - 1

    def indices(self, triangles: Array, vertices: int) -> int:
        # 65535 itself restarts a primitive, so it is no index of two bytes.
        kind, component = (np.uint16, UNSIGNED_SHORT) if vertices <= 65_535 else (np.uint32, UNSIGNED_INT)
        data = np.ascontiguousarray(triangles, kind)
        self.accessors.append({"bufferView": self.view(data.data, data.nbytes, target=ELEMENT_ARRAY_BUFFER),
                               "componentType": component, "count": int(triangles.size), "type": "SCALAR"})
        return len(self.accessors) - 1


def glb(positions: Array, triangles: Array, *, normals: Optional[Array] = None, uv: Optional[Array] = None,
        matrix: Optional[Sequence[float]] = None, translation: Optional[Sequence[float]] = None,
        scale: Optional[Sequence[float]] = None, image: Optional[bytes] = None,
        color: Sequence[float] = COLOR, extras: Optional[dict[str, Any]] = None) -> list[Any]:
    """A GLB, in pieces of bytes that are never put together in memory.

    Args:
        positions: shape (n, 3) in axes of glTF: float32 (written as it is), or uint16 (KHR_mesh_quantization; `scale`
            makes metres of it).
        normals: shape (n, 3), floats of length 1 in axes of glTF; with uint16 positions they are written as bytes.
        uv: shape (n, 2), (0, 0) at the upper left of the image.
        matrix: of the node, 16 numbers by columns; or `translation` and `scale`.
        image: bytes of a PNG or a JPEG, for uv.
        color: red, green, blue, opacity of the material, 0 to 1.
        extras: of the node.
    """
    buffer = Buffer()
    is_whole = positions.dtype == np.uint16
    points = positions if is_whole else np.asarray(positions, "<f4")
    attributes = {"POSITION": buffer.attribute(points, UNSIGNED_SHORT if is_whole else FLOAT, has_bounds=True)}
    if normals is not None:
        attributes["NORMAL"] = _bytes_of_normals(buffer, normals, scale) if is_whole \
            else buffer.attribute(np.asarray(normals, "<f4"), FLOAT)
    if uv is not None:
        attributes["TEXCOORD_0"] = buffer.attribute(np.asarray(uv, "<f4"), FLOAT)
    index = buffer.indices(triangles, len(positions))
    node: dict[str, Any] = {"mesh": 0}
    for name, value in (("matrix", matrix), ("translation", translation), ("scale", scale)):
        if value is not None:
            node[name] = [float(number) for number in value]
    if extras:
        node["extras"] = extras
    head = _head(attributes, index, node)
    paint = head["materials"][0]["pbrMetallicRoughness"]
    paint["baseColorFactor"] = list(color)
    if image is not None:
        kind = next((kind for begin, kind in PICTURES.items() if image.startswith(begin)), None)
        if kind is None:
            raise ValueError("texture is no PNG and no JPEG, which are what glTF takes")
        head["images"] = [{"bufferView": buffer.view(image, len(image)), "mimeType": kind}]
        head["textures"] = [{"source": 0, "sampler": 0}]
        head["samplers"] = [{"wrapS": CLAMP_TO_EDGE, "wrapT": CLAMP_TO_EDGE, "magFilter": LINEAR,
                             "minFilter": LINEAR_MIPMAP_LINEAR}]
        paint |= {"baseColorTexture": {"index": 0}, "baseColorFactor": [1.0, 1.0, 1.0, 1.0]}
    if is_whole:
        head["extensionsUsed"] = head["extensionsRequired"] = ["KHR_mesh_quantization"]
    head |= {"accessors": buffer.accessors, "bufferViews": buffer.views, "buffers": [{"byteLength": buffer.length}]}
    return _chunks(head, buffer)


def _bytes_of_normals(buffer: Buffer, normals: Array, scale: Optional[Sequence[float]]) -> int:
    """The node's scale is undone on normals by its inverse, so a normal is scaled first."""
    bent = np.asarray(normals, np.float64) * np.asarray(scale if scale is not None else (1, 1, 1), np.float64)
    bent /= np.linalg.norm(bent, axis=1, keepdims=True)
    return buffer.attribute(np.rint(bent * 127).astype(np.int8), BYTE, normalized=True)


class Layout(NamedTuple):
    """Where the parts of a GLB lie that is written piece by piece."""
    positions: int  #: the first byte of each: three floats of 32 bits a vertex
    normals: int  #: the same, or where they would be
    indices: int  #: three uint32 a triangle
    size: int
    head: bytes


ROOM = 1 << 14  # bytes, for numbers of the JSON that are not known before all is written


def layout(vertices: int, triangles: int, has_normals: bool, bounds: Array, extras: dict[str, Any]) -> Layout:
    """The head of a GLB of one mesh, and where its parts lie: that depends on the counts alone.

    Args:
        bounds: the least and the greatest of each coordinate, shape (2, 3).
        extras: of the node; `bounds` and these take less than 16 KB.
    """
    each = 12 * vertices
    views = [{"buffer": 0, "byteOffset": at, "byteLength": each, "byteStride": 12, "target": ARRAY_BUFFER}
             for at in range(0, 2 * each if has_normals else each, each)]
    views.append({"buffer": 0, "byteOffset": each * len(views), "byteLength": 12 * triangles, "target": ELEMENT_ARRAY_BUFFER})
    accessors: list[dict[str, Any]] = [
        {"bufferView": 0, "componentType": FLOAT, "count": vertices, "type": "VEC3", "min": bounds[0].tolist(),
         "max": bounds[1].tolist()},
        {"bufferView": 1, "componentType": FLOAT, "count": vertices, "type": "VEC3"},
        {"bufferView": len(views) - 1, "componentType": UNSIGNED_INT, "count": 3 * triangles, "type": "SCALAR"}]
    if not has_normals:
        del accessors[1]
    attributes = {"POSITION": 0, "NORMAL": 1} if has_normals else {"POSITION": 0}
    length = each * (len(views) - 1) + 12 * triangles
    head = _head(attributes, len(accessors) - 1, {"mesh": 0, "extras": extras}) | {
        "accessors": accessors, "bufferViews": views, "buffers": [{"byteLength": length}]}
    text = json.dumps(head, separators=(",", ":"), allow_nan=False).encode()
    begin = 12 + 8 + ROOM + 8
    _refuse_long(begin + length)
    if len(text) > ROOM:
        raise ValueError(f"what a GLB tells of itself takes {len(text)} bytes, and may take {ROOM}")
    return Layout(begin, begin + each, begin + each * (len(views) - 1), begin + length, b"".join((
        struct.pack("<4sII", b"glTF", 2, begin + length), struct.pack("<I4s", ROOM, b"JSON"), text.ljust(ROOM),
        struct.pack("<I4s", length, b"BIN\0"))))


def _head(attributes: dict[str, int], indices: int, node: dict[str, Any]) -> dict[str, Any]:
    # A material is of metal where nothing else is said, and dark in viewers.
    paint: dict[str, Any] = {"baseColorFactor": list(COLOR), "metallicFactor": 0.0, "roughnessFactor": 1.0}
    primitive = {"attributes": attributes, "indices": indices, "material": 0, "mode": TRIANGLES}
    return {"asset": {"version": "2.0", "generator": "calfrewin"}, "scene": 0, "scenes": [{"nodes": [0]}], "nodes": [node],
            "meshes": [{"primitives": [primitive]}], "materials": [{"pbrMetallicRoughness": paint, "doubleSided": False}]}


def _refuse_long(size: int) -> None:
    if size >= 1 << 32:
        raise ValueError(f"a GLB of {size} bytes is more than its 32-bit length can say: give a greater error, or make tiles")


def _chunks(head: dict[str, Any], buffer: Buffer) -> list[Any]:
    text = json.dumps(head, separators=(",", ":"), allow_nan=False).encode()
    text += b" " * (-len(text) % 4)
    size = 12 + 8 + len(text) + 8 + buffer.length
    _refuse_long(size)
    return [struct.pack("<4sII", b"glTF", 2, size), struct.pack("<I4s", len(text), b"JSON"), text,
            struct.pack("<I4s", buffer.length, b"BIN\0"), *buffer.parts]

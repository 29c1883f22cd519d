"""How to look at what was made."""
from __future__ import annotations

import pathlib

WITH = {
    ".glb": "Blender, or a viewer of glTF",
    ".stl": "the program that slices it for a printer, or Blender",
    ".ply": "MeshLab or Blender",
    ".obj": "MeshLab or Blender",
    ".off": "MeshLab",
    ".vtk": "ParaView",
    ".vtu": "ParaView",
    ".npz": "numpy.load",
}


def how_to_look(out: str) -> str:
    """One line on a file, or on the tileset.json of a folder."""
    path = pathlib.PurePath(out)
    if path.name == "tileset.json":
        return f"to look at it: python3 -m http.server -d {path.parent}, and http://localhost:8000 in a browser"
    return f"to look at it: {WITH[path.suffix.lower()]}"

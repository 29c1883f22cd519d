"""Terrain meshes of the fewest triangles for an error, by the proved engine of libroam.

    mesh = calfrewin.fit(heights, error=2.5)       # few triangles that are nowhere off by more than 2.5
    mesh.vertices, mesh.triangles                  # numpy arrays of shape (n, 3) and (m, 3)
    mesh.save("my.glb")
    calfrewin.fit_file("my.tif", error=2.5)

`Engine` makes the best mesh for a moving camera, `view` for one; `Fitter` and `Mosaic` make meshes that meet side by side.
`World` makes it over a terrain of pages that come and go, and `Pager` loads them around the camera.
`calfrewin.raster` reads what rasterio reads, by windows; `calfrewin.export` writes; `calfrewin.tiles` makes 3D Tiles of terrain
of any size. Importing this package imports numpy alone.
"""
from ._version import __version__
from .engine import SIDES, Changes, Engine, Fit, Note, State, Worn, changes
from .fitter import ANY, Fitter, Mosaic, Required, fit_tin, fit_with
from .mesh import Mesh, fit, surface, view
from .pager import Pager
from .planes import frustum, pixel_threshold
from .raster import fit_file
from .world import BadPage, Page, Square, World, WorldNote

__all__ = ["ANY", "SIDES", "BadPage", "Changes", "Engine", "Fit", "Fitter", "Mesh", "Mosaic", "Note", "Page", "Pager",
           "Required", "Square", "State", "World", "WorldNote", "Worn", "__version__", "changes", "fit", "fit_file", "fit_tin",
           "fit_with", "frustum", "pixel_threshold", "surface", "view"]

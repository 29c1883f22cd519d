"""Meshes cut along polygons: they cover these and nothing else, without cracks, as far off as the whole mesh."""
import json

import numpy as np
import pytest
from hypothesis import given, strategies as st
from shapely.geometry import MultiPolygon, Point, Polygon, box, mapping

from calfrewin import mask
from calfrewin.mesh import array_of, fit, mesh_of
from calfrewin.raster import fit_raster, open_raster
from calfrewin.solid import border_edges, solid
from made import hills, write_tif
from readers import is_closed

HEIGHTS = hills(60, 90)
ARRAY = array_of(HEIGHTS, cell=10)  # x to 890, y to 590
ALL = box(0, 0, 890, 590)


def cut(polygons, **asked):
    clip = mask.clip_to(polygons, ARRAY.transform, HEIGHTS.shape)
    return mesh_of(ARRAY, **{"error": None, "triangles": None, "unit": None} | asked, clip=clip)


def check(mesh, polygons):
    want = polygons.intersection(ALL)
    want = MultiPolygon([part for part in getattr(want, "geoms", [want]) if part.geom_type == "Polygon"])
    a, b, c = (mesh.vertices[mesh.triangles[:, k], :2] for k in range(3))
    area = np.cross(b - a, c - a) / 2
    assert area.min() > 0 and area.sum() == pytest.approx(want.area, rel=1e-6)
    one, two = border_edges(mesh.triangles).T
    assert np.hypot(*(mesh.vertices[one] - mesh.vertices[two])[:, :2].T).sum() == pytest.approx(want.length, rel=1e-6)
    # Each vertex lies on the surface of the whole mesh.
    whole = mesh.surface()
    for place, height in zip(np.column_stack((mesh.column, mesh.row)), mesh.height):
        if (place == np.rint(place)).all():
            assert height == pytest.approx(whole[int(place[1]), int(place[0])], abs=1e-6)
    # Polygons that touch at a point have one wall there for two solids.
    if len(np.unique(one)) == len(one):
        assert is_closed(*solid(mesh.vertices, mesh.triangles, -50, False)) > 0


STAR = Polygon([(450 + r * np.cos(t), 300 + r * np.sin(t)) for t, r in zip(np.arange(24) * np.pi / 12, 12 * [90, 250])])


@pytest.mark.parametrize("polygons", [
    STAR,
    STAR.difference(Point(450, 300).buffer(50)),
    box(100, 100, 500, 300),  # along rows and columns of points
    box(95, 103, 501, 307),
    Polygon([(1, 5), (-1, 0), (-5, -1), (10, 0), (0, 0)]).buffer(0),  # of which a line along the border of the array is left
    Polygon([(0, 0), (500, 500), (500, 0)]),  # along the diagonals of cells
    Polygon([(-100, -100), (450, 900), (1200, 100)]),  # beyond the array
    MultiPolygon([box(0, 0, 100, 100), box(300, 300, 303, 304)]),  # the second within one cell
    ALL,
], ids=lambda it: it.geom_type)
@pytest.mark.parametrize("error", [0.5, 10, 300])
def test_the_mesh_covers_the_polygons(polygons, error):
    mesh = cut(polygons, error=error)
    check(mesh, polygons)
    assert mesh.error == fit(HEIGHTS, error=error, cell=10).error and mesh.is_clipped


@given(st.lists(st.tuples(st.integers(-20, 910), st.integers(-20, 610)), min_size=3, max_size=8), st.floats(0.5, 100))
def test_any_polygon_is_covered(corners, error):
    polygons = Polygon(corners).buffer(0)
    if polygons.intersection(ALL).area > 1:
        check(cut(polygons, error=error), polygons)


def test_a_budget_is_that_of_what_is_left():
    assert 0.9 * 200 < len(cut(box(95, 103, 501, 307), triangles=200).triangles) <= 200


def test_polygons_come_from_files_in_their_own_system(tmp_path):
    path = write_tif(tmp_path / "a.tif", HEIGHTS, cell=10)
    raster = open_raster(path)
    from calfrewin.systems import transformer
    corners = [(500105, 4999700), (500500, 4999700), (500300, 4999900)]
    degrees = Polygon(list(zip(*transformer(raster.crs, "EPSG:4326").transform(*np.array(corners).T))))
    feature = {"type": "Feature", "properties": {}, "geometry": mapping(degrees)}
    forms = {"a.geojson": {"type": "FeatureCollection", "features": [feature]}, "b.json": feature, "c.geojson": mapping(degrees),
             "d.geojson": mapping(Polygon(corners)) | {"crs": {"type": "name", "properties": {"name": "EPSG:32632"}}}}
    for name, content in forms.items():
        (tmp_path / name).write_text(json.dumps(content))
        polygons = mask.mask_of(str(tmp_path / name), raster.crs)
        assert polygons.area == pytest.approx(Polygon(corners).area, rel=1e-3)
        mesh = fit_raster(raster, error=2, polygons=polygons).mesh
        assert mesh.vertices[:, 1].max() == pytest.approx(4999900, abs=0.1)
    fiona = pytest.importorskip("fiona")
    with fiona.open(tmp_path / "e.gpkg", "w", "GPKG", {"geometry": "Polygon", "properties": {}}, crs="EPSG:32632") as layer:
        layer.write({"geometry": mapping(Polygon(corners)), "properties": {}})
    assert mask.mask_of(str(tmp_path / "e.gpkg"), raster.crs).area == pytest.approx(Polygon(corners).area)


@pytest.mark.parametrize("content, text", [
    ("nothing", "is no GeoJSON"), ("[]", "is no GeoJSON"), ('{"type": "Point", "coordinates": [1, 2]}', "has no polygon"),
    ('{"type": "FeatureCollection", "features": []}', "has no polygon"),
])
def test_a_file_without_polygons_is_refused(tmp_path, content, text):
    (tmp_path / "a.geojson").write_text(content)
    with pytest.raises(ValueError, match=text):
        mask.read_polygons(str(tmp_path / "a.geojson"))


def test_polygons_elsewhere_are_refused():
    with pytest.raises(ValueError, match="no polygon lies over the heights"):
        cut(box(2000, 2000, 3000, 3000), error=1)

"""How meshes, and what is told of them, are compared in these checks. No line compares one with itself."""
from __future__ import annotations


def same(found: object, wanted: object, otherwise: str) -> None:
    """Fails where a mesh, or what is told of one, is another than the one wanted, and where it is compared with itself."""
    assert found is not wanted, f"{otherwise}: one object is compared with itself"
    assert found == wanted, otherwise

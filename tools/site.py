#!/usr/bin/env python3
"""Makes a site of the repository's pages, to be read and searched in a browser, by Debian's mkdocs.

usage: tools/site.py [FOLDER]     FOLDER: site, if none is given; what is there is replaced

Pages keep their places, so that their links hold; what they link to beside pages, as a source file, is copied. A link
that leads nowhere ends it with status 1. No page fetches anything from elsewhere.
The page of examples/web is there where its module is."""
from __future__ import annotations

import json
import re
import shutil
import subprocess
import sys
import tempfile
from pathlib import Path

TOP = Path(__file__).resolve().parent.parent
BUILT = {"out", "site", "build", "target", "dist"}
LINK = re.compile(r"\]\(([^)#\s]+)")
NAV: list[tuple[str, list[str]]] = [
    (
        "Use it",
        [
            "docs/PYTHON.md",
            "docs/SCALE.md",
            "docs/LIBRARY.md",
            "docs/JAVASCRIPT.md",
            "docs/REFERENCE.md",
            "docs/GRIDS.md",
            "docs/COMPARISON.md",
        ],
    ),
    ("What is proved", ["docs/THEOREM.md", "docs/DEFINITIONS.md", "docs/CRATES.md"]),
    (
        "Inside",
        [
            "docs/ARCHITECTURE.md",
            "docs/DECISIONS.md",
            "CONTRIBUTING.md",
            "bench/results.md",
            "bench/README.md",
            "CHANGELOG.md",
        ],
    ),
]


def pages() -> list[Path]:
    """All pages of the repository; what was built has none."""
    found = (it.relative_to(TOP) for it in TOP.rglob("*.md"))
    return sorted(it for it in found if not any(part in BUILT or part.startswith(".") for part in it.parts))


def copy(page: Path, into: Path) -> None:
    """Copies a page, and the files to which it links that are no pages."""
    (into / page).parent.mkdir(parents=True, exist_ok=True)
    shutil.copy(TOP / page, into / page)
    for link in LINK.findall((TOP / page).read_text(encoding="utf-8")):
        source = (TOP / page.parent / link).resolve()
        if "://" not in link and source.suffix != ".md" and source.is_file() and source.is_relative_to(TOP):
            target = into / source.relative_to(TOP)
            target.parent.mkdir(parents=True, exist_ok=True)
            shutil.copy(source, target)


def copy_page(into: Path) -> None:
    """Copies the page of examples/web with the package for JavaScript, where `lib/build --wasm js` has left its module."""
    if not (TOP / "js/calfrewin.wasm").is_file():
        print("site: without the page of examples/web, for which `lib/build --wasm js` makes the module", file=sys.stderr)
        return
    for part in ("examples/web", "js"):
        shutil.copytree(TOP / part, into / part, dirs_exist_ok=True, ignore=shutil.ignore_patterns("test", "*.tgz"))
    (into / "examples/jacksboro").mkdir(parents=True, exist_ok=True)
    shutil.copy(TOP / "examples/jacksboro/grid.pgm", into / "examples/jacksboro")


def nav(found: list[Path]) -> list[dict[str, object]]:
    """The menu: the pages of NAV that are there, and then the examples; the crates' pages are found by CRATES.md."""
    names = [str(it) for it in found]
    menu: list[dict[str, object]] = [{"Calfrewin": "README.md"}]
    menu += [{title: [it for it in listed if it in names]} for title, listed in NAV]
    return menu + [{"Examples": [it for it in names if it.startswith("examples/")]}]


def build(into: Path) -> int:
    mkdocs = shutil.which("mkdocs")
    if not mkdocs:
        print("site: the command mkdocs is not there; `apt-get install mkdocs` brings it", file=sys.stderr)
        return 1
    found = pages()
    with tempfile.TemporaryDirectory() as room:
        docs = Path(room) / "docs"
        for page in found:
            copy(page, docs)
        copy_page(docs)
        config = {
            "site_name": "Calfrewin",
            "docs_dir": str(docs),
            "site_dir": str(into.resolve()),
            "theme": {"name": "mkdocs", "highlightjs": False},
            "use_directory_urls": False,
            "plugins": ["search"],
            "nav": nav(found),
        }
        (Path(room) / "mkdocs.yml").write_text(json.dumps(config), encoding="utf-8")  # what is JSON is YAML
        told = subprocess.run(
            [mkdocs, "build", "--strict", "--clean", "-f", str(Path(room) / "mkdocs.yml")],
            capture_output=True,
            text=True,
            check=False,
        )
    for line in told.stderr.splitlines() if told.returncode else []:
        if "WARNING" in line or "ERROR" in line:
            print("site:", re.sub("\x1b[^m]*m", "", line).partition("-")[2].strip(), file=sys.stderr)
    return 1 if told.returncode else 0


def main(words: list[str]) -> int:
    if len(words) > 1 or words and words[0].startswith("-"):
        print(__doc__, file=sys.stderr)
        return 2
    return build(Path(words[0] if words else "site"))


if __name__ == "__main__":
    sys.exit(main(sys.argv[1:]))

"""What is made of the pages (tools/pages.py, tools/sources.py): over a small repository, and that this one's pages are so."""
from __future__ import annotations

import re
from pathlib import Path
from typing import Any

import pages
import pytest
import sources

from conftest import TOP

FILES = {
    "crates.txt": """# A line for each crate.

# Laws of triangles.
tri_laws:
low: tri_laws arrayvec

# Meshes.
high staticlib: low tri_laws core
high_tests: high
""",
    "crates/tri_laws/README.md": "# tri_laws\n\nLaws of triangles.\n",
    "crates/tri_laws/src/lib.rt": """//! Laws.

/// A mate is of the same level. More of it.
pub fn mate_laws()
    ensures same { (a : ℕ) → IsMate a a }
{}
""",
    "crates/tri_laws/specs/Lib.antt": "pub mod Mate\npub mod Edge\n",
    "crates/tri_laws/specs/Mate.antt": """-- Mates. This project's own.
use Rattle.std.specs.Prelude.{ℕ}

-- the mate of a: the other triangle
-- with the same base. Not on the border.
abbrev pub IsMate : ℕ → ℕ → Type 0
IsMate a b = Unit

-- the two halves
pub record Halves (n : ℕ) : Type 0 where
  pub low : ℕ
  pub high : ℕ

-- what no clause names
abbrev pub unnamed : ℕ
""",
    "crates/tri_laws/specs/Edge.antt": "-- Edges.\n\n-- an edge\nabbrev pub IsEdge : ℕ → Type 0\n",
    "crates/tri_laws/proofs/Lib.antt": "pub mod MateLemmas\n",
    "crates/tri_laws/proofs/MateLemmas.antt": "-- Mates.\n",
    "crates/low/README.md": "# low\n\nA heap of slots,\nwith a head. More.\n\nLast.\n",
    "crates/low/src/lib.rt": """//! A heap.

mod heap;
mod inner;
#[cfg(test)]
mod checked;

pub use heap::{
    Heap, Sink, full, from_c, Kind,
    MOST,
};
pub use mesh_defs::{Point};
""",
    "crates/low/src/heap.rt": """//! The heap.

ghost use Rattle.tri_laws.specs.Mate.{IsMate};

/// A finite map.
///
/// It takes memory.
#[derive(Drop)]
pub struct Heap<K: Copy> {
    /// The entries of it.
    entries: Vec<K>,
}

impl<K: Copy> Model for Heap<K> {
    ghost Value = { List
        (Option K) };
}

/// What may be told: `A` | `B`.
pub enum Kind {
    A,
}

impl<K: Copy> Heap<K> {
    /// Puts a key, in half units of height; it
    /// stays. Cost: a step.
    pub fn put(&mut self, key: K) -> bool
        requires vacant { key ≡ 1 }

        // The key is a mate of it. Of all.
        ensures key { let now = self.new in { IsMate now key } }
        ensures { result ≡ true }
        ensures others { self.new ≡ self.old }
    {
        let text = "a brace { in a text";
        if key == 1 {
            return false; // } in a comment
        }
        true
    }

    /// No part of what is offered.
    fn private(&self) {}
}

impl<K: Copy> Clone for Heap<K> {
    /// Not listed.
    pub fn clone(&self) -> Self {
        self
    }
}

/// A sink of bytes.
pub trait Sink {
    ghost contents: { Self → List ℕ };

    /// Writes a piece.
    fn write(&mut self, piece: &[u8])
        ensures bytes { contents self.new ≡ piece };
}

/// Whether it is full.
pub fn full() -> bool
    ensures { result ≡ false }
{
    false
}

/// Is called from C.
#[no_mangle]
pub extern "C" fn from_c(x: i32) -> i32 {
    x
}

/// The most: 3.
pub const MOST: u32 = 3;

/// Is not offered.
pub fn half() -> bool {
    true
}
""",
    "crates/low/src/inner.rt": "//! Inner.\n\n/// Not offered.\npub fn full_inside() {}\n",
    "crates/low/src/checked.rt": "//! Tests.\n\n/// Not offered.\npub fn full_tested() {}\n",
    "crates/high/README.md": "# high\n\nMeshes.\n",
    "crates/high/src/lib.rt": "//! High.\n",
    "crates/high_tests/README.md": "# high_tests\n\nTests.\n\n<!-- generated: tests -->\n<!-- end -->\n",
    "crates/high_tests/src/lib.rt": "//! Tests of meshes.\n\nmod first;\n",
    "crates/high_tests/src/first.rt": "//! A first one, worked\n//! by hand. More.\n\n#[test]\nfn works() {}\n",
    "docs/DEFINITIONS.md": """# Definitions, for whoever reads

<!-- generated: words tri_laws.Mate tri_laws.Edge.IsEdge -->
<!-- end -->
""",
    "docs/ARCHITECTURE.md": "# Architecture, for whoever reads\n\n<!-- generated: storeys -->\n<!-- end -->\n",
}


@pytest.fixture
def small(tmp_path: Path) -> Path:
    for name, text in FILES.items():
        path = tmp_path / name
        path.parent.mkdir(parents=True, exist_ok=True)
        path.write_text(text, encoding="utf-8")
    return tmp_path


def made(top: Path, name: str) -> str:
    return pages.pages(top)[top / name]


def test_a_table_has_what_is_offered_with_its_labels(small: Path, capsys: Any) -> None:
    before = {path: path.read_bytes() for path in small.rglob("*.md")}
    assert pages.main(["--table", "low", "--top", str(small)]) == 0
    assert capsys.readouterr().out == """|item|meaning|promises|needs|
|-|-|-|-|
|`Heap`|A finite map.|seen as `List (Option K)`||
|`Heap::put`|Puts a key, in half units of height; it stays.|`key`: The key is a mate of it; `ensures`; `others`|`vacant`|
|`Sink`|A sink of bytes.|exposes `contents`||
|`Sink::write`|Writes a piece.|`bytes`||
|`full`|Whether it is full.|`ensures`||
|`from_c`|Is called from C.|||
|`Kind`|What may be told: `A` \\| `B`.|||

Limits: `MOST`.
"""
    assert {path: path.read_bytes() for path in small.rglob("*.md")} == before


def test_a_table_of_no_crate_is_refused(small: Path, capsys: Any) -> None:
    with pytest.raises(SystemExit, match="^lower is no crate; crates.txt has their names$"):
        pages.main(["--table", "lower", "--top", str(small)])
    with pytest.raises(SystemExit):
        pages.main(["--table", "low", "--check", "--top", str(small)])
    assert capsys.readouterr().out == ""


def test_a_crate_that_offers_nothing_has_an_empty_table(small: Path, capsys: Any) -> None:
    assert pages.main(["--table", "high", "--top", str(small)]) == 0
    assert capsys.readouterr().out == "\n"


def test_a_crate_of_tests_has_its_files(small: Path) -> None:
    assert "\n|`first.rt`|A first one, worked by hand.|\n" in made(small, "crates/high_tests/README.md")
    assert "lib.rt" not in made(small, "crates/high_tests/README.md")


def test_a_crate_of_tests_without_its_files_gets_them(small: Path) -> None:
    (small / "crates/high_tests/README.md").write_text("# high_tests\n\nTests.\n", encoding="utf-8")
    assert made(small, "crates/high_tests/README.md").startswith("# high_tests\n\nTests.\n\n<!-- generated: tests -->\n|file|")
    assert not {small / f"crates/{name}/README.md" for name in ("tri_laws", "low", "high")} & set(pages.pages(small))


def test_crates_stand_by_storeys_on_the_nearest_ones(small: Path) -> None:
    page = made(small, "docs/CRATES.md")
    rows = re.findall(r"^## .*|^\|\[.*", page, re.M)
    assert rows == [
        "## Laws of triangles",
        "|[`tri_laws`](../crates/tri_laws/README.md)|law||Laws of triangles.|",
        "|[`low`](../crates/low/README.md)|code|tri_laws, arrayvec|A heap of slots, with a head.|",
        "## Meshes",
        "|[`high`](../crates/high/README.md)|code|low, core|Meshes.|",
        "|[`high_tests`](../crates/high_tests/README.md)|code|high|Tests.|",
    ]
    figure = "Meshes                          high high_tests\n\nLaws of triangles               tri_laws* low\n"
    assert figure in made(small, "docs/ARCHITECTURE.md")


def test_definitions_have_the_words_that_other_crates_name(small: Path) -> None:
    page = made(small, "docs/DEFINITIONS.md")
    assert re.findall(r"^\|`.*", page, re.M) == [
        "|`IsMate`|the mate of a: the other triangle with the same base|[Mate](../crates/tri_laws/specs/Mate.antt)|",
        "|`IsEdge`|an edge|[Edge](../crates/tri_laws/specs/Edge.antt)|",
    ]


def test_a_page_that_differs_is_named_and_then_made(small: Path, capsys: Any) -> None:
    assert pages.main(["--check", "--top", str(small)]) == 1
    told = capsys.readouterr().err.splitlines()
    assert "docs/CRATES.md is not what tools/pages.py makes" in told
    assert "crates/high/README.md is not what tools/pages.py makes" not in told
    assert not (small / "docs/CRATES.md").exists()
    assert pages.main(["--top", str(small)]) == 0
    assert pages.main(["--check", "--top", str(small)]) == 0
    readme = small / "crates/high_tests/README.md"
    readme.write_text(readme.read_text(encoding="utf-8").replace("`first.rt`", "`second.rt`"), encoding="utf-8")
    assert pages.main(["--check", "--top", str(small)]) == 1
    assert capsys.readouterr().err == "crates/high_tests/README.md is not what tools/pages.py makes\n"


@pytest.mark.parametrize("text", ["<!-- generated: words low -->\n", "<!-- generated: unheard-of -->\n<!-- end -->\n"])
def test_a_block_without_end_and_one_of_no_kind_are_refused(small: Path, text: str) -> None:
    (small / "docs/OTHER.md").write_text(f"# Other, for whoever reads\n\n{text}", encoding="utf-8")
    with pytest.raises(SystemExit):
        pages.pages(small)


@pytest.mark.parametrize("text, first", [
    ("One. Two.", "One."), ("See e.g. This. Two.", "See e.g. This."), ("Of 2.5 units\nof it. `A` is.", "Of 2.5 units of it."),
    ("`x` ..`y` (a. b). C", "`x` ..`y` (a. b)."), ("No stop\n\nNext.", "No stop"), ("", ""), ("Is it? Yes.", "Is it?"),
])
def test_a_sentence_ends_at_its_stop(text: str, first: str) -> None:
    assert sources.sentence(text) == first


def test_a_long_sentence_ends_at_a_mark() -> None:
    text = "One, two: three; four. Five."
    assert [sources.short(text, most) for most in (4, 3)] == ["One, two: three; four.", "One, two: three."]
    assert sources.short(text, 3, ";:") == "One, two." and sources.short("One two three four.", 3) == "One two three four."


def test_the_pages_are_what_the_script_makes() -> None:
    differ = [path for path, text in pages.pages(TOP).items() if not path.is_file() or path.read_text(encoding="utf-8") != text]
    assert not differ, "run tools/pages.py"


def test_each_name_that_a_crate_offers_is_found_once() -> None:
    for crate in sources.crates_of(TOP):
        lib = TOP / "crates" / crate.name / "src" / "lib.rt"
        names = [item.full_name for item in sources.public_items(TOP / "crates" / crate.name)]
        assert len(names) == len(set(names)), crate.name
        assert not lib.is_file() or set(sources.exported(lib.read_text(encoding="utf-8"))) <= set(names), crate.name


CRATES = [crate.name for crate in sources.crates_of(TOP)]


@pytest.fixture(scope="module")
def here() -> pages.Sources:
    return pages.Sources(TOP)


@pytest.mark.parametrize("name", CRATES)
def test_a_readme_is_short_and_a_table_has_all_that_is_offered(here: pages.Sources, name: str) -> None:
    text = here.readme(name).read_text(encoding="utf-8")
    assert text.startswith(f"# {name}\n\n")
    assert len(pages.first_sentence(text).split()) <= 25
    by_hand = re.sub(r"^```.*?^```$|^<!-- generated.*?^<!-- end -->$|^\|.*?$", "", text, flags=re.M | re.S)
    assert len(by_hand.split()) <= 200
    offered = here.items[name]
    if name.endswith("_tests"):
        assert "\n<!-- generated: tests -->\n" in text
    assert not [item.full_name for item in offered if item.kind != "fn" and not item.doc]
    told = pages.offers(here, name)
    rows = re.findall(r"^\|`(.*?)`\|", told, re.M)
    assert rows == [item.full_name for item in offered if item.kind != "const"]
    labels = [f"`{it.label or it.kind}`" for item in offered for it in item.clauses]
    assert not [label for label in labels if label not in told]

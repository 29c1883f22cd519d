"""What is promised is what checks/statements.txt says (checks/words.py --text), and what the pages cite of it is there."""
from __future__ import annotations

import functools
import re
import subprocess
import sys
from collections.abc import Iterable
from pathlib import Path

import pytest
import sources
import words

from conftest import CHECKS, TOP

SMALL = {
    "crates/low/src/lib.rt": """//! A heap.

mod limits;

ghost use Rattle.low.specs.Heap.{IsHeap, is_there};
ghost use Rattle.low.specs.declared.limits.TheConstants.{MOST};

/// Puts a key.
pub fn put(heap: &mut Heap, key: u32) -> bool
    requires few { key < MOST }

    // It stays a heap.
    ensures heap { IsHeap heap.new }
    ensures there { is_there heap.new key }
{
    true
}
""",
    "crates/low/src/limits.rt": "//! Limits.\n\n/// The most.\npub const MOST: u32 = 3;\n",
    "crates/low/specs/Heap.antt": """-- Heaps.
use Rattle.low.specs.Key.{IsKey}

-- a heap of keys
abbrev pub IsHeap : List ℕ → Type 0
IsHeap keys = All IsKey keys

abbrev pub is_there : List ℕ → ℕ → Type 0
is_there keys key = Contains keys key
""",
    "crates/low/specs/Key.antt": """-- Keys.
use Rattle.low.specs.Number.{IsNumber}

abbrev pub IsKey : ℕ → Type 0
IsKey key = IsNumber key
""",
    "crates/low/specs/Number.antt": "-- Numbers.\n\nabbrev pub IsNumber : ℕ → Type 0\nIsNumber a = a < 9\n",
    "crates/high/src/lib.rt": """//! A law.

/// Each number is one.
pub fn number_laws()
    ensures each { (a : ℕ) → a ≡ a }
{}
""",
    "README.md": "# A heap\n\nIt holds (`each` of `number_laws`).\n",
    "lib/roam.h": "/* A header. */\n",
}


@pytest.fixture
def at_top(monkeypatch: pytest.MonkeyPatch) -> None:
    monkeypatch.chdir(TOP)


@pytest.fixture
def small(tmp_path: Path, monkeypatch: pytest.MonkeyPatch) -> Path:
    for name, text in SMALL.items():
        path = tmp_path / name
        path.parent.mkdir(parents=True, exist_ok=True)
        path.write_text(text, encoding="utf-8")
    monkeypatch.chdir(tmp_path)
    return tmp_path


def told(*statements: tuple[str, ...]) -> str:
    return "\n\n".join(words.paragraphs(statements or (("low", "put"),))) + "\n"


def test_the_statements_are_those_of_the_file(at_top: None) -> None:
    kept = (CHECKS / "statements.txt").read_text(encoding="utf-8")
    found = words.differences(kept, "\n\n".join(words.paragraphs()) + "\n")
    assert not found, "\n".join([f"{len(found)} differ; if that is meant: {words.ACCEPT}", *found[:12]])


def test_a_statement_has_its_clauses_and_their_words(small: Path) -> None:
    heads = re.findall(r"^\S.*", told().partition("\n\n")[2], re.M)
    assert [re.sub(" [0-9a-f]{16}$", "", head) for head in heads] == [
        "low put, head", "low put, requires few", "low put, ensures heap", "low put, ensures there",
        "high number_laws, head", "high number_laws, ensures each",
        "word low.Heap.IsHeap", "word low.Heap.is_there", "word low.Key.IsKey", "word low.src.limits.MOST",
        "below low.Number.IsNumber",
    ]
    assert "low put, ensures heap\n    IsHeap heap.new\n  names low.Heap.IsHeap\n" in told()
    assert "low put, head\n    pub fn put(heap: &mut Heap, key: u32) -> bool\n" in told()


@pytest.mark.parametrize("file, old, new, difference", [
    pytest.param("src/lib.rt", "    ensures there { is_there heap.new key }\n", "", ["low put, ensures there: is gone",
                 "word low.Heap.is_there: is gone"], id="a_clause_that_is_gone_is_told"),
    pytest.param("src/lib.rt", "    ensures heap", "    requires some { 0 < key }\n    ensures heap",
                 ["low put, requires some: is new"], id="a_condition_that_is_new_is_told"),
    pytest.param("src/lib.rt", "key: u32", "key: u16", ["low put, head: was"], id="a_type_that_is_narrower_is_told"),
    pytest.param("src/lib.rt", "{ IsHeap heap.new }", "{ ⊤ }", ["low put, ensures heap: was", "word low.Heap.IsHeap: is gone",
                 "word low.Key.IsKey: is gone", "below low.Number.IsNumber: is gone"], id="a_clause_that_says_less_is_told"),
    pytest.param("specs/Heap.antt", "Contains keys key", "⊤", ["word low.Heap.is_there: was"],
                 id="a_word_that_says_less_is_told"),
    pytest.param("specs/Key.antt", "IsNumber key", "⊤", ["word low.Key.IsKey: was", "below low.Number.IsNumber: is gone"],
                 id="a_word_of_a_word_that_says_less_is_told"),
    pytest.param("specs/Number.antt", "a < 9", "a < 10", ["below low.Number.IsNumber: was"], id="what_says_less_below_is_told"),
    pytest.param("src/limits.rt", "= 3", "= 4", ["word low.src.limits.MOST: was"],
                 id="a_limit_that_is_another_one_is_told"),
    pytest.param("src/lib.rt", "// It stays a heap.", "// It is one.", [], id="a_comment_is_no_statement"),
])
def test_differences(small: Path, file: str, old: str, new: str, difference: list[str]) -> None:
    before, path = told(), small / "crates/low" / file
    path.write_text(path.read_text(encoding="utf-8").replace(old, new), encoding="utf-8")
    assert [it.partition("\n")[0] for it in words.differences(before, told())] == difference


def test_a_function_that_is_not_there_is_an_error(small: Path) -> None:
    with pytest.raises(SystemExit, match="low has no function take"):
        told(("low", "put", "take"))


@pytest.mark.parametrize("count, status", [
    pytest.param(9, 1, id="a_clause_too_many_is_told"), pytest.param(10, 0, id="as_many_clauses_as_wanted_are_right"),
    pytest.param(11, 1, id="a_clause_that_lacks_is_told"),
])
def test_clauses_are_counted(count: int, status: int) -> None:
    given = [sys.executable, CHECKS / "words.py", "crates/roam_run/src/run.rt", "roam", "--ensures", str(count)]
    assert subprocess.run(given, cwd=TOP, stdout=subprocess.DEVNULL, check=False).returncode == status


# --- What the pages cite. ---

def code_names() -> set[str]:
    """What is a name in crates: their own, those of functions, labels of clauses, and each word of specs/ and of code."""
    found = {it.name for it in (TOP / "crates").iterdir()}
    for file in [*TOP.glob("crates/*/specs/**/*.antt"), *TOP.glob("crates/*/src/**/*.rt")]:
        text = re.sub(r"--.*|//.*", "", file.read_text(encoding="utf-8"))
        found |= set(re.findall(r"[\w']+", text))
    return found


def definitions() -> set[str]:
    """The words that specs/ define."""
    return {word.name for file in TOP.glob("crates/*/specs/**/*.antt") for word in sources.module_of(file).words}


@functools.lru_cache(maxsize=None)
def labels_of() -> dict[str, set[str]]:
    """The labels of each function that has clauses, by its name and by that of its type as well; at the top."""
    found: dict[str, set[str]] = {}
    for crate in sorted(it.name for it in Path("crates").iterdir()):
        for item, _ in words.items_of(crate):
            for name in {item.name, item.full_name} if item.clauses else ():
                found.setdefault(name, set()).update(clause.label for clause in item.clauses)
                found.setdefault(f"{crate}.{name}", set()).update(clause.label for clause in item.clauses)
    return found


def prose(page: str) -> str:
    text = words.by_hand(TOP / page)
    return re.sub(r"\]\([^)]*\)", "]", re.sub(r"^```.*?^```$", "", text, flags=re.M | re.S))


def cited(text: str) -> Iterable[tuple[str, list[str], list[str]]]:
    """The clauses that a page cites in brackets or as `ensures NAME`: each, the functions that its sentence names, and the first
    of its section.

    Those are of the functions of the paragraph, or of the first one of the section, and `mesh` of `error_laws` is of that law.
    """
    first: list[str] = []
    for part in text.split("\n\n"):
        first = [] if part.startswith("## ") else first
        here = [f"{crate}.{name}" for names, crate in re.findall(r"((?:`[\w:]+`(?: and |, )?)+) of \[`(\w+)`\]", part)
                for name in re.findall(r"`([\w:]+)`", names)]
        here += re.findall(r"`(\w+::\w+)`", part)
        first = first or here
        for label in re.findall(r"`(?:ensures|requires) (\w+)`", part):
            yield label, here, first
        for it in [it for group in re.findall(r"\((`[^()]*)\)", part) for it in group.split("; ") if " says " not in it]:
            of = re.findall(r" of \[?`(\w+_laws)`", it)
            for label in re.findall(r"`([a-z]\w*)`", re.sub(r" (by|of) .*", "", it)):
                yield label, of or here, [] if of else first


def astray(text: str, labels: dict[str, set[str]]) -> tuple[int, list[str]]:
    """How many clauses a page cites, and those that their function does not have; a law or a function may stand there too."""
    count, wrong, defined = 0, [], definitions()
    for label, here, first in cited(text):
        of = set().union(*(labels.get(name, set()) for name in here + first))
        if label in defined | NO_CLAUSES and label not in of:
            continue
        count += 1
        is_function = label in labels and (label.endswith("_laws") or any(name.endswith(f".{label}") for name in here))
        if label not in of and not is_function:
            wrong.append(f"`{label}` is no clause of {', '.join(here + first)}")
    return count, wrong


# What stands in brackets and is no clause: of the language, and words of a command line.
NO_CLAUSES = {"requires", "ensures", "info", "try", "mesh", "strip", "least", "measure", "fit", "certify", "keep"}

# What the pages name that is none of the crates: of the toolchain, of formats, of C and of a shell.
BESIDE = {"arrayvec", "itoa", "thiserror", "ensures", "requires", "trusted", "Send", "malloc", "P2", "P5", "PATH", "div", "rt"}


@pytest.mark.parametrize("page", ["docs/THEOREM.md", "docs/LIBRARY.md", "docs/REFERENCE.md", "lib/roam.h"])
def test_what_a_page_names_is_there(page: str) -> None:
    named = {part for name in re.findall(r"`([A-Za-z_][\w:']*)(?:\(\))?`", prose(page)) for part in name.split("::")}
    there = code_names() | BESIDE
    for file in [*TOP.glob("lib/*.*"), *TOP.glob("lib/rust/src/*"), *TOP.glob("lib/rust/*.rs"), *TOP.glob("lib/csharp/*"),
                 *TOP.glob("lib/cmake/*"), *TOP.glob("python/src/**/*.py"), *TOP.glob("python/src/**/*.js")]:
        there |= set(re.findall(r"\w+", re.sub(r"/\*.*?\*/", "", file.read_text(encoding="utf-8"), flags=re.S)))
    there |= {file.stem for file in TOP.glob("examples/*.py")} | {"calfrewin"}
    assert named and not sorted(named - there)


def test_each_law_that_a_page_names_is_there(at_top: None) -> None:
    there = labels_of().keys() | {it.name for it in (TOP / "crates").iterdir()}
    pages = [TOP / "lib/roam.h", *TOP.glob("*.md"), *TOP.glob("docs/*.md"), *TOP.glob("crates/*/README.md")]
    wrong = [f"{page.relative_to(TOP)}: {name}" for page in pages if page.name != "CHANGELOG.md"
             for name in re.findall(r"\b[a-z_]+_laws\b", page.read_text(encoding="utf-8")) if name not in there]
    assert not wrong


def test_each_clause_that_the_theorem_cites_is_there(at_top: None) -> None:
    count, wrong = astray(prose("docs/THEOREM.md"), labels_of())
    assert not wrong and count >= 40, (count, wrong)


OF_ROAM = ("best", "certified", "ends", "leaves", "some_outcome", "one_outcome", "accepted", "certificate", "causes", "untouched")


@pytest.mark.parametrize("function, label, is_cited", [
    *(pytest.param("roam_run.roam", it, True, id=f"that_the_theorem_cites_{it}_of_roam_is_seen") for it in OF_ROAM),
    pytest.param("frame_loop.Engine::frame", "spares", False, id="what_the_theorem_does_not_cite_is_as_well"),
])
def test_a_clause_that_is_cited_may_not_go(at_top: None, function: str, label: str, is_cited: bool) -> None:
    labels = {name: it - {label} if name in (function, function.rpartition(".")[2]) else it for name, it in labels_of().items()}
    assert is_cited == bool(astray(prose("docs/THEOREM.md"), labels)[1])


def test_the_clause_that_the_theorem_explains_is_that_of_the_code() -> None:
    text = (TOP / "docs/THEOREM.md").read_text(encoding="utf-8")
    block = re.search(r"^```text\n(ensures best .*?)^```$", text, re.M | re.S)
    field = re.search(r"^`(optimal : .*?)`", text, re.M)
    frame = (TOP / "crates/frame_loop/src/frame.rt").read_text(encoding="utf-8")
    mesh = (TOP / "crates/mesh_defs/specs/BestMesh.antt").read_text(encoding="utf-8")
    assert block and " ".join(block[1].split()) in " ".join(frame.split())
    assert field and field[1] in " ".join(mesh.split())

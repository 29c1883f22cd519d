"""The Markdown of the repository: how long it is, where its links lead, its figures of time and memory beside
bench/results.md, and the site that is made of it."""
from __future__ import annotations

import json
import re
import shutil
import subprocess
import sys
from html.parser import HTMLParser
from pathlib import Path
from urllib.parse import unquote, urlsplit

import pytest

from conftest import TOP
from same import same

RESULTS = TOP / "bench/results.md"
FOLDERS = (".", "docs", "bench", "examples", "examples/*", "python", "lib", "lib/*", "crates/*")
PAGES = sorted(page for folder in FOLDERS for page in TOP.glob(f"{folder}/*.md"))

# A number and its unit; of `0.5, 4.6 MB` or `63 of 67 MB` the last number, as the others have their own unit or none.
FIGURE = re.compile(r"(?<![\d.,])(\d[\d,]*(?:\.\d+)?)[ -]?(minutes?|mins?|MB|megabytes?)\b")
TENS = "twenty|thirty|forty|fifty|sixty|ninety"
ONES = "one|two|three|four|five|six|seven|eight|nine|ten|eleven|twelve|fifteen|half"
IN_WORDS = re.compile(rf"\b(?:{TENS}|{ONES}|some|several|a few) (?:minutes?|megabytes?)\b", re.IGNORECASE)


# What a terrain programmer had to read twice, and stands otherwise now.
READ_TWICE = (
    "nowhere off by more than so many metres",
    "a taste, unproved",
    "the fewest triangles nowhere off by more than",
    "the gate, which is the verdict",
    "each as one strip",
    "six digits and .obj",
    "budget is the most triangles",
    "from a pipe it makes roam a server",
    "made and not split",
    "there are never more of them",
    "how many triangles a mesh with it split needs",
    "nothing else happens",
    "clauses on bytes speak of files in memory",
    "or of the promised one of fit",
    "an outcome of words and files stands whole",
    "if its bytes are a text of it, and else",
    "the logic dac8",
    "begin from engine_uses",
    "asks how good so many triangles can be",
    "what helps to mend a run stands on standard error",
    "nothing where who reads the report went away",
    "only a new run goes on",
    "from which the surface is the least far",
    "tells to contracts what an object of the outside holds",
    "stated by what it will answer for what is still to come",
)


def name(page: Path) -> str:
    return str(page.relative_to(TOP))


def words(page: Path) -> int:
    return len(page.read_text(encoding="utf-8").split())


def without_code(text: str) -> str:
    """The text without its blocks of code and what stands between backquotes, where no link and no heading is one."""
    return re.sub(r"`[^`\n]*`", "``", re.sub(r"^```.*?^```$", "", text, flags=re.MULTILINE | re.DOTALL))


def anchors(text: str) -> set[str]:
    """What a page's headings are called behind `#`, as GitHub and mkdocs have it: two that are alike are numbered."""
    found: set[str] = set()
    for heading in re.findall(
        r"^#+ +(.*)$", re.sub(r"^```.*?^```$", "", text, flags=re.MULTILINE | re.DOTALL), re.MULTILINE
    ):
        heading = re.sub(r"\[([^]]*)\]\([^)]*\)", r"\1", heading).lower()
        base = re.sub(r"[^\w\- ]", "", heading).strip().replace(" ", "-")
        number = 0
        while (it := f"{base}-{number}" if number else base) in found:
            number += 1
        found.add(it)
    return found


def astray(page: Path, text: str) -> list[str]:
    """The links of a page that lead to no file, or to no heading of it."""
    wrong = []
    for link in re.findall(r"\]\(([^)\s]+)\)", without_code(text)):
        if re.match(r"https?:|mailto:", link):
            continue
        path, _, anchor = link.partition("#")
        target = (page.parent / path).resolve() if path else page
        if not target.exists():
            wrong.append(f"{link}: no such file")
        elif anchor and anchor not in anchors(text if target == page else target.read_text(encoding="utf-8")):
            wrong.append(f"{link}: no such heading")
    return wrong


def figures(text: str) -> set[tuple[str, str]]:
    """Minutes and megabytes as (number, unit)."""
    return {
        (number, "MB" if unit.lower().startswith("m") and "b" in unit.lower() else "min")
        for number, unit in FIGURE.findall(text)
    }


def unknown_figures(text: str, results: str) -> list[str]:
    """Minutes and megabytes of a page that bench/results.md has not, and those that no script could compare."""
    found = [f"{number} {unit} is not in bench/results.md" for number, unit in sorted(figures(text) - figures(results))]
    return found + [f"'{it}': in digits, as in bench/results.md" for it in IN_WORDS.findall(without_code(text))]


def test_meshes_are_compared_by_the_call_that_refuses_one_with_itself() -> None:
    """same.py; a list of addresses, indices or bytes that is written out, or a count, may stand beside `==`."""
    told = re.compile(r"\.(leaves|indices|positions|meshes)\(\) [!=]= [^\[(]|[!=]= \w+\.(leaves|indices|positions)\(\)")
    wrong = [f"{file.name}: {line.strip()}" for file in sorted((TOP / "checks").glob("*.py"))
             for line in file.read_text(encoding="utf-8").splitlines() if told.search(line)]
    assert not wrong, "; ".join(wrong)


@pytest.mark.parametrize("other", [
    pytest.param([2, 3], id="a_mesh_is_not_compared_with_itself"), pytest.param([3, 2], id="another_mesh_is_told"),
])
def test_same(other: list[int]) -> None:
    mesh = [2, 3]
    same(mesh, [2, 3], "the mesh is another")
    with pytest.raises(AssertionError, match="the mesh is another"):
        same(mesh, mesh if mesh == other else other, "the mesh is another")


def test_the_pages_are_there() -> None:
    assert {
        "README.md",
        "CONTRIBUTING.md",
        "CHANGELOG.md",
        "docs/THEOREM.md",
        "bench/results.md",
        "crates/roam_run/README.md",
        "examples/fit/README.md",
        "python/README.md",
    } <= set(map(name, PAGES))


def test_readme_has_at_most_850_words() -> None:
    assert words(TOP / "README.md") <= 850


def test_all_pages_have_at_most_50_000_words() -> None:
    total = sum(map(words, PAGES))
    longest = sorted(PAGES, key=words, reverse=True)[:5]
    assert total <= 50_000, f"{total} words; the longest: " + ", ".join(
        f"{name(page)} {words(page)}" for page in longest
    )


def test_each_page_of_docs_says_whom_it_is_for() -> None:
    heads = {
        name(page): page.read_text(encoding="utf-8").split("\n", 1)[0] for page in PAGES if page.parent == TOP / "docs"
    }
    assert not {it: head for it, head in heads.items() if not re.match(r"# .*, for ", head)}


def test_links_lead_to_files_and_headings() -> None:
    wrong = [f"{name(page)}: {it}" for page in PAGES for it in astray(page, page.read_text(encoding="utf-8"))]
    assert not wrong, "; ".join(wrong[:10])


def test_minutes_and_megabytes_are_those_of_the_results() -> None:
    results = RESULTS.read_text(encoding="utf-8")
    wrong = [
        f"{name(page)}: {it}" for page in PAGES for it in unknown_figures(page.read_text(encoding="utf-8"), results)
    ]
    assert not wrong, "; ".join(wrong[:10])


def test_no_sentence_is_read_twice() -> None:
    wrong = []
    for page in PAGES:
        text = " ".join(page.read_text(encoding="utf-8").lower().replace("`", "").replace("*", "").split())
        wrong += [f"{name(page)}: {it}" for it in READ_TWICE if it in text]
    assert len(READ_TWICE) == 25 and not wrong, "; ".join(wrong)


@pytest.mark.parametrize(
    "text",
    [
        pytest.param("[a](nowhere.md)", id="a_link_to_no_file_is_found"),
        pytest.param("[a](docs/REFERENCE.md#no-such-heading)", id="a_link_to_no_heading_is_found"),
        pytest.param("# One\n\n[a](#two)", id="a_link_to_no_heading_of_its_page_is_found"),
        pytest.param("# One\n\n```text\n# two\n```\n\n[a](#two)", id="a_comment_in_code_is_no_heading"),
    ],
)
def test_links_astray(text: str) -> None:
    assert len(astray(TOP / "README.md", text)) == 1


@pytest.mark.parametrize(
    "text",
    [
        pytest.param(
            "# The grid\n\n[a](#the-grid) [b](docs/REFERENCE.md#the-grid) [c](https://example.org/x) `[d](nowhere)`",
            id="links_that_lead_somewhere_are_none_astray",
        ),
        pytest.param("# A `b` c\n\n# A `b` c\n\n[a](#a-b-c-1)", id="headings_that_are_alike_are_numbered"),
    ],
)
def test_links_not_astray(text: str) -> None:
    assert not astray(TOP / "README.md", text)


@pytest.mark.parametrize(
    ("text", "count"),
    [
        pytest.param("It takes 13 minutes.", 1, id="minutes_of_another_day_are_found"),
        pytest.param(
            "It takes 10 min 17 s, or 10 minutes, and 8.5 MB.", 0, id="minutes_and_megabytes_of_today_are_none"
        ),
        pytest.param("35 MB", 1, id="megabytes_of_another_day_are_found"),
        pytest.param("two to five minutes", 1, id="minutes_in_words_are_found"),
        pytest.param("1,100 MB and 0.8 MB", 2, id="a_number_is_compared_whole"),
    ],
)
def test_figures(text: str, count: int) -> None:
    assert len(unknown_figures(text, "first run 10 min 17 s, 8.5 MB, 100 MB, 8 MB")) == count


class Targets(HTMLParser):
    """Where a page of HTML leads, and the names of its parts."""

    def __init__(self, text: str) -> None:
        super().__init__()
        self.links: list[str] = []
        self.parts: set[str] = set()
        self.feed(text)

    def handle_starttag(self, tag: str, attrs: list[tuple[str, str | None]]) -> None:
        for key, value in attrs:
            if value and key in ("href", "src"):
                self.links.append(value)
            elif value and key in ("id", "name"):
                self.parts.add(value)


def dead_ends(site: Path) -> list[str]:
    """The links within a site that lead to no file, or to no part of a page."""
    pages = {page: Targets(page.read_text(encoding="utf-8")) for page in site.rglob("*.html")}
    found = []
    for page, targets in pages.items():
        for link in targets.links:
            url = urlsplit(link)
            if url.scheme or url.netloc or page.name == "404.html":  # whose links are from the top of a host
                continue
            target = (page.parent / unquote(url.path)).resolve() if url.path else page
            if not target.is_file():
                found.append(f"{page.relative_to(site)}: {link}")
            elif url.fragment and target in pages and unquote(url.fragment) not in pages[target].parts:
                found.append(f"{page.relative_to(site)}: {link}")
    return found


@pytest.fixture(scope="module")
def site(tmp_path_factory: pytest.TempPathFactory) -> Path:
    if not shutil.which("mkdocs"):
        pytest.skip("the command mkdocs is not there")
    folder = tmp_path_factory.mktemp("site") / "site"
    told = subprocess.run(
        [sys.executable, TOP / "tools/site.py", folder], cwd=TOP, capture_output=True, text=True, check=False
    )
    assert told.returncode == 0, told.stderr[-2000:]
    return folder


@pytest.mark.xdist_group("site")
def test_the_site_has_each_page(site: Path) -> None:
    wanted = {Path(name(page).replace("README.md", "index.md")).with_suffix(".html") for page in PAGES}
    assert wanted <= {it.relative_to(site) for it in site.rglob("*.html")}


@pytest.mark.xdist_group("site")
def test_links_of_the_site_lead_somewhere(site: Path) -> None:
    assert not dead_ends(site)[:10]


@pytest.mark.xdist_group("site")
def test_a_search_of_the_site_finds_words(site: Path) -> None:
    found = json.loads((site / "search/search_index.json").read_text(encoding="utf-8"))["docs"]
    assert any(it["location"].startswith("docs/REFERENCE.html") and "trailing byte" in it["text"] for it in found)


def test_dead_ends_of_a_site_are_found(tmp_path: Path) -> None:
    (tmp_path / "a.html").write_text(
        '<p id="here"><a href="b.html">b</a> <a href="#there">c</a> <a href="a.html#here">d</a>'
    )
    assert dead_ends(tmp_path) == ["a.html: b.html", "a.html: #there"]

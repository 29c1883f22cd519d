#!/usr/bin/env python3
"""Makes what no hand writes of the pages, from the sources: docs/CRATES.md, and between the lines `<!-- generated: NAME -->`
and `<!-- end -->` of a page

    words PLACE ..    in docs/DEFINITIONS.md: the words of these crates or modules (CRATE.MODULE) that a public clause of
                      another crate names, and these words (CRATE.MODULE.WORD)
    tests             in a crate's README: its files with tests, each with the first sentence of its head
    storeys           in docs/ARCHITECTURE.md: the crates by how much they stand on

usage: tools/pages.py [--check | --table CRATE] [--top FOLDER]
  --check         writes nothing; names each page that is not what would be made, and ends with status 1 where there is one
  --table CRATE   writes nothing; prints what a crate offers: its public functions and types, each with the first sentence of
                  its comment and the labels of its clauses
"""
from __future__ import annotations

import argparse
import re
import sys
import textwrap
from collections.abc import Callable
from pathlib import Path

import sources
from sources import Crate, Item, Module

BEGIN = re.compile(r"^<!-- generated: (?P<name>[\w-]+)(?P<rest>[^>]*) -->$", re.M)
END = "<!-- end -->"

Maker = Callable[[str, str], str]


def cell(text: str) -> str:
    return text.replace("|", r"\|")


def table(head: list[str], rows: list[list[str]]) -> str:
    """Without blanks at its lines, which are no words."""
    lines = [head, ["-"] * len(head), *rows]
    return "\n".join("|" + "|".join(cell(it) for it in line) + "|" for line in lines)


def first_sentence(readme: str) -> str:
    """What a README says first, below its title."""
    return sources.sentence(readme.partition("\n")[2].lstrip("\n"))


class Sources:
    """The crates of a repository, read once."""

    def __init__(self, top: Path) -> None:
        self.top = top
        self.crates = sources.crates_of(top)
        folders = {crate.name: top / "crates" / crate.name for crate in self.crates}
        self.items = {name: sources.public_items(folder) for name, folder in folders.items()}
        self.modules = {name: sources.modules_of(folder) for name, folder in folders.items()}
        self.laws = {name for name, items in self.items.items() if sources.is_law_crate(name, items)}

    def readme(self, crate: str) -> Path:
        return self.top / "crates" / crate / "README.md"


def promises(item: Item, said: set[tuple[str, str]]) -> str:
    """What contracts see of a type; the labels of what is promised, where `ensures` stands for a clause without one, each with
    the comment above it, unless both have been `said`."""
    labels = []
    for clause in (it for it in item.clauses if it.kind == "ensures"):
        label, note = f"`{clause.label or clause.kind}`", sources.short(clause.note).rstrip(".")
        labels.append(f"{label}: {note}" if note and (label, note) not in said else label)
        said.add((label, note))
    return "; ".join(filter(None, (f"seen as `{item.seen_as}`" if item.seen_as else "",
                                   "exposes " + ", ".join(f"`{it}`" for it in item.tells) if item.tells else "",
                                   ("; " if any(":" in it for it in labels) else ", ").join(labels))))


def needs(item: Item) -> str:
    """The labels of what a caller has to know."""
    return ", ".join(f"`{clause.label or clause.kind}`" for clause in item.clauses if clause.kind == "requires")


def offers(made_of: Sources, crate: str) -> str:
    """What a crate offers: a row for each public function and type, with what it promises and needs."""
    if crate not in made_of.items:
        raise SystemExit(f"{crate} is no crate; crates.txt has their names")
    items, said = made_of.items[crate], set[tuple[str, str]]()
    rows = [[f"`{item.full_name}`", sources.short(item.doc), promises(item, said), needs(item)]
            for item in items if item.kind != "const"]
    parts = [table(["item", "meaning", "promises", "needs"], rows)] if rows else []
    limits = [f"`{item.name}`" for item in items if item.kind == "const"]
    if limits:
        parts.append(f"Limits: {', '.join(limits)}.")
    return "\n\n".join(parts)


def storeys_of(made_of: Sources) -> list[tuple[str, list[Crate]]]:
    """The groups of crates.txt, lowest first."""
    found: dict[str, list[Crate]] = {}
    for crate in made_of.crates:
        found.setdefault(crate.storey, []).append(crate)
    return list(found.items())


def crates_page(made_of: Sources) -> str:
    below = sources.stands_on(made_of.crates)
    parts = [textwrap.dedent("""\
        # Crates, for whoever looks for the place of something

        By storeys, lowest first. A crate stands on those that are named, and on all that these stand on;
        [two kinds](ARCHITECTURE.md#two-kinds-of-crates) there are, law and code. `tools/pages.py --table CRATE` prints what a
        crate promises; its README has what is only tested, and what is not claimed: never time, nor that memory is there.
        Where a call takes memory a test shows that it succeeds; what no clause counts of a cost is not proved. Made by
        `tools/pages.py`.
        """)]
    for storey, crates in storeys_of(made_of):
        rows = [[f"[`{crate.name}`](../crates/{crate.name}/README.md)", "law" if crate.name in made_of.laws else "code",
                 ", ".join(below[crate.name]), first_sentence(made_of.readme(crate.name).read_text(encoding="utf-8"))]
                for crate in crates]
        parts.append(f"## {storey}\n\n{table(['crate', 'kind', 'stands on', 'what it is'], rows)}\n")
    return "\n".join(parts)


def storeys(made_of: Sources) -> str:
    """The storeys with their crates, highest first; a star is behind each law crate."""
    lines = []
    for storey, crates in reversed(storeys_of(made_of)):
        names = " ".join(crate.name + ("*" if crate.name in made_of.laws else "") for crate in crates)
        left, right = textwrap.wrap(storey, 30), textwrap.wrap(names, 80)
        for at in range(max(len(left), len(right))):
            lines.append(f"{left[at] if at < len(left) else '':<32}{right[at] if at < len(right) else ''}".rstrip())
        lines.append("")
    return "```text\n" + "\n".join(lines[:-1]) + "\n```\n\nA star marks a law crate."


def named_elsewhere(made_of: Sources) -> dict[tuple[str, str], set[str]]:
    """The words that a public clause of another crate than their own names, by crate and module."""
    found: dict[tuple[str, str], set[str]] = {}
    for crate, items in made_of.items.items():
        for item in items:
            for home, module, word in sources.named_words(item):
                if home != crate:
                    found.setdefault((home, module), set()).add(word)
    return found


def is_at(place: str, crate: str, module: Module) -> bool:
    """Whether a place of a block is this module, its crate, or a word of it."""
    own = f"{crate}.{module.path.stem}"
    return place in (crate, own) or place.startswith(own + ".")


def words(made_of: Sources, places: list[str]) -> str:
    """The words of these places, in their order."""
    named = named_elsewhere(made_of)
    rows: list[tuple[int, list[str]]] = []
    for name, modules in made_of.modules.items():
        for module in modules:
            here = [place for place in places if is_at(place, name, module)]
            if not here:
                continue
            single = {place.split(".")[2] for place in here if place.count(".") == 2}
            wanted = named.get((name, module.path.stem), set()) if len(here) > len(single) else set()
            link = f"[{module.path.stem}](../crates/{name}/specs/{module.path.name})"
            rows += [(places.index(here[0]), [f"`{word.name}`", sources.short(word.note, 50, ";:").rstrip("."), link])
                     for word in module.words if word.note and word.name in wanted | single]
    return table(["word", "meaning", "file"], [row for _, row in sorted(rows, key=lambda it: it[0])])


def fill(text: str, make: Maker) -> str:
    """A page with each of its blocks made anew; `make` is given a block's name and its further words."""
    done, at = [], 0
    for begin in BEGIN.finditer(text):
        end = text.find(END, begin.end())
        if end < 0:
            raise SystemExit(f"{begin.group()} has no {END}")
        done += [text[at:begin.end()], "\n", make(begin.group("name"), begin.group("rest").strip()), "\n"]
        at = end
    return "".join(done) + text[at:]


def with_tests(text: str) -> str:
    """A README of a crate of tests with their block, at its end where it has none."""
    if any(block.group("name") == "tests" for block in BEGIN.finditer(text)):
        return text
    return text.rstrip("\n") + f"\n\n<!-- generated: tests -->\n{END}\n"


def pages(top: Path) -> dict[Path, str]:
    """Each page with something that is made, as it has to be."""
    made_of = Sources(top)
    found = {top / "docs/CRATES.md": crates_page(made_of)}
    for path in [*sorted(top.glob("docs/*.md")), *(made_of.readme(crate.name) for crate in made_of.crates)]:
        text, crate = path.read_text(encoding="utf-8"), path.parent.name
        if path.name == "README.md" and crate.endswith("_tests"):
            text = with_tests(text)
        if path in found or not BEGIN.search(text):
            continue

        def make(name: str, rest: str) -> str:
            if name == "tests":
                return table(["file", "what it shows"], [[f"`{file}`", said] for file, said in sources.tests_of(path.parent)])
            if name == "words":
                return words(made_of, rest.split())
            if name == "storeys":
                return storeys(made_of)
            raise SystemExit(f"{path}: nothing is known of {name}")

        found[path] = fill(text, make)
    return found


def main(arguments: list[str]) -> int:
    parser = argparse.ArgumentParser(description=__doc__, formatter_class=argparse.RawDescriptionHelpFormatter)
    what = parser.add_mutually_exclusive_group()
    what.add_argument("--check", action="store_true")
    what.add_argument("--table", metavar="CRATE")
    parser.add_argument("--top", type=Path, default=Path(__file__).resolve().parent.parent)
    options = parser.parse_args(arguments)
    if options.table:
        print(offers(Sources(options.top), options.table))
        return 0
    status = 0
    for path, text in pages(options.top).items():
        if path.is_file() and path.read_text(encoding="utf-8") == text:
            continue
        if options.check:
            print(f"{path.relative_to(options.top)} is not what tools/pages.py makes", file=sys.stderr)
            status = 1
        else:
            path.write_text(text, encoding="utf-8")
    return status


if __name__ == "__main__":
    sys.exit(main(sys.argv[1:]))

#!/usr/bin/env python3
"""What a contract unfolds to: how many words, and the text of what is promised (checks/statements.txt).

A word is a definition of this repository's specs/: an abbrev, a record, a data type, or a type that the code declares. The words of
a clause are those that it names, those that their definitions name, and so on; what the toolchain brings is left out.

    words.py FILE FUNCTION [--within CRATES] [--most N] [--ensures N]

run at the top, prints for each clause how many words it unfolds to, and at the end how many the contract has. With --within, a list by commas of crates or modules (run_laws, run_laws.specs.Outcome), only their words are
unfolded, and any other counts as one. It fails where the contract has more than --most words, or not just --ensures of these clauses.

    words.py --text > checks/statements.txt

prints the statements that the pages speak of: of STATEMENTS, and of each law that a page names, the head and each clause; the text of
the words that these name and of those that such a word names; and of what stands below them a hash each. So whatever is
promised otherwise stands in the difference of this file. test_statements.py compares it.
"""
import argparse
import functools
import hashlib
import os
import re
import sys
import textwrap
from fnmatch import fnmatchcase
from pathlib import Path

TOP = Path(__file__).resolve().parent.parent
sys.path.insert(0, str(TOP / "tools"))
from sources import items_of_file

# Whose statements are kept: crate, and functions, `*` for any letters. A trait's functions are what a theorem over it supposes.
STATEMENTS = (
    ("frame_loop", "Engine::frame"),
    ("world_loop", "World::frame"),
    ("least_mesh", "Least::frame"),
    ("fit_mesh", "Fit::frame", "Fit::frame_with", "Fit::frame_within", "Fit::frame_for", "SplitSet::*"),
    ("mosaic_fit", "fit_tiles", "Tiles::*"),
    ("mesh_cover", "first_fault"),
    ("mesh_within", "greatest_deviation", "is_within", "judge"),
    ("tin_mesh", "make_tin"),
    ("roam_embed", "tell_tin"),
    ("roam_certify", "make_cert", "certify_mesh", "make_reasons", "check"),
    ("fit_certify", "make", "mesh_of", "check", "make_kept", "mesh_of_kept", "check_kept"),
    ("roam_run", "roam", "status_of"),
    ("run_console", "Program::status_of"),
    ("roam_edge", "Shelf::*", "MeshSink::*", "Sink::*"),
    ("run_laws", "certify_laws"),
    ("pgm_grid", "grids_and_texts"),
    ("roam_c", "roam_*"),
)
ACCEPT = "checks/words.py --text > checks/statements.txt"
HEAD = f"""What is promised, word by word: made by `{ACCEPT}`, and compared by checks/run.
Whoever changes a statement makes this file anew, and its difference shows what was promised and what is promised now.
"""

SPLIT = re.compile(r"[\s(){}\[\],;⟦⟧<>]+")
MODIFIERS = {"abbrev", "unfoldable", "opaque", "private", "pub"}


def imports_of(text, start):
    """What `use` lines bring in: name -> (module, word), and alias -> module."""
    names, modules = {}, {}
    for path, rest in re.findall(r"^\s*" + start + r" Rattle\.([\w.◌]+?)(\.\{[^}]*\}| as \w+)?;?\s*$", text, re.M):
        if rest.startswith(".{"):
            for part in filter(None, (p.strip() for p in rest[2:-1].split(","))):
                word, _, alias = part.partition(" as ")
                names[alias.strip() or word] = (path, word)
        else:
            modules[rest[4:].strip() or path.rsplit(".", 1)[1]] = path
    return names, modules


class Module:
    """A file of specs/: its definitions by name, and in which definition each constructor stands."""

    def __init__(self, path, file):
        with open(file, encoding="utf-8") as source:
            text = re.sub(r"--.*", "", source.read())
        self.path, self.bodies, self.home = path, {}, {}
        self.names, self.modules = imports_of(text, "(?:pub )?use")
        current, is_data = None, False
        for line in text.split("\n"):
            if not line.strip() or line.startswith(("use ", "pub use ")):
                continue
            if line[0] not in " \t})]":
                words = [w for w in line.split() if w not in MODIFIERS]
                if line.split()[0] in MODIFIERS | {"record", "data"}:
                    is_data, current = words[0] == "data", words[words[0] in ("record", "data")]
                    self.bodies[current], self.home[current] = [], current
                elif words[0] in self.bodies:
                    current, is_data = words[0], False
            if current:
                self.bodies[current].append(line)
                made = re.match(r"^  (?:pub )?(\w+) :", line)
                if made and is_data:
                    self.home[made.group(1)] = current


class Specs:
    within = None

    @functools.lru_cache(maxsize=None)
    def module(self, path):
        file = os.path.join("crates", path.replace(".", "/") + ".antt")
        return Module(path, file) if os.path.isfile(file) else None

    def declared(self, crate, parts, word):
        """The name of what the code declares."""
        return (crate + ".declared", parts[-2] if parts[-1] == "TheVariants" else parts[-1] if word == "Ghosts" else word)

    def find(self, path, word):
        """The definition behind a name, as (module, word), or None where it is not ours."""
        crate, _, rest = path.partition(".specs.declared.")
        if rest and os.path.isdir(os.path.join("crates", crate)):
            return self.declared(crate, rest.split("."), word)
        module = self.module(path) if ".specs." in path else None
        if module is None:
            return None
        if word in module.home:
            return (path, module.home[word])
        return self.find(*module.names[word]) if word in module.names else None

    def named_in(self, text, names, modules, module=None):
        bound = {name for group in re.findall(r"[({]([\w' ]+?) : ", text) for name in group.split()}
        found = set()
        for token in SPLIT.split(text):
            first, _, rest = token.lstrip("λ‵").partition(".")
            if first in modules and rest:
                found.add(self.find(modules[first], rest.split(".")[0]))
            elif first in names and first not in bound:
                found.add(self.find(*names[first]))
            elif module and first in module.home and first not in bound:
                found.add((module.path, module.home[first]))
        return found - {None}

    @functools.lru_cache(maxsize=None)
    def direct(self, word):
        """The words that a definition names; the names of a record's fields are none."""
        path, name = word
        if path.endswith(".declared") or self.within and not any((path + ".").startswith(w + ".") for w in self.within):
            return set()
        module = self.module(path)
        text = re.sub(r"^  (pub )?[\w']+ :", "  :", "\n".join(module.bodies[name]), flags=re.M)
        text = re.sub(r"([{;]\s*|^\s+)[\w']+ = ", r"\1", text, flags=re.M)
        return self.named_in(text, module.names, module.modules, module) - {word}

    def closure(self, words):
        new = set().union(*map(self.direct, words)) - words
        return self.closure(words | new) if new else words


class Texts(Specs):
    """The same with the texts of words, also of those that the code declares: what a contract sees of a type, or a constant."""

    def declared(self, crate, parts, word):
        at = parts.index(word) if word in parts else next(k for k, part in enumerate(parts + ["The"]) if part[:3] == "The")
        is_of_type = parts[-1] == "TheVariants" or word == "Ghosts"
        return (".".join([crate, "src", *parts[:at - is_of_type]]), parts[at - 1] if is_of_type else word)

    @functools.lru_cache(maxsize=None)
    def source(self, path):
        """A file of code without its comments."""
        crate, _, rest = path.partition(".src")
        base = Path("crates", crate, "src", *filter(None, rest.split(".")))
        found = next((it for it in (base.with_suffix(".rt"), base / "mod.rt", base / "lib.rt") if it.is_file()), None)
        found = found or sys.exit(f"{path} is no file of code")
        return re.sub(r"^ *//.*\n| +//.*", "", found.read_text(encoding="utf-8"), flags=re.M)

    @functools.lru_cache(maxsize=None)
    def text(self, word):
        path, name = word
        if ".src" not in path:
            return "\n".join(self.module(path).bodies[name]).rstrip()
        text, name = self.source(path), re.escape(name)
        model = re.search(rf"^impl(<.*?>)? Model for {name}\b.*?\n}}", text, re.M | re.S)
        seen = re.findall(r"^ +ghost (?:Value|view) = .*?;\n", model[0], re.M | re.S) if model else []
        kind = r"^(?:pub(?:\(crate\))? )?(?:struct|enum|trait|const|static|type)"
        found = re.search(rf"{kind} {name}\b(?:[^;{{]*\{{.*?^\}}|.*?;)", text, re.M | re.S) or sys.exit(f"{path} has no {name}")
        return "\n".join([found[0].split("\n")[0], *(it.rstrip() for it in seen)] if seen else [found[0]])

    @functools.lru_cache(maxsize=None)
    def direct(self, word):
        path, _ = word
        if ".src" not in path:
            return super().direct(word)
        return self.named_in(self.text(word), *imports_of(self.source(path), "ghost use")) - {word}


def shown(word):
    return ".".join(word).replace(".specs.", ".")


def paragraph(head, text, words):
    """A statement or a word with its text, and below it which words this names."""
    first, _, rest = text.strip("\n").partition("\n")
    lines = [head, "    " + first.strip(), *textwrap.indent(textwrap.dedent(rest), "      ").split("\n")]
    lines += textwrap.wrap(" ".join(["names", *sorted(map(shown, words))]), 120, initial_indent="  ", subsequent_indent="  ",
                           break_long_words=False, break_on_hyphens=False) if words else []
    return "\n".join(line.rstrip() for line in lines if line.strip())


def items_of(crate):
    """The functions of a crate, each with the imports of its file."""
    for file in sorted(Path("crates", crate, "src").rglob("*.rt")):
        text = file.read_text(encoding="utf-8")
        for item, _ in items_of_file(text):
            if item.kind == "fn":
                yield item, imports_of(text, "ghost use")


def by_hand(page):
    """A page without what is generated of it."""
    return re.sub(r"^<!-- generated.*?^<!-- end -->$", "", page.read_text(encoding="utf-8"), flags=re.M | re.S)


def laws_named():
    """The laws, which are functions that do nothing, that a page names: crate and name of each."""
    pages = [Path("README.md"), Path("lib/roam.h"), *Path().glob("docs/*.md"), *Path().glob("python/*.md"), *Path().glob("crates/*/README.md")]
    named = set().union(*(set(re.findall(r"`(\w+)`|\b(\w+_laws)\b", by_hand(page))) for page in pages))
    names = {name for pair in named for name in pair if name}
    crates = sorted(it.name for it in Path("crates").iterdir())
    return [(crate, item.full_name) for crate in crates for item, _ in items_of(crate) if item.name in names and (item.is_law or item.name.endswith("_laws"))]


def chosen(statements, laws):
    """The functions whose statements are kept, each with its crate and the imports of its file; a name of none is an error."""
    for crate, *names in [*statements, *laws]:
        offered = list(items_of(crate))
        for name in names:
            found = [it for it in offered if fnmatchcase(it[0].full_name, name) and it[0].clauses]
            if not found:
                sys.exit(f"{crate} has no function {name} with clauses: STATEMENTS of checks/words.py names it")
            yield from ((crate, item, imports) for item, imports in sorted(found, key=lambda it: it[0].full_name))


def paragraphs(statements=STATEMENTS):
    """The text of checks/statements.txt, in paragraphs."""
    specs, first = Texts(), set()
    yield HEAD.rstrip()
    for crate, item, imports in chosen(statements, laws_named()):
        function = f"{crate} {item.full_name}"
        yield paragraph(f"{function}, head", item.head, ())
        for clause in item.clauses:
            words = specs.named_in(clause.text, *imports)
            first |= words
            yield paragraph(f"{function}, {clause.kind} {clause.label}".rstrip(), clause.text, words)
    first |= set().union(*map(specs.direct, first))
    for word in sorted(first):
        yield paragraph(f"word {shown(word)}", specs.text(word), specs.direct(word))
    below = sorted(specs.closure(first) - first)
    for word in below:
        text = paragraph("", specs.text(word), specs.direct(word))
        yield f"below {shown(word)} {hashlib.sha256(text.encode()).hexdigest()[:16]}"


def differences(old, new):
    """What two texts of statements differ by, a line for each paragraph that is gone, has come or is another one."""
    def parts(text):
        found = {}
        for it in filter(None, (it.strip("\n") for it in text.split("\n\n"))):
            head, _, rest = it.partition("\n")
            head, rest = head.rsplit(" ", 1) if head.startswith("below ") else (head, rest)
            while head in found:
                head += "'"
            found[head] = rest
        return found
    before, after = parts(old), parts(new)
    told = []
    for head in sorted(before.keys() | after.keys(), key=lambda it: (it.startswith("below "), it.startswith("word "), it)):
        if head not in after:
            told.append(f"{head}: is gone")
        elif head not in before:
            told.append(f"{head}: is new")
        elif before[head] != after[head]:
            told.append(f"{head}: was\n{before[head]}\n  and is\n{after[head]}")
    return told


def count(args):
    with open(args.file, encoding="utf-8") as source:
        text = source.read()
    specs, imports = Specs(), imports_of(text, "ghost use")
    specs.within = args.within
    found = next((item for item, _ in items_of_file(text) if item.name == args.function), None) or sys.exit("no function " + args.function)
    parts = [(it.kind, it.label, specs.closure(specs.named_in(it.text, *imports))) for it in found.clauses]
    every = set().union(*(words for _, _, words in parts))
    for kind, name, words in parts:
        print(f"{kind + ' ' + name:<28}{len(words):>5}")
    ensures = sum(kind == "ensures" for kind, _, _ in parts)
    print(f"{args.function}: {ensures} ensures, {len(every)} words")
    return int(len(every) > args.most or args.ensures not in (None, ensures))


def main():
    args = argparse.ArgumentParser(description=__doc__, formatter_class=argparse.RawDescriptionHelpFormatter)
    args.add_argument("file", nargs="?")
    args.add_argument("function", nargs="?")
    args.add_argument("--within", type=lambda crates: crates.split(","))
    args.add_argument("--most", type=int, default=sys.maxsize)
    args.add_argument("--ensures", type=int)
    args.add_argument("--text", action="store_true")
    given = args.parse_args()
    if given.text:
        os.chdir(TOP)
        print("\n\n".join(paragraphs()))
    elif given.function:
        sys.exit(count(given))
    else:
        args.error("FILE and FUNCTION, or --text")


if __name__ == "__main__":
    main()

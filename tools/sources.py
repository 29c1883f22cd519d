"""What a page tells of the sources: public functions and types of a crate with their clauses, and the words of its specs/.

Reads the layout that `rt fmt` gives, and nothing of the language beyond it: comments, heads of items, clauses and braces."""
from __future__ import annotations

import re
from dataclasses import dataclass, field
from pathlib import Path

ITEM = re.compile(r"(pub )?(?:(?:const|unsafe|extern \"C\") )*(fn|struct|enum|trait|type|const) (\w+)")
CLAUSE = re.compile(r"(requires|ensures)\*? ?(\w*) ?\{")
IMPL = re.compile(r"impl\b(?P<of>.*)\{$")
WORD = re.compile(r"^(?:unfoldable |abbrev |opaque )?pub (?:(?:unfoldable|abbrev|opaque) )?(record |data )?([\w◌≤≡<'-]+)")
MODEL = re.compile(r"^impl(?:<[^\n]*?>)? Model for (\w+)[^\n]*\{\n(.*?)^\}", re.M | re.S)
VALUE = re.compile(r"ghost Value = \{\s*(.*?)\s*\};", re.S)
TELLS = re.compile(r"ghost (\w+): \{")
IMPORT = re.compile(r"^\s*ghost use Rattle\.(\w+)\.specs\.(\w+)\.\{([^}]*)\};", re.M)
TOKEN = re.compile(r"[\s(){}\[\],;⟦⟧<>.]+")
QUOTES = re.compile(r"\"(?:[^\"\\]|\\.)*\"|'(?:[^'\\]|\\.)'")


@dataclass
class Clause:
    """A `requires` or an `ensures`: its label (empty where it has none) and the comment above it."""
    kind: str
    label: str
    note: str
    text: str = ""


@dataclass
class Item:
    """A public function or type: `of` is the type or the trait that a function belongs to, or empty; `seen_as` is what
    a contract sees of a type with a model, `tells` what a trait tells to contracts; `words` are those of specs/ that its file
    brings in, by the name they have there: crate and module; `head` is its text up to its clauses and its body."""
    kind: str
    name: str
    of: str
    doc: str
    head: str = ""
    clauses: list[Clause] = field(default_factory=list)
    is_law: bool = False
    seen_as: str = ""
    tells: list[str] = field(default_factory=list)
    words: dict[str, tuple[str, str]] = field(default_factory=dict)

    @property
    def full_name(self) -> str:
        return f"{self.of}::{self.name}" if self.of else self.name


@dataclass
class Crate:
    """A crate by its line in crates.txt: the libraries that it stands on, and its storey: the comment above its group."""
    name: str
    below: list[str]
    storey: str


@dataclass
class Word:
    """A definition of specs/: its name, and the comment above it."""
    name: str
    note: str


@dataclass
class Module:
    """A file of specs/: its first comment, and its public words."""
    path: Path
    head: str
    words: list[Word]


def sentence(text: str) -> str:
    """The first sentence, on one line: it ends with a full stop or a question mark, or with its paragraph."""
    text = " ".join(text.strip().split("\n\n")[0].split())
    for at in re.finditer(r"[.?](?= [A-Z`*(]|$)", text):
        if not re.search(r"\b(e\.g|i\.e|al|cf|vs|\.)\.$", text[:at.end()]):
            return text[:at.end()]
    return text


def short(text: str, most: int = 20, marks: str = ";") -> str:
    """The first sentence; a longer one than `most` words ends at the first of these marks."""
    text = sentence(text)
    return text if len(text.split()) <= most else re.split(f"[{marks}] ", text)[0].rstrip(".") + "."


def crates_of(top: Path) -> list[Crate]:
    """The crates of crates.txt, in its order."""
    found: list[Crate] = []
    storey = ""
    for line in (top / "crates.txt").read_text(encoding="utf-8").splitlines():
        head, colon, below = line.partition("#")[0].partition(":")
        if colon:
            found.append(Crate(head.split()[0], below.split(), storey))
        elif line.startswith("#"):
            storey = line.strip("# .")
    return found


def stands_on(crates: list[Crate]) -> dict[str, list[str]]:
    """What each crate stands on, without what another one of these stands on."""
    below = {crate.name: set(crate.below) for crate in crates}
    every: dict[str, set[str]] = {}

    def all_below(name: str) -> set[str]:
        if name not in every:
            every[name] = set().union(below.get(name, set()), *(all_below(it) for it in below.get(name, set())))
        return every[name]

    return {crate.name: [it for it in crate.below if not any(it in all_below(other) for other in crate.below)]
            for crate in crates}


def depth_change(line: str) -> int:
    """By how much a line goes deeper into braces, its texts and comments left out."""
    line = re.sub(r"//.*", "", QUOTES.sub("", line))
    return line.count("{") - line.count("}")


def head_of(lines: list[str]) -> str:
    """The lines of an item up to its clauses, its body or its end."""
    for count, line in enumerate(lines):
        if count and re.match(r"requires|ensures|//|[{}]", line.strip()):
            return "\n".join(lines[:count])
        if line.rstrip().endswith(("{", "{}", ";")):
            return "\n".join(lines[:count + 1]).rstrip("{}; ")
    return "\n".join(lines)


def body_from(text: str, begin: int) -> str:
    """What stands from a place behind a brace to the brace that closes it."""
    depth, at = 1, begin
    while depth:
        depth += {"{": 1, "}": -1}.get(text[at], 0)
        at += 1
    return text[begin:at - 1]


def items_of_file(text: str) -> list[tuple[Item, bool]]:
    """The functions and types of a file, and whether each is marked as public (those of a trait are as the trait)."""
    found: list[tuple[Item, bool]] = []
    doc: list[str] = []
    note: list[str] = []
    depth, owner, is_public_trait = 0, "", False
    current: Item | None = None
    trait: Item | None = None
    lines = text.splitlines()
    for number, line in enumerate(lines):
        bare = line.strip()
        inside = depth == (1 if owner else 0)
        if bare.startswith("///"):
            doc.append(bare[3:].strip())
            note, current = [], None
        elif bare.startswith("//"):
            note = [*note, bare[2:].strip()] if bare != "//" else []
        elif not bare:
            note = []
        elif bare.startswith("#["):
            pass
        else:
            clause = CLAUSE.match(bare) if current else None
            item = ITEM.match(bare) if inside else None
            within = IMPL.match(bare) if depth == 0 else None
            if clause and current:
                said = body_from("\n".join(lines[number:]), line.index("{") + 1)
                current.clauses.append(Clause(clause.group(1), clause.group(2), " ".join(note), said))
            elif within:
                said = re.sub(r"<[^<>]*>", "", re.sub(r"<[^<>]*>", "", within.group("of")))
                owner = "" if " for " in f" {said} " else said.split(" where ")[0].strip().split("::")[-1]
                owner = owner or "-"
            elif inside and owner and is_public_trait and TELLS.match(bare) and trait:
                trait.tells.append(bare.split()[1].rstrip(":"))
            elif item:
                public, kind, name = item.groups()
                is_trait_method = kind == "fn" and is_public_trait and bool(owner)
                current = Item(kind, name, owner if kind == "fn" and owner != "-" else "", "\n".join(doc),
                               head_of(lines[number:]))
                found.append((current, bool(public) and owner != "-" or is_trait_method))
                if kind == "trait":
                    owner, is_public_trait, trait = name, bool(public), current
                if kind != "fn":
                    current = None
            if bare == "{}" and current:
                current.is_law = True
            doc, note = [], []
            depth += depth_change(line)
            if depth == 0 and bare.startswith("}"):
                owner, is_public_trait = "", False
    return found


def imported(text: str) -> dict[str, tuple[str, str]]:
    """The words of specs/ that a file brings in: crate and module of each."""
    return {word.strip(): (crate, module) for crate, module, words in IMPORT.findall(text) for word in words.split(",")}


def named_words(item: Item) -> set[tuple[str, str, str]]:
    """The words of specs/ that the clauses of an item name: crate, module and word."""
    return {(*item.words[token], token) for clause in item.clauses for token in TOKEN.split(clause.text) if token in item.words}


def exported(lib: str) -> list[str]:
    """The names that the first page of a crate offers of its own modules, in its order; `*` for a whole module."""
    lib = re.sub(r"//.*", "", lib)
    own = set(re.findall(r"^(?:pub )?mod (\w+);", lib, re.M))
    names: list[str] = []
    for path in re.findall(r"^pub use ([^;]+);", lib, re.M):
        module, _, rest = "".join(path.split()).replace("crate::", "").partition("::")
        if module in own:
            names += [it.rpartition("::")[2] for it in rest.strip("{}").split(",") if it]
    return names


def models_of(text: str) -> dict[str, str]:
    """What a contract sees of each type of a file that has a model."""
    values = {name: VALUE.search(body) for name, body in MODEL.findall(text)}
    return {name: " ".join(value.group(1).split()) for name, value in values.items() if value}


def tests_of(crate: Path) -> list[tuple[str, str]]:
    """The files of a crate that have tests, each with the first sentence of its head."""
    found = []
    for file in sorted((crate / "src").glob("*.rt")):
        text = file.read_text(encoding="utf-8")
        if re.search(r"^\s*#\[test\]", text, re.M):
            head = [line[3:].strip() for line in text.splitlines() if line.startswith("//!")]
            found.append((file.name, sentence("\n".join(head))))
    return found


def public_items(crate: Path) -> list[Item]:
    """What a crate offers: its types, each with its functions behind it, and its free functions, as its first page has them."""
    first = crate / "src" / "lib.rt"
    if not first.is_file():
        return []
    lib = first.read_text(encoding="utf-8")
    tests = set(re.findall(r"^#\[cfg\(test\)\]\nmod (\w+);", lib, re.M))
    every: list[Item] = [item for item, is_public in items_of_file(lib) if is_public]
    for item in every:
        item.words = imported(lib)
    models: dict[str, str] = {}
    names = exported(lib) + [item.name for item in every if not item.of]
    open_modules = set(re.findall(r"^pub mod (\w+);", lib, re.M))
    for file in sorted((crate / "src").rglob("*.rt")):
        if file == first or file.stem in tests:
            continue
        text = file.read_text(encoding="utf-8")
        found = [item for item, is_public in items_of_file(text) if is_public]
        for item in found:
            item.words = imported(text)
        every += found
        models.update(models_of(text))
        if file.stem in open_modules or file.parent.name in open_modules:
            names += [item.name for item in found if not item.of]
    rank = {name: at for at, name in reversed(list(enumerate(names)))}
    for item in every:
        item.seen_as = models.get(item.name, "") if item.kind in ("struct", "enum") else ""
    chosen = [item for item in every if (item.of or item.name) in rank]
    return sorted(chosen, key=lambda item: (rank[item.of or item.name], bool(item.of)))


def is_law_crate(name: str, items: list[Item]) -> bool:
    """Whether a crate has definitions and lemmas, and next to no code: by its name, or as all its functions are laws."""
    functions = [item for item in items if item.kind == "fn"]
    return name.endswith("_laws") or bool(functions) and all(item.is_law for item in functions)


def modules_of(crate: Path) -> list[Module]:
    """The files of specs/ that Lib.antt names, in its order."""
    lib = crate / "specs" / "Lib.antt"
    order = re.findall(r"^pub mod (\w+)", lib.read_text(encoding="utf-8"), re.M) if lib.is_file() else []
    return [module_of(crate / "specs" / f"{name}.antt") for name in order if (crate / "specs" / f"{name}.antt").is_file()]


def module_of(path: Path) -> Module:
    head: list[str] = []
    words: list[Word] = []
    note: list[str] = []
    begun = False
    for line in path.read_text(encoding="utf-8").splitlines():
        if line.startswith("--"):
            (note if begun else head).append(line[2:].strip())
            continue
        if line.startswith(("use ", "pub use ")):
            begun = True
        elif not line.strip():
            begun = begun or bool(head)
            note = []
        else:
            begun = True
            word = WORD.match(line)
            if word and not line.startswith("pub mod"):
                words.append(Word(word.group(2), " ".join(note)))
            note = []
    return Module(path, " ".join(head), words)

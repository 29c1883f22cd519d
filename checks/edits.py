#!/usr/bin/env python3
"""Tries wrong bodies that the check must refuse, each by the proof of the function that it changes.

usage: checks/edits.py [--new] [--jobs N] [CRATE[/EDIT]..]   these, or those of these crates, or all
       checks/edits.py [--new] [--jobs N] --since REV        of the crates that differ from a commit
       checks/edits.py --check     tries none: where the edits and state.txt differ

--new tries only those that were not tried on the sources as they stand.

The edits stand in checks/edits/CRATE/, in the form of those in crates/CRATE/must-fail/, which
`rt ci` tries: there the first of a crate costs the whole proof once more. Here one takes 20 to 60 s
of a processor, of the crates at the top up to 150, and the libraries below the crate have to be
built (`rt ci CRATE`). What each came to, on which sources and when, stands in state.txt there;
wrong_bodies.txt beside it names the edits, here and there, that no contract may let pass.

    refused   the proof of the function fails, for another reason than a name that is missing
    proved    the crate is proved with it: a contract says too little, or the edit changes nothing
    bad       it does not apply, is no Rattle, or takes a name away that a proof cites
    limit     the check ran into a limit and gave no verdict
    untried   not yet

The sources are told by git's checksum of the crate's src/, specs/ and proofs/ with the edit; those
of the crates below are not in it. The status is 0 where each is refused.
"""
from __future__ import annotations

import argparse
import datetime
import importlib.util
import os
import re
import subprocess
import sys
import tempfile
from concurrent.futures import ThreadPoolExecutor
from pathlib import Path
from types import ModuleType
from typing import Any, Iterator, NamedTuple, Optional

TOP = Path(__file__).resolve().parent.parent
EDITS = TOP / "checks/edits"
STATES, BODIES = EDITS / "state.txt", EDITS / "wrong_bodies.txt"
SOURCES = ("src", "specs", "proofs")
FUNCTION = re.compile(r'( *)(?:pub(?:\([a-z]+\))? )?(?:const |unsafe |extern "C" )*fn (\w+)')
IMPLEMENTED = re.compile(r"impl(?:<.*?>)? (?:.* for )?&?(\w+)")
MISSING_NAME = re.compile(
    r"(note: )?(\./)?proofs/.*(has no field|is not in scope|has no `|was not admitted)"
)


class State(NamedTuple):
    """What a try of an edit came to."""

    state: str
    sources: str
    date: str


UNTRIED = State("untried", "-", "-")


def load(name: str, path: Path) -> ModuleType:
    spec = importlib.util.spec_from_file_location(name, path)
    assert spec and spec.loader
    made = importlib.util.module_from_spec(spec)
    sys.modules[name] = made
    spec.loader.exec_module(made)
    return made


def git(*words: str, index: Optional[str] = None) -> str:
    where = dict(os.environ, **({"GIT_INDEX_FILE": index} if index else {}))
    how: dict[str, Any] = {"check": True, "capture_output": True, "text": True}
    return str(subprocess.run(["git", *words], cwd=TOP, env=where, **how).stdout)


def sources_of(name: str) -> str:
    """Git's checksum of an edit and of its crate's sources, as they stand."""
    crate = crate_of(name)
    with tempfile.TemporaryDirectory() as room:
        parts = [f"crates/{crate}/{it}" for it in SOURCES if (TOP / "crates" / crate / it).is_dir()]
        git("add", "--force", "--", *parts, f"checks/edits/{name}.edit", index=f"{room}/index")
        return git("write-tree", index=f"{room}/index")[:12]


def edits() -> dict[str, Path]:
    return {f"{it.parent.name}/{it.stem}": it for it in sorted(EDITS.glob("*/*.edit"))}


def crate_of(name: str) -> str:
    return name.partition("/")[0]


def states() -> dict[str, State]:
    """What the last try of each edit came to."""
    lines = STATES.read_text(encoding="utf-8").splitlines() if STATES.exists() else []
    rows = (line.split() for line in lines if line and line[0] != "#")
    return {name: State(*rest) for name, *rest in rows}


def write_states(found: dict[str, State]) -> None:
    head = "# What the last try of each edit came to, on which sources and when, by edits.py.\n"
    rows = (f"{name} {' '.join(state)}\n" for name, state in sorted(found.items()))
    STATES.write_text(head + "".join(rows), encoding="utf-8")


# --- The function that an edit changes. ---


def function_at(lines: list[str], at: int) -> Optional[str]:
    """The function around a line, with its type where it is a method; None where there is none."""
    for start in range(at, -1, -1):
        found = FUNCTION.match(lines[start])
        if found:
            end = next((i for i in range(start, len(lines)) if lines[i] == found[1] + "}"), start)
            above = reversed(lines[:start]) if found[1] else iter(())
            owner = next((it[1] for it in map(IMPLEMENTED.match, above) if it), "")
            return None if end < at else f"{owner}::{found[2]}" if owner else found[2]
    return None


def scopes(edit: Path, folder: Path) -> Iterator[list[str]]:
    """Flags of the checks that may refuse an edit: of the functions that it changes, then none."""
    path, only = "", []
    for line in edit.read_text(encoding="utf-8").splitlines():
        if line.startswith("file: "):
            path = line[len("file: "):].strip()
        elif line.startswith("old: ") and path[:4] == "src/" and (folder / path).is_file():
            text = (folder / path).read_text(encoding="utf-8")
            at = text.partition(line[len("old: "):])[0].count("\n")
            module = re.sub(r"(\b(lib|main))?\.rt$", "", path[len("src/"):]).replace("/", "::")
            only.append("::".join(filter(None, (module, function_at(text.split("\n"), at)))))
    if only and all(only):
        yield [word for it in dict.fromkeys(only) for word in ("--only", it)]
    yield []


# --- A try. ---


def judged(driver: Any, ran: Any, texts: dict[str, str]) -> str:
    """What a check says of the crate with the edit; empty where it judged nothing."""
    lines = ran.stdout.rstrip("\n").split("\n")
    if ran.returncode == 0:
        return "proved"
    if ran.returncode == 3 and any(map(driver.LIMITS.search, lines)):
        return "limit"
    if ran.returncode != 1 or driver.rtlib.STALE.search(ran.stdout):
        return ""
    placed = [it for it in lines if re.match(r"(note: )?\S+:\d+:\d+:", it)]
    told = [it for it in placed if ": error" in it or it.startswith("note: ")]
    is_read = not any(driver.unread(it, texts) for it in lines)
    only_names = bool(told) and all(map(MISSING_NAME.match, told))
    is_judged = lines[-1].startswith(("only=", "logic=not-proved"))
    return "refused" if is_judged and is_read and not only_names else "bad"


def tried(driver: Any, crate: Any, edit: Path) -> str:
    """What the edit comes to; empty where that is not known."""
    texts, why = driver.read_edit(str(edit), crate.folder)
    if why:
        print(f"{crate.name}/{edit.stem}: {why}", flush=True)
        return "bad"
    state, said = "", ""
    for flags in scopes(edit, Path(crate.folder)):
        ran = driver.checked(crate, texts, ["--jobs", "1", *flags], None)
        state, said = judged(driver, ran, texts), ran.stdout
        if state in ("refused", "bad"):
            break
    errors = [it for it in said.splitlines() if ": error" in it or it.startswith("rattle:")]
    why = f": {errors[0][:160]}" if errors else ""
    print(f"{crate.name}/{edit.stem}: {state or 'NOT TRIED'}{why}", flush=True)
    return state


def try_all(names: list[str], jobs: int) -> int:
    """Tries these edits, and writes what each came to."""
    driver: Any = load("launcher", TOP / "tools/launcher.py").driver_once()
    if driver is None:
        print("checks/edits.py: rt is not what tools/launcher.py knows", file=sys.stderr)
        return 2
    driver.rtlib.guarded()
    known: dict[str, Any] = {}
    every, failed = edits(), 0

    def one(name: str) -> str:
        folder = TOP / "crates" / crate_of(name)
        return tried(driver, driver.rtlib.Crate(str(folder), str(TOP), known), every[name])

    with ThreadPoolExecutor(jobs) as pool:
        for name, state in zip(names, pool.map(one, names)):
            failed += state != "refused"
            if state:
                today = datetime.date.today().isoformat()
                found = {**states(), name: State(state, sources_of(name), today)}
                write_states({it: found.get(it, UNTRIED) for it in every})
    print(f"{len(names) - failed} refused, {failed} not")
    return 1 if failed else 0


def differences() -> int:
    """Says where edits and lines differ, what is not refused, and how many wait for a try."""
    found, every = states(), edits()
    fine = ("refused", UNTRIED.state)
    bodies = BODIES.read_text(encoding="utf-8")
    named = re.findall(r": ((?:crates|checks)/\S+\.edit)$", bodies, re.M)
    wrong = [f"{it} has no line: checks/edits.py {it} writes it" for it in every if it not in found]
    wrong += [f"{it} is {state.state}" for it, state in found.items() if state.state not in fine]
    wrong += [f"{it} of state.txt is no edit" for it in found if it not in every]
    wrong += [f"{it} of wrong_bodies.txt is no edit" for it in named if not (TOP / it).is_file()]
    wrong += [] if named else ["wrong_bodies.txt names no edit"]
    print(*wrong, sep="\n", end="\n" if wrong else "")
    old = [it for it in every if it in found and found[it].sources != sources_of(it)]
    untried = sum(found[it] == UNTRIED for it in old)
    if old:
        others = f"{len(old) - untried} were tried on other sources"
        print(f"checks/edits: {untried} of {len(every)} are untried, {others}", file=sys.stderr)
    return 1 if wrong else 0


def chosen(names: set[str], since: Optional[str]) -> list[str]:
    """The edits of these names or crates, and of the crates that differ from a commit; else all."""
    every = edits()
    if since:
        differ = git("diff", "--name-only", since, "--", "crates", "checks/edits").splitlines()
        parts = [it.split("/") for it in differ]
        names = names | {it[2] for it in parts if it[0] == "checks"}
        names |= {it[1] for it in parts if it[0] == "crates" and it[2] in SOURCES}
    return [it for it in every if {it, crate_of(it)} & names or not names and not since]


def main() -> int:
    parser = argparse.ArgumentParser(
        description=__doc__, formatter_class=argparse.RawDescriptionHelpFormatter
    )
    parser.add_argument("names", nargs="*", metavar="CRATE[/EDIT]")
    parser.add_argument("--since", metavar="REV")
    parser.add_argument("--jobs", type=int, default=1)
    parser.add_argument("--check", action="store_true")
    parser.add_argument("--new", action="store_true")
    words = parser.parse_args()
    if words.check:
        return differences()
    every, found = edits(), states()
    for it in sorted({*words.names} - {*every, *map(crate_of, every)}):
        parser.error(f"{it} is nothing in checks/edits")
    names = chosen({*words.names}, words.since)
    if words.new:
        names = [it for it in names if it not in found or found[it].sources != sources_of(it)]
    return try_all(names, words.jobs)


if __name__ == "__main__":
    sys.exit(main())

"""The launcher (`roam`, tools/launcher.py), over a small repository with a toolchain of a few lines in the place of the
real one: what it builds and when, and that the caller's folder, words and exit status are passed on."""
from __future__ import annotations

import os
import re
import resource
import shutil
import signal
import subprocess
import sys
import time
from collections.abc import Callable
from pathlib import Path
from typing import Any, Optional

import launcher
import pytest
import seconds

from conftest import TOP

# Notes when a command begins and ends, with its crate; `run` makes a program that tells its folder and words. A crate
# whose text is 'beside NAME' waits until NAME has begun, for at most a minute; 'after NAME' until it is refused, and
# then half a second in which the launcher can see it; 'slow' keeps work, says which process it is, and sleeps; 'once'
# does so the first time; 'broken' is refused.
TOOLCHAIN = r"""#!/usr/bin/env bash
notes=${0%/*}/commands
echo "$1 ${PWD##*/}" >>"$notes"
echo "${PWD##*/} $3" >>"${0%/*}/jobs"
read -r first other <src/text
[ "$first" = once ] && [ ! -e "${0%/*}/slow" ] && first=slow
[ "$first" = slow ] && mkdir -p out/incremental && : >out/incremental/proved && echo $$ >>"${0%/*}/slow" && exec sleep 60
await() { # LINE FILE: until it stands there
  for ((k = 0; k < 6000; k++)); do grep -qsx "$1" "$2" && break; sleep 0.01; done
  [ $k -lt 6000 ] || exit 1
}
[ "$first" = beside ] && await "lib $other" "$notes"
[ "$first" = after ] && await "$other" "${0%/*}/refused" && sleep 0.5
[ "$first" = broken ] && echo "${PWD##*/}" >>"${0%/*}/refused" && exit 1
# What was proved below is there, and what is proved here is left for the crates above.
[ "${PWD##*/}" != middle ] || [ -f ../low/out/rlib/made ] || exit 1
if [ "$1" = run ]; then
  mkdir -p out
  cat >out/roam_cli <<'PROGRAM'
#!/usr/bin/env bash
pwd
printf '<%s>' "$@"
[ "$2" = /dev/null/grid ] && exit 5
exit 3
PROGRAM
  chmod +x out/roam_cli
  while [ "$1" != -- ]; do shift; done
  shift
  out/roam_cli "$@"
  [ $? -eq 5 ] || exit 1
  echo "end roam_cli" >>"$notes"
  exit 5
fi
mkdir -p out/rlib
: >out/rlib/made
echo "end ${PWD##*/}" >>"$notes"
"""

CHAIN = "# a comment\nroam_cli: middle low\nunused:\nmiddle staticlib: low kit_library\nlow:\n"
WIDE = "left:\nright:\nchain1:\nchain2: chain1\nroam_cli: left right chain2\n"
# Of two calls that share a build: one makes roam_cli, the other one side.
SHARED = "low:\nother:\nside: low other\nroam_cli: low\n"

# What the command `roam` does where the program is to be built, on two processors with memory for two whatever there is here.
ON_TWO = """import sys
sys.path.insert(0, sys.argv[1])
import launcher
launcher.processors, launcher.free_memory = lambda: 2, lambda: 8_000_000_000
sys.exit(launcher.main(sys.argv[2:]))"""


class Repository:
    """A small repository with its toolchain beside it."""

    def __init__(self, folder: Path, crates: str) -> None:
        self.top, self.bin, self.caller = folder / "repository", folder / "bin", folder / "caller"
        for it in (self.top / "tools", self.bin, self.caller):
            it.mkdir(parents=True)
        shutil.copy(TOP / "roam", self.top)
        for it in ("launcher.py", "first_look.py"):
            shutil.copy(TOP / "tools" / it, self.top / "tools")
        (self.bin / "roam").symlink_to(self.top / "roam")
        (self.bin / "rt").write_text(TOOLCHAIN)
        (self.bin / "rt").chmod(0o755)
        self.path = f"{self.bin}:{os.environ['PATH']}"
        (self.top / "crates.txt").write_text(crates)
        self.names = re.findall("^([a-z_0-9]+).*:", crates, re.MULTILINE)
        for name in self.names:
            self.edit(name, "source")

    def edit(self, name: str, text: str) -> None:
        source = self.top / "crates" / name / "src/text"
        source.parent.mkdir(parents=True, exist_ok=True)
        source.write_text(f"{text}\n")

    def notes(self, name: str) -> list[str]:
        """The lines that the toolchain has left: which commands, which crates it refused, or which processes are slow."""
        found = self.bin / name
        return found.read_text().splitlines() if found.is_file() else []

    def foretell(self, seconds: str) -> None:
        (self.top / "bench").mkdir(exist_ok=True)
        (self.top / "bench/seconds.txt").write_text(seconds)

    def environment(self, jobs: Optional[int], path: Optional[str]) -> dict[str, str]:
        added = {"PATH": path or self.path, "ROAM_JOBS": str(jobs or "")}
        return {**os.environ, **added}

    def roam(self, *words: str, jobs: Optional[int] = None, path: Optional[str] = None) -> subprocess.CompletedProcess[str]:
        """One call by the link, from the caller's folder; the notes of the toolchain begin anew."""
        (self.bin / "commands").write_text("")
        return subprocess.run([str(self.bin / "roam"), *words], cwd=self.caller, env=self.environment(jobs, path),
                              timeout=300, stdin=subprocess.DEVNULL, capture_output=True, text=True, check=False)

    def begin(self, said: Path, *words: str, jobs: int = 2) -> subprocess.Popen[bytes]:
        """A build on two processors, under way, of the program if nothing else is named; what it says is in a file."""
        (self.bin / "commands").touch()
        words = (sys.executable, "-c", ON_TWO, str(self.top / "tools"), *(words or ("run", "mesh")))
        with open(said, "wb") as err:
            return subprocess.Popen(words, cwd=self.caller, env=self.environment(jobs, None),
                                    stdin=subprocess.DEVNULL, stdout=subprocess.DEVNULL, stderr=err)

    def commands(self) -> list[str]:
        return [line for line in self.notes("commands") if not line.startswith("end ")]

    def check_left(self) -> None:
        """No copy of the tree stands, and nothing in the caller's folder."""
        assert not list(self.top.glob("crates/*/out/tree"))
        assert not list(self.caller.iterdir())

    def check_order(self) -> None:
        """What each crate stands on had ended before it began."""
        need, ended = {"chain2": {"chain1"}, "roam_cli": {"left", "right", "chain2"}}, set()
        for line in self.notes("commands"):
            word, name = line.split()
            if word == "end":
                ended.add(name)
            else:
                assert ended >= need.get(name, set()), f"{name} began before what it stands on had ended"


def until(holds: Callable[[], Any]) -> None:
    """Waits until something holds, for at most a minute."""
    for _ in range(6000):
        if holds():
            return
        time.sleep(0.01)
    raise AssertionError("it did not come to hold")


@pytest.fixture
def chain(tmp_path: Path) -> Repository:
    return Repository(tmp_path, CHAIN)


@pytest.fixture
def wide(tmp_path: Path) -> Repository:
    return Repository(tmp_path, WIDE)


ALL = ["lib low", "lib middle", "run roam_cli"]
WORDS = ("mesh", "a b", "", "*")


def launch(chain: Repository, status: int, commands: list[str], lines: int) -> None:
    """One call: its status, which commands of the toolchain it gave, and how many lines it wrote on standard error."""
    ended = chain.roam(*WORDS)
    found = (ended.returncode, chain.commands(), len(ended.stderr.splitlines()))
    assert found == (status, commands, lines), ended.stderr
    chain.check_left()
    if status == 3:
        assert ended.stdout == f"{chain.caller}\n<mesh><a b><><*>"


def test_launcher_builds_what_is_needed_lowest_first(chain: Repository) -> None:
    launch(chain, 3, ALL, 4)


def test_launcher_starts_at_once_the_second_time(chain: Repository) -> None:
    launch(chain, 3, ALL, 4)
    launch(chain, 3, [], 0)


def test_launcher_starts_without_python_the_second_time(chain: Repository) -> None:
    launch(chain, 3, ALL, 4)
    (chain.bin / "python3").write_text("#!/bin/sh\nexit 99\n")
    (chain.bin / "python3").chmod(0o755)
    launch(chain, 3, [], 0)


def test_launcher_starts_at_once_where_no_list_of_parts_was_left(chain: Repository) -> None:
    launch(chain, 3, ALL, 4)
    (chain.top / "crates/roam_cli/out/parts").unlink()
    launch(chain, 3, [], 0)


def test_launcher_looks_at_no_crate_that_is_not_needed(chain: Repository) -> None:
    launch(chain, 3, ALL, 4)
    late = time.time() + 3600
    os.utime(chain.top / "crates/unused/src/text", (late, late))
    launch(chain, 3, [], 0)


def test_launcher_builds_again_after_a_change(chain: Repository) -> None:
    launch(chain, 3, ALL, 4)
    chain.edit("low", "other")
    launch(chain, 3, ALL, 4)


def test_launcher_starts_at_once_after_that(chain: Repository) -> None:
    launch(chain, 3, ALL, 4)
    chain.edit("low", "other")
    launch(chain, 3, ALL, 4)
    launch(chain, 3, [], 0)


def test_launcher_builds_again_where_a_crate_has_a_folder_more(chain: Repository) -> None:
    launch(chain, 3, ALL, 4)
    (chain.top / "crates/middle/proofs").mkdir()
    launch(chain, 3, ALL, 4)


def test_launcher_builds_again_after_a_change_of_the_toolchain(chain: Repository) -> None:
    launch(chain, 3, ALL, 4)
    (chain.bin.parent / "KIT-ID").write_text("another one\n")
    launch(chain, 3, ALL, 4)


def test_launcher_runs_nothing_where_a_crate_is_refused(chain: Repository) -> None:
    launch(chain, 3, ALL, 4)
    chain.edit("middle", "broken")
    launch(chain, 125, ALL[:2], 3)


def test_launcher_tries_a_refused_crate_again(chain: Repository) -> None:
    chain.edit("middle", "broken")
    launch(chain, 125, ALL[:2], 3)
    launch(chain, 125, ALL[:2], 3)


def test_launcher_runs_no_old_program(chain: Repository) -> None:
    launch(chain, 3, ALL, 4)
    chain.edit("roam_cli", "broken")
    launch(chain, 125, ALL, 5)


def test_launcher_says_what_the_toolchain_said_of_a_refused_crate(chain: Repository) -> None:
    chain.edit("roam_cli", "broken")
    assert chain.roam("mesh").stderr.splitlines()[-2:] == [
        "rt run ended with status 1",
        "roam: the crate roam_cli is not proved or not built; all that the toolchain said is in "
        f"{chain.top}/crates/roam_cli/out/build.log"]


def test_launcher_says_which_crates_stand_on_each_other(chain: Repository) -> None:
    (chain.top / "crates.txt").write_text("roam_cli: low\nlow: middle\nmiddle: low\n")
    ended = chain.roam("mesh")
    assert ended.returncode == 125
    assert re.fullmatch("roam: crates.txt: these crates stand on each other: .*low.*\n", ended.stderr)


# --- What it foretells, and what begins first. ---

SECONDS = "# seconds\nleft {left}\nright 100\nchain1 10\nchain2 200\nroam_cli 90\n"


def wide_run(wide: Repository, jobs: int, status: int, pattern: str) -> str:
    """One call: its status, the order of its commands, and what standard error has in it."""
    ended = wide.roam("mesh", jobs=jobs)
    wide.check_order()
    assert ended.returncode == status and re.search(pattern, ended.stderr, re.MULTILINE), ended.stderr
    return ended.stderr


def test_launcher_says_how_long_it_takes(wide: Repository) -> None:
    wide.foretell(SECONDS.format(left=100))
    wide_run(wide, 1, 3, "^roam: proving and building 5 of 5 crates on 1 processors, about 8 minutes; ")


@pytest.mark.parametrize("changed, foretold", [
    pytest.param("left", "2 of 5 crates on 1 processors, about 3 minutes", id="launcher_counts_only_what_is_to_be_proved"),
    pytest.param("chain1", "3 of 5 crates on 1 processors, about 5 minutes", id="launcher_counts_what_stands_on_a_change"),
])
def test_count(wide: Repository, changed: str, foretold: str) -> None:
    wide.foretell(SECONDS.format(left=100))
    assert wide.roam("mesh", jobs=1).returncode == 3
    wide.edit(changed, "changed")
    wide_run(wide, 1, 3, f"^roam: proving and building {foretold}; ")


def test_launcher_begins_with_what_takes_longest(wide: Repository) -> None:
    # A crate of which little stands above, and which takes longer than all of the chain.
    wide.foretell(SECONDS.format(left=500))
    wide_run(wide, 1, 3, "^roam: left is proved, in [0-9]* s; [0-9] left$")
    assert wide.commands()[0] == "lib left"


def test_launcher_begins_with_the_longest_chain(wide: Repository) -> None:
    wide_run(wide, 1, 3, "^roam: left is proved, in [0-9]* s; [0-9] left$")
    each = ["lib chain1", "lib left", "lib right", "lib chain2", "run roam_cli"]
    assert wide.notes("commands") == [it for line in each for it in (line, f"end {line.split()[1]}")]


@pytest.mark.parametrize("processors, memory, jobs, lanes", [
    pytest.param(8, 64e9, "", 8, id="launcher_uses_all_processors"),
    pytest.param(8, 7e9, "", 3, id="launcher_uses_as_many_as_there_is_memory_for"),
    pytest.param(8, 64e9, "3", 3, id="launcher_uses_as_many_as_it_is_asked_for"),
    pytest.param(2, 64e9, "3", 2, id="launcher_uses_no_more_than_there_are"),
    pytest.param(8, 64e9, "0", 8, id="launcher_takes_no_zero_for_a_number_of_processors"),
    pytest.param(8, 1e9, "", 1, id="launcher_uses_one_where_there_is_little_memory"),
])
def test_lanes(monkeypatch: pytest.MonkeyPatch, processors: int, memory: float, jobs: str, lanes: int) -> None:
    monkeypatch.setattr(launcher, "processors", lambda: processors)
    monkeypatch.setattr(launcher, "free_memory", lambda: int(memory))
    monkeypatch.setenv("ROAM_JOBS", jobs)
    assert launcher.lanes() == lanes


@pytest.mark.parametrize("files, processors, memory", [
    pytest.param(("max 100000", "max", "7"), 4, 8 * 1024, id="launcher_takes_no_limit_for_one"),
    pytest.param(("250000 100000", "5000", "2000"), 2, 3000, id="launcher_keeps_the_limits_of_a_container"),
    pytest.param(("900000 100000", "90000", "2000"), 4, 8 * 1024, id="launcher_keeps_what_is_less_than_a_limit"),
])
def test_limits(monkeypatch: pytest.MonkeyPatch, files: tuple[str, ...], processors: int, memory: int) -> None:
    read = Path.read_text
    names = ("cpu.max", "memory.max", "memory.current")
    given = {f"/sys/fs/cgroup/{name}": text for name, text in zip(names, files)}
    given["/proc/meminfo"] = "MemTotal: 99 kB\nMemAvailable:    8 kB\n"
    monkeypatch.setattr(Path, "read_text", lambda self, **how: given.get(str(self)) or read(self, **how))
    monkeypatch.setattr(os, "sched_getaffinity", lambda _: range(4))
    assert (launcher.processors(), launcher.free_memory()) == (processors, memory)


# --- Side by side: crates begin where all that they stand on has ended. ---

def test_launcher_proves_side_by_side(wide: Repository, tmp_path: Path) -> None:
    wide.edit("left", "beside right")
    wide.edit("right", "beside left")
    assert wide.begin(tmp_path / "said").wait(300) == 3
    wide.check_order()
    assert (tmp_path / "said").read_text().endswith(" 0 left\n")


def test_launcher_lets_others_end_where_a_crate_is_refused(wide: Repository, tmp_path: Path) -> None:
    wide.edit("chain1", "after left")
    wide.edit("left", "broken")
    assert wide.begin(tmp_path / "said").wait(300) == 125
    said = (tmp_path / "said").read_text()
    assert "the crate left is not proved" in said and "roam: chain1 is proved" in said
    assert sorted(wide.commands()) == ["lib chain1", "lib left"]
    wide.check_left()


def begun(wide: Repository, said: Path) -> subprocess.Popen[bytes]:
    """A build with two slow crates under way."""
    for name in ("left", "chain1"):
        wide.edit(name, "slow")
    launched = wide.begin(said)
    until(lambda: len(wide.notes("slow")) == 2)
    return launched


def ended_by(wide: Repository, launched: subprocess.Popen[bytes], number: signal.Signals) -> None:
    launched.send_signal(number)
    assert launched.wait(300) == 128 + number
    for it in wide.notes("slow"):
        with pytest.raises(ProcessLookupError):
            os.kill(int(it), 0)
    assert len(wide.notes("slow")) == 2
    wide.check_left()


def test_launcher_says_what_is_under_way(wide: Repository, tmp_path: Path) -> None:
    launched, said = begun(wide, tmp_path / "said"), tmp_path / "said"
    # As at each half minute.
    launched.send_signal(signal.SIGUSR1)
    line = re.compile("^roam: 0 of 5 crates are done, under way: .*; about .* left$", re.MULTILINE)
    until(lambda: line.search(said.read_text()))
    ended_by(wide, launched, signal.SIGTERM)


@pytest.mark.parametrize("number", [
    pytest.param(signal.SIGTERM, id="launcher_ends_what_it_began_when_it_is_ended"),
    pytest.param(signal.SIGINT, id="launcher_ends_what_it_began_when_it_is_interrupted"),
    pytest.param(signal.SIGHUP, id="launcher_ends_what_it_began_when_its_terminal_goes"),
])
def test_signals(wide: Repository, tmp_path: Path, number: signal.Signals) -> None:
    ended_by(wide, begun(wide, tmp_path / "said"), number)


def test_launcher_keeps_what_was_proved_when_it_is_ended(wide: Repository, tmp_path: Path) -> None:
    ended_by(wide, begun(wide, tmp_path / "said"), signal.SIGTERM)
    for name in ("left", "chain1"):
        assert (wide.top / "crates" / name / "out/incremental/proved").is_file()
    for name in ("left", "chain1"):
        wide.edit(name, "source")
    launched = wide.begin(tmp_path / "said")
    assert launched.wait(300) == 3


def test_launcher_ends_where_nobody_reads_what_it_says(chain: Repository) -> None:
    closed, end = os.pipe()
    os.close(closed)
    ended = subprocess.run([str(chain.bin / "roam"), "mesh"], cwd=chain.caller, env=chain.environment(1, None),
                           timeout=300, stdout=subprocess.DEVNULL, stderr=end, check=False)
    os.close(end)
    assert ended.returncode == 128 + signal.SIGPIPE and not chain.commands()
    chain.check_left()


def test_launcher_leaves_the_signals_of_the_program_alone(chain: Repository) -> None:
    launch(chain, 3, ALL, 4)
    (chain.top / "crates/roam_cli/out/parts").unlink()
    (chain.top / "crates/roam_cli/out/roam_cli").write_text("#!/bin/sh\ngrep SigIgn /proc/self/status\n")
    assert chain.roam().stdout.split() == ["SigIgn:", "0" * 16]


# --- Two calls at a time. ---

@pytest.fixture
def shared(tmp_path: Path) -> Repository:
    return Repository(tmp_path, SHARED)


SIDE = ("build", "side", "rlib/made")


def test_launcher_proves_a_crate_once_for_two_calls(shared: Repository, tmp_path: Path) -> None:
    # The first call comes on only where the second one begins what it wants besides.
    shared.edit("low", "beside other")
    first = shared.begin(tmp_path / "said")
    until(lambda: "lib low" in shared.notes("commands"))
    second = shared.begin(tmp_path / "said2", *SIDE)
    assert (first.wait(300), second.wait(300)) == (3, 0)
    assert sorted(shared.commands()) == ["lib low", "lib other", "lib side", "run roam_cli"]
    said = (tmp_path / "said2").read_text()
    assert "roam: another call is proving and building too" in said and "low is proved, by another call; " in said
    shared.check_left()


def test_launcher_builds_a_program_once_for_two_calls(shared: Repository, tmp_path: Path) -> None:
    shared.edit("roam_cli", "beside other")
    calls = [shared.begin(tmp_path / "said")]
    until(lambda: "run roam_cli" in shared.notes("commands"))
    calls += [shared.begin(tmp_path / f"said{number}", *words) for number, words in ((2, ("run", "mesh")), (3, SIDE))]
    assert [it.wait(300) for it in calls] == [3, 3, 0]
    assert shared.commands().count("run roam_cli") == 1
    # On a loaded machine the second call begins when the first has ended, and finds the program.
    said = (tmp_path / "said2").read_text()
    assert not said or "roam_cli is proved, by another call; 0 left" in said


def test_launcher_goes_on_where_another_call_is_ended(shared: Repository, tmp_path: Path) -> None:
    shared.edit("low", "once")
    first = shared.begin(tmp_path / "said")
    until(lambda: shared.notes("slow"))
    second = shared.begin(tmp_path / "said2", *SIDE)
    until(lambda: "other is proved" in (tmp_path / "said2").read_text())
    first.send_signal(signal.SIGTERM)
    assert (first.wait(300), second.wait(300)) == (128 + signal.SIGTERM, 0)
    assert shared.commands().count("lib low") == 2 and "low is proved, in " in (tmp_path / "said2").read_text()


def test_launcher_removes_the_copies_of_a_call_that_was_killed(shared: Repository, tmp_path: Path) -> None:
    shared.edit("low", "once")
    first = shared.begin(tmp_path / "said")
    until(lambda: shared.notes("slow"))
    first.kill()
    first.wait()
    assert list(shared.top.glob("crates/roam_cli/out/tree/*"))
    assert shared.begin(tmp_path / "said").wait(300) == 3
    shared.check_left()
    os.kill(int(shared.notes("slow")[0]), signal.SIGKILL)


# --- Idle processors. ---

@pytest.mark.parametrize("seconds, jobs", [
    pytest.param("low 100 4 50", {"low 2", "other 1"}, id="launcher_gives_a_crate_the_processors_that_no_other_waits_for"),
    pytest.param("low 100", {"low 1", "other 1"}, id="launcher_gives_them_only_where_they_help"),
])
def test_jobs(shared: Repository, tmp_path: Path, seconds: str, jobs: set[str]) -> None:
    shared.edit("low", "source")
    (shared.top / "crates.txt").write_text("low:\nother: low\nroam_cli: other\n")
    shared.foretell(seconds + "\n")
    assert shared.begin(tmp_path / "said").wait(300) == 3
    assert jobs <= set(shared.notes("jobs"))


def test_launcher_shares_processors_among_those_that_wait(wide: Repository, tmp_path: Path) -> None:
    wide.foretell("left 100 4 50\nright 100 4 50\nchain1 1\n")
    assert wide.begin(tmp_path / "said").wait(300) == 3
    assert wide.notes("jobs")[0] in ("left 1", "right 1")


@pytest.mark.parametrize("memory, expected", [
    pytest.param(6.5e9, [True, True, False], id="launcher_begins_what_there_is_memory_for"),
    pytest.param(5e9, [True, False, False], id="launcher_begins_no_large_proof_beside_another_one_without_memory"),
    pytest.param(1e9, [True, False, False], id="launcher_begins_one_proof_whatever_memory_there_is"),
])
def test_memory(chain: Repository, monkeypatch: pytest.MonkeyPatch, memory: float, expected: list[bool]) -> None:
    (chain.top / "crates.txt").write_text("low:\nroam_c: low\nroam_cli: roam_c\n")
    for name in ("low", "roam_c", "roam_cli"):
        (chain.top / "crates" / name / "out").mkdir(parents=True)
    monkeypatch.setattr(launcher, "free_memory", lambda: int(memory))
    made = launcher.Build(launcher.Crates(chain.top, "roam_cli"), chain.top / "made")
    made.most = 4
    assert [made._begin(name, 0) for name in ("roam_c", "roam_cli", "low")] == expected
    for name in list(made.lane):
        made._let_go(name)


# --- What it tells of the time left. ---

def test_launcher_tells_each_minute_once() -> None:
    clock = launcher.Clock(600, 0)
    told = [clock.told(600 - now, now) for now in range(30, 600, 30)]
    assert [it for it in told if it] == [launcher.in_minutes(60 * minutes) + " left" for minutes in range(9, 0, -1)]


def test_launcher_says_that_it_takes_longer_than_foretold() -> None:
    clock = launcher.Clock(60, 0)
    told = [text for now in range(30, 1200, 30) if (text := clock.told(20, now))]
    assert all(text.endswith("minutes left, longer than foretold") for text in told[1:]), told
    assert told == sorted(told, key=lambda text: int(re.sub("[^0-9]", "", text) or 1)) and len(told) < 12
    assert all(told.count(text) <= 3 for text in told)


def plan_of(wide: Repository, seconds: str) -> launcher.Plan:
    wide.foretell(seconds)
    return launcher.Plan(launcher.Crates(wide.top, "roam_cli"))


def test_launcher_measures_the_machine(wide: Repository) -> None:
    plan = plan_of(wide, SECONDS.format(left=100))
    assert plan.seconds_left([], {}, 1) == pytest.approx(500)
    plan.has_taken("left", 1, 240)
    assert plan.seconds_left(["left"], {}, 1) == pytest.approx(400 * 300 / 160)
    # What takes longer than foretold counts before it has ended.
    assert plan.seconds_left(["left"], {"right": (1, 400.0)}, 1) == pytest.approx(300 * 700 / 260 + 100)


def test_launcher_takes_a_late_crate_for_four_fifths_done(wide: Repository) -> None:
    plan = plan_of(wide, "roam_cli 10\n")
    done = ["left", "right", "chain1", "chain2"]
    assert [plan.seconds_left(done, {"roam_cli": (1, so_far)}, 1) for so_far in (400.0, 800.0)] == [100, 200]


def test_launcher_counts_a_part_that_further_processors_do_not_shorten(wide: Repository) -> None:
    plan = plan_of(wide, "left 100 4 55\n")
    assert [round(plan.seconds("left", jobs)) for jobs in (1, 2, 4)] == [100, 70, 55]
    assert (plan.jobs("left", 8, 0), plan.jobs("left", 3, 1), plan.jobs("left", 2, 5), plan.jobs("right", 8, 0)) == (4, 2, 1, 1)


# --- bench/seconds.txt by a first run. ---

def test_seconds_are_made_of_what_a_first_run_has_said() -> None:
    lines = ["# head", "rt_ci 1000", "low 10", "wide 100 4 50", "high 30"]
    said = ("roam: low is proved, in 20 s; 3 left\nroam: wide is proved, in 90 s by 4 jobs; 2 left\n"
            "roam: fresh is proved, in 1 s; 1 left\nroam: other is proved, in 7 s; 0 left\n")
    assert seconds.anew(lines, said) == ["# head", "rt_ci 2000", "low 20", "wide 200 4 100", "high 60", "other 7"]


def test_seconds_are_made_of_what_the_gate_has_said() -> None:
    said = ("gate: checks/setup has ended with status 0, 0 min 9 s after the beginning; 1 processor minutes so far\n"
            "gate: rt ci has ended with status 0, 90 min 1 s after the beginning; 201 processor minutes so far\n")
    assert seconds.anew(["rt_ci 1000", "low 10"], said) == ["rt_ci 12000", "low 10"]


# --- A first look, without proof. ---

# A toolchain that compiles by what is in the place of its own folder, and keeps no program.
TRIES = '''#!/usr/bin/env python3
import os, subprocess, sys, tempfile, types
here = os.path.dirname(os.path.realpath(__file__))
rtlib = types.SimpleNamespace(KIT=os.path.dirname(here), RATTLE="rattle")
class Crate:
    def __init__(self, folder, top, known): pass
    def stamp(self): return ""
    def below(self): return []
rtlib.Crate = Crate
def main(words):
    with open(f"{here}/commands", "a") as notes: print(*words, os.path.basename(os.getcwd()), file=notes)
    if "broken" in open("src/text").read():
        print("error: broken")
        return 1
    with tempfile.TemporaryDirectory() as room:
        subprocess.run([f"{rtlib.KIT}/toolchain/bin/ld.lld", "-pie", "-o", "program", "input"], cwd=room, check=True)
        return subprocess.run([f"{room}/program", *words[2:]], stdout=subprocess.DEVNULL).returncode
if __name__ == "__main__":
    sys.exit(main(sys.argv[1:]))
'''
LINKER = r"""#!/bin/sh
printf '#!/bin/sh\npwd; printf "<%%s>" "$@"; [ "$2" = /dev/null/grid ] && exit 5; exit 3\n' >"$3"
chmod +x "$3"
"""
NOT_PROVED = "roam: this program is not proved; without --try it is\n"
MADE = ["try -- info /dev/null/grid roam_cli"]


@pytest.fixture
def tries(tmp_path: Path) -> Repository:
    """A repository with that toolchain, in a folder whose name wants quotes."""
    made = Repository(tmp_path / "it's here", CHAIN)
    (made.bin / "rt").write_text(TRIES)
    linker = made.bin.parent / "toolchain/bin/ld.lld"
    linker.parent.mkdir(parents=True)
    linker.write_text(LINKER)
    linker.chmod(0o755)
    return made


def look(tries: Repository, status: int, commands: list[str], lines: int) -> str:
    ended = tries.roam("--try", *WORDS)
    assert (ended.returncode, tries.commands(), len(ended.stderr.splitlines())) == (status, commands, lines), ended.stderr
    if status == 3:
        assert ended.stdout == f"{tries.caller}\n<mesh><a b><><*>" and ended.stderr.endswith(NOT_PROVED)
    tries.check_left()
    return ended.stderr


def test_roam_has_a_program_without_proof_for_a_first_look(tries: Repository) -> None:
    look(tries, 3, MADE, 2)


def test_roam_keeps_the_program_without_proof(tries: Repository) -> None:
    look(tries, 3, MADE, 2)
    look(tries, 3, [], 1)
    tries.edit("low", "other")
    look(tries, 3, MADE, 2)


def test_roam_takes_the_proved_program_for_a_first_look(chain: Repository) -> None:
    launch(chain, 3, ALL, 4)
    ended = chain.roam("--try", *WORDS)
    assert (ended.returncode, ended.stdout, ended.stderr) == (3, f"{chain.caller}\n<mesh><a b><><*>", "")


def test_roam_says_what_it_could_not_compile(tries: Repository) -> None:
    tries.edit("roam_cli", "broken")
    said = look(tries, 125, MADE, 3)
    log = tries.top / "crates/roam_cli/out/not_proved.log"
    assert said.endswith("error: broken\nroam: the program could not be made without proof; all that the toolchain said is "
                         f"in {log}\n")


def test_roam_says_that_another_toolchain_keeps_no_program(chain: Repository) -> None:
    ended = chain.roam("--try", "mesh")
    assert ended.returncode == 125 and "this toolchain is not one that keeps a program" in ended.stderr


def test_roam_says_that_a_first_look_wants_the_toolchain(tries: Repository) -> None:
    ended = tries.roam("--try", "mesh", path="/usr/bin:/bin")
    assert (ended.returncode, ended.stderr) == (127, "roam: the toolchain's command 'rt' is not on PATH\n")


# --- The program `calfrewin`: what can be said before anything is built. ---

def answer_of(calfrewin: Path, words: list[str]) -> tuple[subprocess.CompletedProcess[str], float]:
    """One call without the toolchain on PATH, and the seconds that it takes of a processor."""
    before = resource.getrusage(resource.RUSAGE_CHILDREN)
    ended = subprocess.run([calfrewin, *words], env={**os.environ, "PATH": "/usr/bin:/bin"}, cwd=calfrewin.parent, timeout=300,
                           capture_output=True, text=True, check=False)
    after = resource.getrusage(resource.RUSAGE_CHILDREN)
    return ended, after.ru_utime + after.ru_stime - before.ru_utime - before.ru_stime


GRID = "examples/jacksboro/grid.pgm"


@pytest.mark.parametrize("words, status, said", [
    pytest.param(["--help"], 0, "Usage: calfrewin ", id="calfrewin_helps_before_it_builds"),
    pytest.param(["--version"], 0, "calfrewin, version ", id="calfrewin_tells_its_version_before_it_builds"),
    pytest.param(["--eror", "2"], 2, "No such option: --eror", id="calfrewin_refuses_an_option_before_it_builds"),
    pytest.param(["none.tif", "my.glb", "--error", "2"], 1, "none.tif", id="calfrewin_refuses_a_file_before_it_builds"),
    pytest.param([GRID, "my.glb", "--error", "20"], 1, "give --spacing", id="calfrewin_asks_for_a_spacing_before_it_builds"),
    pytest.param([GRID, "my.glb", "--error", "20", "--spacing", "90"], 127, "'rt' is not on PATH",
                 id="calfrewin_builds_where_all_is_right"),
])
def test_words(tmp_path: Path, words: list[str], status: int, said: str) -> None:
    for it in ("calfrewin", "crates.txt", GRID):
        (tmp_path / it).parent.mkdir(parents=True, exist_ok=True)
        shutil.copy(TOP / it, tmp_path / it)
    for it in ("tools", "python/src"):
        shutil.copytree(TOP / it, tmp_path / it, ignore=shutil.ignore_patterns("*.so", "__pycache__"))
    ended, seconds = answer_of(tmp_path / "calfrewin", words)
    assert ended.returncode == status and said in ended.stdout + ended.stderr, ended.stderr
    assert "Traceback" not in ended.stderr and seconds < 2
    assert not list(tmp_path.glob("crates/*/out/*")) and not (tmp_path / "my.glb").exists()
    assert [it.name for it in tmp_path.glob("lib/out/*")] in ([], ["python"])


# --- A PATH with what the launcher needs and no toolchain. ---

@pytest.mark.parametrize("tools, said", [
    pytest.param(["python3"], "the toolchain's command 'rt'", id="launcher_says_that_the_toolchain_is_missing"),
    pytest.param([], "'python3'", id="launcher_says_that_python_is_missing"),
])
def test_missing(chain: Repository, tmp_path: Path, tools: list[str], said: str) -> None:
    (tmp_path / "plain").mkdir()
    for it in ("readlink", "cat", "find", *tools):
        (tmp_path / "plain" / it).symlink_to(sys.executable if it == "python3" else str(shutil.which(it)))
    ended = chain.roam("mesh", path=str(tmp_path / "plain"))
    wanted = f"roam: {said} is not on PATH, and the program has to be built with it\n"
    assert (ended.returncode, ended.stderr) == (127, wanted)


# --- `rt` with the checksum of each crate taken once. ---

DRIVER = '''#!/usr/bin/env python3
"""A driver that asks each crate's checksum twice, and says how often one was taken."""
import os, sys, types
class Crate:
    taken = 0
    def __init__(self, folder, top, known): self.folder = folder
    def stamp(self): Crate.taken += 1; return f"stamp of {os.path.basename(self.folder)}"
    def below(self): return []
rtlib = types.SimpleNamespace(Crate=Crate)
def main(words):
    told = [Crate(os.getcwd(), "", {}).stamp() for _ in range(2)]
    print(words, told, Crate.taken)
    return 7
if __name__ == "__main__":
    sys.exit(main(sys.argv[1:]))
'''


@pytest.mark.parametrize("driver, taken", [
    pytest.param(DRIVER, 1, id="launcher_takes_a_checksum_once"),
    pytest.param(DRIVER.replace("rtlib =", "another ="), 2, id="launcher_runs_the_plain_driver_of_another_toolchain"),
])
def test_rt(chain: Repository, driver: str, taken: int) -> None:
    (chain.bin / "rt").write_text(driver)
    ended = subprocess.run([sys.executable, str(chain.top / "tools/launcher.py"), "rt", "lib", "a b"], cwd=chain.caller,
                           env=chain.environment(None, None), capture_output=True, text=True, check=False)
    told = f"['lib', 'a b'] ['stamp of caller', 'stamp of caller'] {taken}\n"
    assert (ended.returncode, ended.stdout) == (7, told), ended.stderr


KEPT = '''
    def call(self, *words): return subprocess.run(words, cwd=self.folder).returncode
rtlib = types.SimpleNamespace(Crate=Crate)
def main(words):
    it = Crate(os.getcwd(), "", {})
    it.name = "caller"
    build = 'cd code && "$4/bin/clang" -c module.bc && cat "$4/lib/here"'
    return it.call("sh", "-c", build, *words, "--toolchain", os.environ["TOOLS"])
'''


@pytest.mark.parametrize("words, kept", [
    pytest.param(["build", "--crate-type", "staticlib"], ["caller.bc"], id="launcher_keeps_the_code_of_a_static_library"),
    pytest.param(["build", "--crate-type", "library"], [], id="launcher_keeps_no_code_of_another_library"),
])
def test_code(chain: Repository, words: list[str], kept: list[str]) -> None:
    tools = chain.bin / "the tools"
    for name, text in (("bin/clang", "#!/bin/sh\necho compiled $*\n"), ("lib/here", "a file\n")):
        (tools / name).parent.mkdir(parents=True)
        (tools / name).write_text(text)
        (tools / name).chmod(0o755)
    for name in ("code", "out"):
        (chain.caller / name).mkdir()
    (chain.caller / "code/module.bc").write_text("code")
    head, _, tail = DRIVER.partition("rtlib =")
    head = head.replace("import os,", "import os, subprocess,")
    (chain.bin / "rt").write_text(head + KEPT + tail[tail.index("if __name__"):])
    ended = subprocess.run([sys.executable, str(chain.top / "tools/launcher.py"), "rt", *words], cwd=chain.caller,
                           env={**chain.environment(None, None), "TOOLS": str(tools)},
                           capture_output=True, text=True, check=False)
    assert (ended.returncode, ended.stdout) == (0, "compiled -c module.bc\na file\n"), ended.stderr
    assert [(it.name, it.read_text()) for it in (chain.caller / "out").iterdir()] == [(it, "code") for it in kept]


def test_launcher_notes_the_libraries_of_a_passed_gate(chain: Repository) -> None:
    (chain.bin / "rt").write_text(DRIVER)
    for name in ("low", "middle"):
        (chain.top / f"crates/{name}/out/rlib/{name}.rlib").mkdir(parents=True)
    (chain.top / "crates/middle/out/rlib/stamp").write_text("an older one")
    subprocess.run([sys.executable, str(chain.top / "tools/launcher.py"), "take-libraries"],
                   env=chain.environment(None, None), check=True)
    found = {it.parts[-4]: it.read_text() for it in chain.top.glob("crates/*/out/rlib/stamp")}
    assert found == {"low": "stamp of low", "middle": "an older one"}

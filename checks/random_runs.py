"""Strategies of hypothesis for small random runs, which are compared with greedy.py: grids, scripts, words, and damage to
certificates and meshes.

The side is 3 to 33, the spacing 1 to 1024. Cameras are inside, above and far outside, planes cut the terrain or leave it on
one side; now and then a line is refused, and the script ends there, or the words are."""
from __future__ import annotations

import dataclasses
import os
import zlib
from collections.abc import Callable, Sequence
from typing import Any, TypeVar

import hypothesis
from hypothesis import HealthCheck, strategies as st

T = TypeVar("T")
MOST_TRIANGLES = 1_048_576


def random_runs(count: int = 100) -> Callable[[T], T]:
    """So many runs of a test, or as many as RANDOM_RUNS says. They are others with another RANDOM_SEED."""
    settings = hypothesis.settings(max_examples=int(os.environ.get("RANDOM_RUNS", count)), deadline=None, database=None,
                                   suppress_health_check=list(HealthCheck))

    def seeded(test: Any) -> Any:
        number = zlib.crc32(f"{test.__name__} {os.environ.get('RANDOM_SEED', '1')}".encode())
        return hypothesis.seed(number)(settings(test))

    return seeded


class Roll:
    """What is drawn, by the names that Python's `random` has for it."""

    def __init__(self, draw: Any) -> None:
        self.draw = draw

    def randint(self, low: int, high: int) -> int:
        return int(self.draw(st.integers(low, high)))

    def randrange(self, count: int) -> int:
        return self.randint(0, count - 1)

    def choice(self, options: Sequence[T]) -> T:
        return options[self.randrange(len(options))]

    def happens(self, one_in: int) -> bool:
        """Once in so many times; where a case shrinks it does not."""
        return self.randint(1, one_in) == one_in


@dataclasses.dataclass
class Run:
    """The files of a run by name, and its words."""
    files: dict[str, bytes]
    words: list[str]


class Ground:
    """A grid and its measures."""

    def __init__(self, roll: Roll) -> None:
        self.roll = roll
        self.m = 2 ** roll.randint(1, 5)
        self.side = self.m + 1
        self.maxval = roll.choice([300, 1000, 65535])
        low, high = roll.choice([(1, 1), (2, 100), (101, 1024), (1024, 1024)])
        self.spacing = roll.randint(low, high)
        self.size = self.m * self.spacing
        self.heights = roll.choice([self.bumps, self.hill, self.rough])()

    def rough(self) -> list[int]:
        data = self.roll.draw(st.binary(min_size=2 * self.side ** 2, max_size=2 * self.side ** 2))
        return [int.from_bytes(data[at:at + 2], "big") % (self.maxval + 1) for at in range(0, len(data), 2)]

    def bumps(self) -> list[int]:
        heights = [0] * self.side ** 2
        places = st.tuples(st.integers(0, self.side ** 2 - 1), st.integers(0, self.maxval))
        for place, height in self.roll.draw(st.lists(places, max_size=min(100, self.side ** 2 // 4))):
            heights[place] = height
        return heights

    def hill(self) -> list[int]:
        steep, x, y = self.roll.choice([1, 7, 100]), self.roll.randint(0, self.m), self.roll.randint(0, self.m)
        return [max(0, self.maxval - steep * ((column - x) ** 2 + (row - y) ** 2))
                for row in range(self.side) for column in range(self.side)]

    def grid(self) -> bytes:
        header = b"P5\n%d %d\n%d\n" % (self.side, self.side, self.maxval)
        return header + b"".join(height.to_bytes(2, "big") for height in self.heights)

    def budget(self) -> int:
        return self.roll.randint(2, self.roll.choice([90, 2 * self.m ** 2])) if not self.roll.happens(3) else MOST_TRIANGLES

    def anywhere(self, high: int) -> int:
        """A coordinate inside, near by, or anywhere in the range of cameras."""
        return self.roll.randint(*self.roll.choice([(0, high), (0, high), (-high, 2 * high), (-2 ** 30, 2 ** 30)]))

    def camera(self) -> list[int]:
        return [self.anywhere(self.size), self.anywhere(self.size), self.anywhere(self.maxval)]

    def plane(self) -> list[int]:
        """Mostly one that cuts the terrain: through a point of it."""
        if self.roll.happens(5):
            return [self.roll.randint(-2 ** 20, 2 ** 20) for _ in range(3)] + [self.roll.randint(-2 ** 50, 2 ** 50)]
        steepest = self.roll.choice([1, 3, 1000])
        normal = [self.roll.randint(-steepest, steepest) for _ in range(3)]
        point = [self.roll.randint(0, high) for high in (self.size, self.size, self.maxval)]
        return normal + [-sum(a * b for a, b in zip(normal, point))]

    def line(self, greatest: int) -> str:
        roll, m = self.roll, self.m
        kind = roll.choice(["frame"] * 5 + ["camera"] * 3 + ["set"] * 2 + ["raise"] * 2 + ["plane"] * 2
                           + ["noplanes", "budget", "", "# a comment"])
        numbers: list[int] = []
        if kind == "camera":
            numbers = self.camera()
        elif kind == "set":
            numbers = [roll.randint(0, m), roll.randint(0, m), roll.randint(0, self.maxval)]
        elif kind == "raise":
            x, y, most = roll.randint(0, m), roll.randint(0, m), roll.choice([10, 65535])
            numbers = [x, y, roll.randint(x, m), roll.randint(y, m), roll.randint(-most, most)]
        elif kind == "plane":
            numbers = self.plane()
        elif kind == "budget":
            numbers = [roll.randint(2, roll.choice([greatest, min(greatest, 90)]))]
        blank = roll.choice([" ", " ", "\t", "  "])
        return blank.join([kind, *map(str, numbers)]) + roll.choice(["", "", " ", "\r"])

    def script(self, greatest: int) -> bytes:
        lines = [self.line(greatest) for _ in range(self.roll.randint(0, 25))] + ["frame"]
        if self.roll.happens(5):
            wrong = ["fly", f"set {self.side} 0 0", "camera 1 2", f"budget {greatest + 1}", "plane 1 2 3 x",
                     "raise 1 1 0 1 1", "#" * 201, "\n".join(["plane 1 1 1 0"] * 7)]
            lines.insert(self.roll.randrange(len(lines)), self.roll.choice(wrong))
        return ("\n".join(lines) + self.roll.choice(["\n", ""])).encode()

    def error(self) -> str:
        """An error in units of height, with no, one, two or three places."""
        whole, places = self.roll.randint(0, self.roll.choice([0, 9, self.maxval])), self.roll.randint(0, 3)
        return f"{whole}.{self.roll.randint(0, 10 ** places - 1):0{places}}" if places else f"{whole}"

    def tolerance(self) -> int:
        kind = self.roll.choice(["none", "any", "of the grid"])
        if kind == "any":
            return self.roll.randint(0, 10 ** self.roll.randint(1, 12) - 1)
        return 65536 * self.roll.randint(0, 2 * self.maxval) // (self.spacing + 1) if kind == "of the grid" else 0

    def wrong_words(self, words: list[str]) -> list[str]:
        """The words; now and then one of them is wrong, or one too few."""
        if self.roll.happens(20):
            place = len(words) - self.roll.randint(1, 2)
            words[place] = self.roll.choice(["-1", f"{words[place]}x", "1025", "1", str(10 ** 12), "0" * 20])
        return words[:-1] if self.roll.happens(50) else words


@st.composite
def scripts(draw: Any, command: str) -> Run:
    """A run of mesh, least, strip or measure over a script of all kinds of line."""
    ground = Ground(Roll(draw))
    budget = ground.budget()
    bound = ground.tolerance() if command == "least" else budget
    words = ["g", "s", *(["out"] if command != "measure" else []), str(bound), str(ground.spacing)]
    script = ground.script(MOST_TRIANGLES if command == "least" else budget)
    return Run({"g": ground.grid(), "s": script}, [command, *ground.wrong_words(words)])


@st.composite
def fits(draw: Any, are_right: bool = False) -> Run:
    """A run of `fit`, for an error or a budget; now and then its words are wrong."""
    ground = Ground(Roll(draw))
    roll = ground.roll
    goal = roll.choice([("error", ground.error()), ("budget", str(ground.budget()))])
    if not are_right and roll.happens(10):
        goal = roll.choice([("Error", goal[1]), ("error", "5."), ("error", ".5"), ("error", "1.2345"), ("error", "65536"),
                            ("budget", "1.0"), (goal[0], "-1")])
    return Run({"g": ground.grid()}, ["fit", "g", "out", *goal, str(ground.spacing)])


def point_lines(ground: Ground) -> list[str]:
    """Lines of points: none, some or all of the grid, blank ones and comments among them; now and then one is refused."""
    roll, side = ground.roll, ground.side
    every = [(x, y) for y in range(side) for x in range(side)]
    some = roll.draw(st.lists(st.sampled_from(every), max_size=roll.choice([0, 1, side, len(every)]), unique=True))
    lines = [f"{roll.choice(['', ' '])}{x}{roll.choice([' ', chr(9)])}{y}{roll.choice(['', ' ', chr(13)])}" for x, y in some]
    for _ in range(min(roll.randint(0, 3), len(every) - len(lines))):
        lines.insert(roll.randint(0, len(lines)), roll.choice(["", " ", "# a comment", "0 0", f"00 {ground.m}"]))
    if roll.happens(5):
        lines.insert(roll.randint(0, len(lines)),
                     roll.choice(["1", "1 2 3", "1 x", "x 1", "-1 0", f"0 {side}", f"{side} y", "1.0 2", "#" * 201, "1,2",
                                  "\n" * len(every)]))
    return lines


@st.composite
def keeps(draw: Any) -> Run:
    """A run of `fit` that keeps points; now and then a line of them is refused, or the words are wrong."""
    ground = Ground(Roll(draw))
    roll = ground.roll
    words = ["fit", "g", "out", "error", ground.error(), str(ground.spacing), "keep", "p"]
    if roll.happens(10):
        place, word = roll.choice([(3, "budget"), (6, "Keep"), (4, "5."), (5, "0"), (2, "")])
        words[place] = word
    points = "\n".join(point_lines(ground)) + roll.choice(["", "\n"])
    return Run({"g": ground.grid(), "p": points.encode()}, words[:-1] if roll.happens(20) else words)


@st.composite
def frames(draw: Any) -> Run:
    """The words of `certify make`, and a script that makes the same frame."""
    ground = Ground(Roll(draw))
    budget = ground.roll.choice([ground.budget(), *(ground.roll.randint(2, ground.m ** 2) for _ in range(3))])
    camera = ground.camera()
    script = "camera {} {} {}\nframe\n".format(*camera).encode()
    return Run({"g": ground.grid(), "s": script},
               ["certify", "make", "g", *map(str, camera), str(budget), str(ground.spacing)])


# --- Damage: something of a certificate or of its mesh is left out, repeated, exchanged or changed. ---


def damaged_anywhere(roll: Roll, lines: list[str], kind: str, place: int, other: int,
                     others: Callable[[int], list[int]]) -> bool:
    """Leaves out, repeats or exchanges a line of any text, or changes a number of it, also to one of the others; answers
    whether it did."""
    if kind == "drop":
        del lines[place]
    elif kind == "repeat":
        lines.insert(other, lines[place])
    elif kind == "exchange":
        lines[place], lines[other] = lines[other], lines[place]
    elif kind == "number":
        fields = lines[place].split()
        at = roll.randrange(len(fields) or 1)
        if at > 0 and fields[at].isdigit():
            number = int(fields[at])
            near = [number + 1, number - 1, number ^ 1, number // 2, 2 * number, *others(number)]
            fields[at] = roll.choice([*map(str, near), f"0{number}"])
        lines[place] = " ".join(fields)
    else:
        return False
    return True


def two_places(roll: Roll, lines: list[str], reasons: list[int]) -> tuple[int, int]:
    """Mostly of the reasons, if there are any."""
    first, second = (roll.choice(roll.choice([reasons, reasons, range(len(lines))]) or range(len(lines))) for _ in "ab")
    return first, second


def lengthened(roll: Roll, line: str) -> str:
    """Of 199 to 201 bytes, with another one at its end."""
    return line + " " * (roll.choice([199, 200, 201]) - len(line) - 1) + roll.choice([" ", "\r", "\t"])


def damage_line(roll: Roll, lines: list[str], budget: int) -> None:
    reasons = [i for i, entry in enumerate(lines) if entry.startswith(("want", "parent", "mate"))]
    place, other = two_places(roll, lines, reasons)
    kind = roll.choice(["drop", "drop", "repeat", "exchange", "number", "number", "word", "add", "end", "long", "few",
                        "few", "split", "split"])
    if damaged_anywhere(roll, lines, kind, place, other, lambda number: [roll.randint(0, 2 ** 25), -number]):
        return
    if kind == "word":
        word = roll.choice(["leaf", "want", "parent", "mate", "Want", "camera"])
        lines[place] = " ".join([word] + lines[place].split()[1:])
    elif kind == "add":
        lines.insert(roll.choice([place, len(lines)]), roll.choice(
            ["", "# comment", "leaf 2", "want 2", "mate 3", "parent 2", "want 9 9", "want x"]))
    elif kind == "few":
        del lines[reasons[0] + budget - roll.choice([1, 2, 2, 3]) if reasons else len(lines):]
    elif kind == "split":
        leaves = [i for i, entry in enumerate(lines) if entry.startswith("leaf ")] or [place]
        place = roll.choice(leaves)
        a = int("0" + "".join(letter for letter in lines[place] if letter.isdigit()))
        lines[place:place + 1] = [f"leaf {2 * a}", f"leaf {2 * a + 1}"]
    elif kind == "end":
        del lines[roll.randrange(len(lines) + 1):]
    else:
        lines[place] = lengthened(roll, lines[place])


def damage_fit_line(roll: Roll, lines: list[str], m: int) -> None:
    """The same of a certificate of a fitted mesh; and the point of a reason may be another."""
    reasons = [i for i, entry in enumerate(lines) if entry.startswith("off")]
    place, other = two_places(roll, lines, reasons)
    kind = roll.choice(["drop", "drop", "repeat", "exchange", "number", "number", "number", "word", "add", "end", "last",
                        "long", "tolerance", "mesh"])
    if damaged_anywhere(roll, lines, kind, place, other, lambda _: [roll.randint(0, m), roll.randint(0, 2 ** 25)]):
        return
    first = lines[0].split()
    if kind == "word":
        lines[place] = " ".join([roll.choice(["off", "mesh", "tolerance", "Off"])] + lines[place].split()[1:])
    elif kind == "add":
        lines.insert(roll.choice([place, len(lines)]), roll.choice(
            ["", "# comment", "mesh", "off 2 1 1", "off 3 1 1", "off 2 1", "tolerance 1", "mesh 1"]))
    elif kind == "end":
        del lines[roll.randrange(len(lines) + 1):]
    elif kind == "last":
        del lines[-1]
    elif kind == "tolerance" and len(first) == 2 and first[0] == "tolerance" and first[1].isdigit():
        lines[0] = f"tolerance {max(0, int(first[1]) + roll.choice([-1, 1]))}"
    elif kind == "mesh" and "mesh" in lines:
        lines.remove("mesh")
        lines.insert(roll.randint(min(1, len(lines)), len(lines)), "mesh")
    else:
        lines[place] = lengthened(roll, lines[place])


def damaged_mesh(roll: Roll, mesh: bytes) -> bytes:
    place = roll.randrange(len(mesh))
    kind = roll.choice(["none", "cut", "more", "byte"])
    if kind == "cut":
        return mesh[:place]
    if kind == "more":
        return mesh + roll.choice([b"\n", b"f 1 2 3\n", b"x"])
    return mesh[:place] + bytes([roll.choice([mesh[place] ^ 1, 10, 48])]) + mesh[place + 1:] if kind == "byte" else mesh


def damaged(roll: Roll, certificate: bytes, mesh: bytes, damage: Callable[[Roll, list[str]], None]) -> tuple[bytes, bytes]:
    """A certificate and its mesh, after a damage to one of them."""
    if roll.happens(5):
        return certificate, damaged_mesh(roll, mesh)
    lines = certificate.decode().splitlines()
    for _ in range(roll.choice([1, 1, 2])):
        if lines:
            damage(roll, lines)
    return (roll.choice(["\n", "\n", "\r\n"]).join(lines) + roll.choice(["", "\n"])).encode(), mesh

"""Certificates that a fitted mesh is a best one, for greedy.py: a sound one, and what each is rejected for."""
import re

from certifying import Rejected
from fitting import decimal, fit_budget, with_points
from frames import forced, leaves_of
from scripts import fields_of, lines_of
from strips import deviation, off, points_off

MOST_REASONS = 8_388_608


def tolerance_of(terrain, thousandths):
    """So many thousandths of a unit of height, in units of height, times m, rounded down."""
    return thousandths * terrain.m // 1000


def reasons(terrain, errors, split, bound):
    """Splits each leaf that is off by more than the bound, until none is: which leaf it is each time, and a point where it is."""
    found, left = [], leaves_of(split)
    while left:
        a = left.pop()
        if a in split or errors.of(a) <= bound:
            continue
        found.append((a, *next(point for point, distance in points_off(terrain, a) if distance > bound)))
        more = forced(terrain, split, a)
        split |= more
        left += [child for b in more for child in (2 * b, 2 * b + 1)]
    return found


def needs_of(terrain, split, kept):
    """Splits what the kept points need, one after the other: those that the points before them had not split."""
    found = []
    for point in kept:
        more = with_points(terrain, {point}) - split
        if more:
            found.append(point)
            split |= more
    return found


def made(terrain, errors, thousandths, budget, kept=()):
    """A certificate of the mesh of an error, with the points that it keeps, or of that of a budget, as text."""
    if budget is None:
        tolerance = tolerance_of(terrain, thousandths)
    else:
        tolerance = errors.worst(fit_budget(terrain, errors, budget))
    split = set()
    needs = needs_of(terrain, split, kept)
    needed = reasons(terrain, errors, split, tolerance)
    beyond = [] if budget is None else reasons(terrain, errors, split, max(tolerance - 1, 0))
    lines = [*("need %d %d" % point for point in needs), f"tolerance {tolerance}", *("off %d %d %d" % reason for reason in needed),
             "mesh", *("off %d %d %d" % reason for reason in beyond)]
    return "".join(line + "\n" for line in lines)


def read(text, terrain, kept=None):
    """The points that a certificate needs, where points are kept; its tolerance; and its reasons before the mesh and behind it as
    (address, column, row)."""
    needs, tolerance, parts, number = [], None, [[]], 0
    for number, line in enumerate(lines_of(text), 1):
        fields = fields_of(line)
        if len(line) > 200 or not fields or not all(re.fullmatch(rb"[0-9]{1,19}", field) for field in fields[1:]):
            raise Rejected(f"bad line {number}")
        word, numbers = fields[0], [int(field) for field in fields[1:]]
        if word == b"tolerance" and tolerance is None and len(numbers) == 1 and numbers[0] < 2 ** 32:
            tolerance = numbers[0]
        elif (word == b"need" and kept is not None and tolerance is None and len(numbers) == 2 and max(numbers) <= terrain.m
              and len(needs) < MOST_REASONS):
            needs.append(tuple(numbers))
        elif word == b"mesh" and tolerance is not None and not numbers and len(parts) == 1:
            parts.append([])
        elif word == b"off" and tolerance is not None and is_entry(numbers, terrain) and len(parts[-1]) < MOST_REASONS:
            parts[-1].append(tuple(numbers))
        else:
            raise Rejected(f"bad line {number}")
    if len(parts) == 1:
        raise Rejected(f"bad line {number + 1}")
    return needs, tolerance, *parts


def is_entry(numbers, terrain):
    """Whether they are a triangle that may be split, a column and a row."""
    return len(numbers) == 3 and numbers[0] in terrain.splittable and max(numbers[1:]) <= terrain.m


def replay(terrain, split, entries, bound):
    """Splits each reason's triangle with what that forces; the place of the first reason that is none, from 1, or 0."""
    for place, (a, *point) in enumerate(entries, 1):
        is_leaf = a not in split and (a < 4 or a // 2 in split)
        distance = off(terrain, a, tuple(point)) if is_leaf else None
        if distance is None or distance <= bound:
            return place
        split |= forced(terrain, split, a)
    return 0


def check(terrain, certificate, thousandths, budget, kept=None):
    """The leaves of a certificate's mesh; raises Rejected by the first test that fails."""
    needs, tolerance, needed, beyond = certificate
    if budget is None and tolerance != tolerance_of(terrain, thousandths):
        raise Rejected("other tolerance")
    for place, point in enumerate(needs, 1):
        if point not in kept or set(point) <= {0, terrain.m}:
            raise Rejected(f"bad reason {place}")
    split = set(with_points(terrain, set(needs)))
    place = replay(terrain, split, needed, tolerance)
    if place:
        raise Rejected(f"bad reason {len(needs) + place}")
    leaves = leaves_of(split)
    if deviation(terrain, leaves) > tolerance:
        raise Rejected("over tolerance")
    if budget is not None and len(leaves) > budget:
        raise Rejected("over budget")
    if kept is not None and beyond:
        raise Rejected(f"bad reason {len(needs) + len(needed) + 1}")
    place = replay(terrain, split, beyond, max(tolerance - 1, 0))
    if place:
        raise Rejected(f"bad reason {len(needed) + place}")
    if kept is not None and not with_points(terrain, set(kept)) <= split:
        raise Rejected("too few reasons")
    if budget is not None and tolerance > 0 and len(leaves_of(split)) <= budget:
        raise Rejected("too few reasons")
    return leaves


def certified_line(terrain, leaves):
    """The line of a mesh that is certified."""
    distance = deviation(terrain, leaves)
    return f"certified fit triangles {len(leaves)} deviation {distance} over {terrain.m} error {decimal(distance, terrain.m)}"

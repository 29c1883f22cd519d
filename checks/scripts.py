"""The lines of a script: what they do to a terrain, and why they are refused; and those of a file of points."""
import re


class Refused(Exception):
    """A line of a script is refused; the text is the line of the report."""


def fields_of(line):
    """The runs of bytes other than blank and TAB, without a CR at the end."""
    return [field for field in re.split(rb"[ \t]+", line[:-1] if line.endswith(b"\r") else line) if field]


def lines_of(text):
    """Lines end with LF; the bytes after the last one are a line too, if there are any."""
    pieces = text.split(b"\n")
    return pieces if pieces[-1] else pieces[:-1]


def is_signed(field):
    return re.fullmatch(rb"-?[0-9]{1,18}", field) is not None


def numbers(fields, ranges):
    """The numbers of the fields, each in its range; a range may begin at a number before: its place, in a tuple."""
    if len(fields) != len(ranges):
        raise Refused("wrong fields")
    found = []
    for i, (field, (low, high)) in enumerate(zip(fields, ranges), 1):
        if not is_signed(field):
            raise Refused(f"bad number in field {i}")
        low = found[low[0]] if isinstance(low, tuple) else low
        if not low <= int(field) <= high:
            raise Refused(f"out of range in field {i}")
        found.append(int(field))
    return found


def around(size):
    return -size, size


CAMERA = [around(2 ** 30)] * 3


def ranges_of(terrain, greatest):
    m = terrain.m
    return {
        b"frame": [],
        b"camera": CAMERA,
        b"set": [(0, m), (0, m), (0, terrain.maxval)],
        b"plane": [around(2 ** 20)] * 3 + [around(2 ** 50)],
        b"noplanes": [],
        b"budget": [(2, greatest)],
        b"raise": [(0, m), (0, m), ((0,), m), ((1,), m), around(65535)],
    }


def read_line(line, terrain, ranges, frames):
    """The command of a line and its numbers; None of a blank line."""
    if len(line) > 200:
        raise Refused("line too long")
    fields = fields_of(line)
    if not fields or fields[0].startswith(b"#"):
        return None, []
    if fields[0] not in ranges:
        raise Refused("unknown command")
    values = numbers(fields[1:], ranges[fields[0]])
    if fields[0] == b"plane" and len(terrain.planes) == 6:
        raise Refused("too many planes")
    if fields[0] == b"frame" and frames == 999_999:
        raise Refused("too many frames")
    return fields[0], values


def apply_line(terrain, command, values):
    if command == b"camera":
        terrain.camera = tuple(values)
    elif command == b"set":
        terrain.set_height((values[0], values[1]), values[2])
    elif command == b"plane":
        terrain.planes.append(values)
    elif command == b"noplanes":
        terrain.planes.clear()
    elif command == b"budget":
        terrain.budget = values[0]
    elif command == b"raise":
        x0, y0, x1, y1, rise = values
        for x in range(x0, x1 + 1):
            for y in range(y0, y1 + 1):
                terrain.set_height((x, y), min(max(terrain.heights[x, y] + rise, 0), terrain.maxval))


def frames_of(terrain, text):
    """Carries out a script, and yields the number of each frame while the terrain is in its state. The greatest budget is
    the one that the terrain has at the beginning."""
    ranges, frames = ranges_of(terrain, terrain.budget), 0
    for number, line in enumerate(lines_of(text), 1):
        try:
            if number > 10_000_000:
                raise Refused("too many lines")
            command, values = read_line(line, terrain, ranges, frames)
        except Refused as why:
            raise Refused(f"line {number} refused: {why}") from None
        if command == b"frame":
            frames += 1
            yield frames
        else:
            apply_line(terrain, command, values)


def point_of(line, m):
    """The point of a line of a file of points; None of a blank line."""
    if len(line) > 200:
        raise Refused("line too long")
    fields = fields_of(line)
    if not fields or fields[0].startswith(b"#"):
        return None
    return tuple(numbers(fields, [(0, m), (0, m)]))


def points_of(text, m):
    """The points of a file, of a grid of m steps a side."""
    found = []
    for number, line in enumerate(lines_of(text), 1):
        try:
            if number > (m + 1) ** 2:
                raise Refused("too many lines")
            found.append(point_of(line, m))
        except Refused as why:
            raise Refused(f"line {number} refused: {why}") from None
    return [point for point in found if point is not None]

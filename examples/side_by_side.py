"""Draws the meshes of a flight side by side to a PNG: each from the side, and below from above. Wants Python alone.

  python3 side_by_side.py OUT.png MESH.obj .. camera=X,Y,Z ..

MESH.obj    the meshes of frames that follow each other: lines v, f and g
camera      where the camera is in each of them, in world units: the red dot; its way so far is the red line

The colour is that of the height, shaded by a light in the north-west. From the second mesh on a triangle that the mesh before
has not is orange. What is in a group `outside` is pale. The views from the side look from the south-west, with heights
drawn 4 times as high."""
import math
import struct
import sys
import zlib

FINE = 2  # each pixel is the mean of so many times so many
WIDTH, SIDE_HEIGHT, GAP = 480, 250, 12  # of a column, of a view from the side, and between views, in pixels
EXAGGERATION = 4
WHITE, BLACK, RED, ORANGE = (255, 255, 255), (0, 0, 0), (220, 20, 30), (255, 140, 0)
PALETTE = [(74, 112, 60), (140, 150, 84), (176, 146, 100), (214, 200, 180), (250, 248, 244)]  # from low to high


def read_mesh(name):
    """Of each triangle the corners, and whether it is outside."""
    vertices, triangles, group = [], [], ""
    for line in open(name):
        word, *fields = line.split()
        if word == "v":
            vertices.append(tuple(float(field) for field in fields))
        elif word == "g":
            group = fields[0]
        elif word == "f":
            triangles.append((tuple(vertices[int(field) - 1] for field in fields), group == "outside"))
    return triangles


class Picture:
    """Rows of colours, each pixel FINE times FINE places."""

    def __init__(self, width, height):
        self.width, self.height = FINE * width, FINE * height
        self.rows = [bytearray(bytes(WHITE) * self.width) for _ in range(self.height)]

    def fill(self, corners, colour):
        """A convex polygon, row by row."""
        ys = [y for _, y in corners]
        edges = list(zip(corners, corners[1:] + corners[:1]))
        for row in range(max(0, math.ceil(min(ys) - 0.5)), min(self.height, math.ceil(max(ys) - 0.5))):
            y = row + 0.5
            xs = [x0 + (y - y0) / (y1 - y0) * (x1 - x0) for (x0, y0), (x1, y1) in edges if min(y0, y1) <= y < max(y0, y1)]
            if xs:
                left, right = max(0, math.ceil(min(xs) - 0.5)), min(self.width, math.ceil(max(xs) - 0.5))
                self.rows[row][3 * left:3 * max(left, right)] = bytes(colour) * max(0, right - left)

    def line(self, start, end, colour, thick):
        length = math.dist(start, end) or 1
        across = thick / 2 * (end[1] - start[1]) / length, thick / 2 * (start[0] - end[0]) / length
        self.fill([tuple(p + sign * a for p, a in zip(point, across)) for point, sign in ((start, 1), (end, 1), (end, -1), (start, -1))], colour)

    def dot(self, middle, radius, colour):
        self.fill([(middle[0] + radius * math.cos(k / 12 * math.pi), middle[1] + radius * math.sin(k / 12 * math.pi)) for k in range(24)], colour)

    def pixels(self):
        """Rows of pixels: the means of the places."""
        for top in range(0, self.height, FINE):
            sums = [sum(values) for values in zip(*self.rows[top:top + FINE])]
            means = bytearray(3 * self.width // FINE)
            for channel in range(3):
                parts = zip(*(sums[3 * k + channel::3 * FINE] for k in range(FINE)))
                means[channel::3] = bytes(sum(values) // FINE ** 2 for values in parts)
            yield means

    def write(self, name):
        def chunk(kind, data):
            return struct.pack(">I", len(data)) + kind + data + struct.pack(">I", zlib.crc32(kind + data))
        header = struct.pack(">IIBBBBB", self.width // FINE, self.height // FINE, 8, 2, 0, 0, 0)
        rows = b"".join(b"\0" + row for row in self.pixels())
        with open(name, "wb") as out:
            out.write(b"\x89PNG\r\n\x1a\n" + chunk(b"IHDR", header) + chunk(b"IDAT", zlib.compress(rows, 9)) + chunk(b"IEND", b""))


def mixed(colour, other, part):
    return tuple(round(a + (b - a) * part) for a, b in zip(colour, other))


def colour_of(corners, outside, is_new, low, high):
    """By height and light; `low` and `high` bound the heights."""
    at = max(0.0, min(1.0, (sum(z for _, _, z in corners) / 3 - low) / max(high - low, 1))) * (len(PALETTE) - 1)
    place = min(int(at), len(PALETTE) - 2)
    colour = mixed(PALETTE[place], PALETTE[place + 1], at - place)
    if is_new:
        colour = mixed(colour, ORANGE, 0.7)
    u, v = ([b - a for a, b in zip(corners[0], corner)] for corner in corners[1:])
    normal = [u[1] * v[2] - u[2] * v[1], u[2] * v[0] - u[0] * v[2], u[0] * v[1] - u[1] * v[0]]
    normal[:2] = [EXAGGERATION * part for part in normal[:2]]
    light = sum(a * b for a, b in zip(normal, (-0.6, 0.45, 0.65))) / (math.hypot(*normal) or 1)
    colour = mixed(BLACK, colour, 0.45 + 0.55 * max(0.0, light))
    return mixed(colour, WHITE, 0.7) if outside else colour


def from_above(size):
    """Where a point is on the page, and how near it is to the eye."""
    scale = FINE * WIDTH / size
    return lambda p: (p[0] * scale, FINE * WIDTH - p[1] * scale, p[2])


def from_the_side(size, middle):
    """A parallel projection from the south-west, 25 degrees above the ground."""
    scale, sine, cosine = FINE * WIDTH / size / math.sqrt(2), math.sin(math.radians(25)), math.cos(math.radians(25))

    def place(p):
        right, away, up = (p[0] - p[1]) / math.sqrt(2), (p[0] + p[1] - size) / math.sqrt(2), EXAGGERATION * (p[2] - middle)
        return FINE * WIDTH / 2 + scale * right, FINE * SIDE_HEIGHT / 2 - scale * (away * sine + up * cosine), -away * cosine + up * sine
    return place


def draw(picture, triangles, place, corner, thick, way):
    """Triangles with their colours, the farthest first, and the way of the camera, at a corner of the picture."""
    def on_page(p):
        x, y, _ = place(p)
        return x + corner[0], y + corner[1]
    for corners, colour in sorted(triangles, key=lambda it: sum(place(p)[2] for p in it[0])):
        page = [on_page(p) for p in corners]
        picture.fill(page, colour)
        for start, end in zip(page, page[1:] + page[:1]):
            picture.line(start, end, mixed(colour, BLACK, 0.45), thick)
    for start, end in zip(way, way[1:]):
        picture.line(on_page(start), on_page(end), RED, 2 * FINE)
    for radius, colour in ((7 * FINE, WHITE), (5 * FINE, RED)):
        picture.dot(on_page(way[-1]), radius, colour)


def main(words):
    names = [word for word in words if not word.startswith("camera=")]
    cameras = [tuple(float(part) for part in word[7:].split(",")) for word in words if word.startswith("camera=")]
    if len(names) < 2 or len(cameras) != len(names) - 1:
        sys.exit(__doc__)
    meshes = [read_mesh(name) for name in names[1:]]
    points = [p for mesh in meshes for corners, _ in mesh for p in corners]
    size, low, high = max(p[0] for p in points), min(p[2] for p in points), max(p[2] for p in points)
    picture = Picture(len(meshes) * (WIDTH + GAP) - GAP, SIDE_HEIGHT + GAP + WIDTH)
    before = None
    for k, mesh in enumerate(meshes):
        found = {corners for corners, _ in mesh}
        triangles = [(corners, colour_of(corners, outside, before is not None and corners not in before, low, high)) for corners, outside in mesh]
        before, left = found, FINE * k * (WIDTH + GAP)
        draw(picture, triangles, from_the_side(size, (low + high) / 2), (left, 0), 0.5 * FINE, cameras[:k + 1])
        draw(picture, triangles, from_above(size), (left, FINE * (SIDE_HEIGHT + GAP)), 0.5 * FINE, cameras[:k + 1])
    picture.write(names[0])


main(sys.argv[1:])

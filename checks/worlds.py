"""A terrain of which some pages are loaded, from the definitions and with nothing of the library: which pages may come and
go, which triangles are known and which are open, thickness and box over what is known, and priorities over what is loaded,
by looking at every point and every triangle. A frame of it is frames.py's.

A page is told by its square: resolution, column and row. It has heights at points that are 2^resolution grid steps apart."""
import math

from terrain import Terrain


def raised(heights, area, dz):
    """Of heights by point those in an area (x0, y0, x1, y1), raised within their range."""
    x0, y0, x1, y1 = area
    return {(x, y): min(max(height + dz, 0), 65535) for (x, y), height in heights.items() if x0 <= x <= x1 and y0 <= y <= y1}


class World(Terrain):
    """Heights are those of the points of loaded pages, and no others. The coarsest page covers the whole. Wedges are over what
    is known: a triangle that is not known counts by its corners."""

    def __init__(self, coarsest, large, spacing, budget):
        super().__init__((large, 65535, {}), spacing, budget)
        self.steps = math.isqrt(len(coarsest)) - 1  # grid steps of a page's side
        self.top = large - (self.steps.bit_length() - 1)  # the coarsest resolution
        # By point: the triangles whose centre it is, which are a triangle and its mate.
        self.around = {}
        for a in self.splittable:
            self.around.setdefault(self.base_midpoint(a), []).append(a)
        self.pages = {(self.top, 0, 0): list(coarsest)}
        self.look_again()

    def points_of(self, square):
        """The points of a page, in the order of its heights: rows from the far side, each from left to right."""
        q, column, row = square
        at = range(self.steps + 1)
        return [((column * self.steps + dx) << q, (row * self.steps + dy) << q) for dy in reversed(at) for dx in at]

    def look_again(self):
        """After each change of pages: heights, and what rests on them."""
        self.heights = {point: height for square, heights in self.pages.items()
                        for point, height in zip(self.points_of(square), heights)}
        self.known = {a for square in self.pages for a in self.known_by(square)}
        self.open = self.opened()
        self.wedges = None

    # --- Which pages may come and go. ---

    def is_square(self, square):
        q, column, row = square
        return q <= self.top and 0 <= column < 2 ** (self.top - q) and 0 <= row < 2 ** (self.top - q)

    def beside(self, square):
        """The squares that have a side in common with it."""
        q, column, row = square
        around = [(q, column - 1, row), (q, column + 1, row), (q, column, row - 1), (q, column, row + 1)]
        return [it for it in around if self.is_square(it)]

    def has_room(self, square):
        """Whether a page has a place there: the pages that it needs are loaded, and it is not."""
        q, column, row = square
        above = q + 1, column // 2, row // 2
        return q < self.top and self.is_square(square) and square not in self.pages and all(
            it in self.pages for it in [above, *self.beside(above)])

    def may_load(self, square, heights):
        return len(heights) == (self.steps + 1) ** 2 and self.has_room(square) and all(
            self.heights.get(point, height) == height for point, height in zip(self.points_of(square), heights))

    def may_unload(self, square):
        near = [square, *self.beside(square)]
        return square[0] < self.top and not any(
            q + 1 == square[0] and (q + 1, column // 2, row // 2) in near for q, column, row in self.pages)

    def load(self, square, heights):
        self.pages[square] = list(heights)
        self.look_again()

    def unload(self, square):
        heights = self.pages.pop(square)
        self.look_again()
        return heights

    def change(self, heights):
        """Puts heights to points, in each page that has them."""
        for square, own in self.pages.items():
            own[:] = [heights.get(point, height) for point, height in zip(self.points_of(square), own)]
        self.look_again()

    # --- What a mesh may split, and what a triangle is worth. ---

    def known_by(self, square):
        """The triangles in a page's square whose centre is a point of it."""
        points = self.points_of(square)
        (x0, y1), (x1, y0) = points[0], points[-1]
        return {a for point in points for a in self.around.get(point, ())
                if all(x0 <= x <= x1 and y0 <= y <= y1 for x, y in self.corners[a])}

    def opened(self):
        """The greatest closed set of known triangles: what lacks its parent or its mate goes, until nothing does."""
        left = set(self.known)
        while gone := {a for a in left if a >= 4 and a // 2 not in left or self.mate[a] is not None and self.mate[a] not in left}:
            left -= gone
        return left

    def all_wedges(self):
        """By address, of known triangles and their children."""
        wedges = {}
        for a in sorted({2, 3} | {b for a in self.known for b in (2 * a, 2 * a + 1)}, reverse=True):
            wedges[a] = self.joined_wedge(a, wedges[2 * a], wedges[2 * a + 1]) if a in self.known else self.corner_wedge(a)
        return wedges

    def priorities(self):
        """By address; 0 but for what is open."""
        found = [0] * len(self.corners)
        for a in self.open:
            found[a] = self.priority(a)
        return found

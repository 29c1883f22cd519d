"""Draws pictures of the pages into docs/images (Matplotlib; no display is needed), from what is in this repository:

  python3 examples/pictures.py [NAME ..]      all of these, if no name is given

terrain       the mesh of examples/fit, shaded
fit           the same beside the mesh of examples/jacksboro, which is for a camera
architecture  the storeys of crates.txt, and which stands on which
frame_time    where the time of a frame goes, by the table of bench/results.md
tiles         tiles at two levels of detail that meet, by the plain program of checks/ (half a minute)
"""
from __future__ import annotations

import re
import sys
import textwrap
from pathlib import Path

import numpy as np

import picture
from picture import plt

TOP = Path(__file__).resolve().parent.parent
IMAGES = TOP / 'docs/images'
GRID = TOP / 'examples/jacksboro/grid.pgm'
EXAGGERATION = 4
BLUE, ORANGE, GREY = '#4c78a8', '#f58518', '#8a8a8a'


def shaded(axes, mesh, view, heights, width):
    """A mesh from the side, the far triangles first."""
    vertices, faces, _ = picture.read_mesh(mesh)
    places, depth = view(vertices)
    colour = picture.colours(vertices, faces, heights.min(), heights.max(), EXAGGERATION)
    picture.draw(axes, places, faces, colour, np.argsort(-depth[faces].mean(1)), width, '')


def terrain() -> None:
    heights = picture.read_grid(GRID)
    size = 90.0 * (len(heights) - 1)
    view = picture.Oblique(size, (heights.min() + heights.max()) / 2, EXAGGERATION, 205, 33)
    figure = plt.figure(figsize=(10.5, 5.2), dpi=90)
    shaded(figure.add_axes((0, 0, 1, 1)), TOP / 'examples/fit/expected/out000001.obj', view, heights, 0.3)
    figure.savefig(IMAGES / 'terrain.png')


def fit() -> None:
    heights = picture.read_grid(GRID)
    size = 90.0 * (len(heights) - 1)
    view = picture.Oblique(size, (heights.min() + heights.max()) / 2, EXAGGERATION, 225, 25)
    figure, parts = plt.subplots(
        2, 2, figsize=(10, 7.6), dpi=90, gridspec_kw={'height_ratios': [1, 1.9]}, layout='constrained'
    )
    for (side, above), name, title in (
        (parts[:, 0], 'fit', 'roam fit: by the error alone'),
        (parts[:, 1], 'jacksboro', 'roam mesh: for a camera in the corner'),
    ):
        mesh = TOP / 'examples' / name / 'expected/out000001.obj'
        vertices, faces, _ = picture.read_mesh(mesh)
        shaded(side, mesh, view, heights, 0.25)
        side.set_title(f'{title}, {len(faces):,} triangles', fontsize=11)
        colour = picture.colours(vertices, faces, heights.min(), heights.max(), EXAGGERATION)
        picture.draw(above, vertices[:, :2], faces, colour, np.arange(len(faces)), 0.4, '')
    camera = np.zeros(3)
    picture.mark(parts[0, 1], view(camera[None])[0][0], 'camera', (12, -4))
    picture.mark(parts[1, 1], camera[:2], 'camera', (10, -14))
    figure.supxlabel(
        f'a side is {size:,.0f} m, heights are {heights.min():,.0f} to {heights.max():,.0f} m, '
        f'from the side drawn {EXAGGERATION} times as great',
        fontsize=12,
    )
    figure.savefig(IMAGES / 'fit.png')


def storeys() -> tuple[dict[str, list[str]], dict[str, set[str]]]:
    """The crates under each heading of crates.txt, and on which other headings each stands."""
    crates: dict[str, list[str]] = {}
    below: dict[str, list[str]] = {}
    heading = ''
    for line in (TOP / 'crates.txt').read_text(encoding='utf-8').splitlines():
        if line.startswith('#'):
            heading = line[1:].strip().rstrip('.')
        elif line.strip():
            name, _, libraries = line.partition(':')
            crates.setdefault(heading, []).append(name.split()[0])
            below[name.split()[0]] = libraries.split()
    home = {crate: it for it, listed in crates.items() for crate in listed}
    stands = {
        it: {home[library] for crate in listed for library in below[crate] if library in home} - {it}
        for it, listed in crates.items()
    }
    return crates, stands


def reached(stands: dict[str, set[str]], heading: str) -> set[str]:
    return set().union(*({it} | reached(stands, it) for it in stands[heading]))


def architecture() -> None:
    crates, stands = storeys()
    for heading in [it for it in crates if it.startswith('Tests')]:
        del crates[heading], stands[heading]
    direct = {
        it: {low for low in lows if not any(low in reached(stands, other) for other in lows)}
        for it, lows in stands.items()
    }
    level: dict[str, int] = {}
    for heading in crates:  # each heading stands behind those on which it stands
        level[heading] = 1 + max((level[it] for it in stands[heading]), default=-1)
    users = {
        'The program roam': 'The run of the program',
        'Programs in C, C++, Rust, C#, Python;\nthe package calfrewin': 'The library for other languages',
    }
    rows: dict[int, list[str]] = {}
    for heading, at in level.items():
        rows.setdefault(at, []).append(heading)
    top = max(rows) + 1
    rows[top] = [it for user_of in rows[top - 1] for it, low in users.items() if low == user_of]
    figure = plt.figure(figsize=(11, 1.02 * (top + 1)), dpi=90)
    axes = figure.add_axes((0.01, 0.01, 0.98, 0.98))
    places: dict[str, tuple[float, float, float]] = {}
    for at, row in rows.items():
        width = 5.4 if len(row) == 2 else 8.4
        for number, heading in enumerate(row):
            middle = 5.5 + (number - (len(row) - 1) / 2) * 5.6
            places[heading] = (middle, at, width)
            outside = at == top
            inside, edge = ('#f2f2f2', GREY) if outside else ('#e6eef7', BLUE) if at else ('#fdeed9', ORANGE)
            axes.add_patch(
                plt.Rectangle(
                    (middle - width / 2, at - 0.37),
                    width,
                    0.74,
                    facecolor=inside,
                    edgecolor=edge,
                    linestyle='--' if outside else '-',
                )
            )
            listed = '\n'.join(textwrap.wrap(', '.join(crates.get(heading, [])), int(width * 13.5)))
            axes.text(
                middle, at + (0.17 if listed else 0), heading, ha='center', va='center', fontsize=10, fontweight='bold'
            )
            axes.text(middle, at - 0.13, listed, ha='center', va='center', fontsize=7.6, family='monospace')
    for heading, lows in {**direct, **{it: {low} for it, low in users.items()}}.items():
        x, y, width = places[heading]
        for under, y_under, width_under in (places[low] for low in lows):
            if y - y_under == 1:
                lane = under if width_under <= width else x
                path = [(lane, y - 0.37), (lane, y_under + 0.37)]
            else:  # past wide boxes, on their right
                lane, start = 10.35, min(10.35, x + width / 2 - 0.5)
                path = [(start, y - 0.37), (start, y - 0.5), (lane, y - 0.5), (lane, y_under + 0.37)]
            axes.plot(*zip(*path[:-1]), color='#555555', lw=1.2)
            axes.annotate(
                '',
                xy=path[-1],
                xytext=path[-2],
                arrowprops={'arrowstyle': '->', 'color': '#555555', 'lw': 1.2, 'shrinkA': 0},
            )
    axes.set_xlim(-0.2, 11.2)
    axes.set_ylim(-0.5, top + 0.5)
    axes.axis('off')
    figure.savefig(IMAGES / 'architecture.png')


def frame_time() -> None:
    text = (
        (TOP / 'bench/results.md')
        .read_text(encoding='utf-8')
        .partition('## A frame of the engine')[2]
        .partition('\n## ')[0]
    )
    rows = [
        [cell.strip() for cell in line.strip('|').split('|')] for line in text.splitlines() if re.match(r'\| \d', line)
    ]
    rows = [row for row in rows if row[1] != 'first frame']
    figure, axes = plt.subplots(figsize=(10, 3.6), dpi=90, layout='constrained')
    whole, plain, lists = (np.array([float(row[column] or 0) for row in rows]) for column in (3, 4, 6))
    places = -np.arange(len(rows))
    axes.barh(places, whole - lists, color=BLUE, height=0.6, label='priorities, queues, splits and merges')
    axes.barh(places, lists, left=whole - lists, color=ORANGE, height=0.6, label='list of leaves, vertex numbers')
    axes.vlines(plain, places - 0.36, places + 0.36, color='black', lw=1.6, label='plain Rust, the whole')
    for place, end, row in zip(places, np.maximum(whole, plain), rows):
        axes.text(end + 0.25, place, f'{row[3]} ms, {row[2]} priorities asked', va='center', fontsize=10)
    axes.set_yticks(
        places,
        [f"side {row[0]}: {row[1] if row[1] == 'still' else row[1] + ' units a frame'}" for row in rows],
        fontsize=10,
    )
    axes.set_xlim(0, whole.max() * 1.45)
    axes.set_xlabel('milliseconds a frame (side, triangle budget: how far the camera moves)')
    axes.legend(loc='upper right', fontsize=9)
    for edge in ('top', 'right'):
        axes.spines[edge].set_visible(False)
    figure.savefig(IMAGES / 'frame_time.png')


def tiles() -> None:
    """Below the middle tiles of 65 x 65 points within 50 m, above it tiles of 129 x 129 within 150 m that have all
    vertices of the finer ones on their sides; so any mixture of the two is without cracks."""
    sys.path.insert(0, str(TOP / 'checks'))
    from fitting import Errors, fit_error
    from frames import leaves_of
    from terrain import Terrain, read_grid

    land = Terrain(read_grid(GRID), 90, 0)
    errors, middle = Errors(land), land.m // 2

    def centres(side: int) -> set[tuple[int, int]]:
        at = range(side // 2, land.m, side)
        return {(x, y) for x in at for y in at}

    def triangles(split: set[int]) -> list[tuple[tuple[int, int], ...]]:
        return [land.corners[a] for a in leaves_of(split)]

    fine = triangles(fit_error(land, errors, 50 * land.m, centres(64)))
    on_sides = {point for corners in fine for point in corners if point[0] % 128 == 0 or point[1] % 128 == 0}
    coarse = triangles(fit_error(land, errors, 150 * land.m, centres(128) | on_sides))
    below = [it for it in fine if max(y for _, y in it) <= middle]
    above = [it for it in coarse if min(y for _, y in it) >= middle]
    sides = [{point for corners in part for point in corners if point[1] == middle} for part in (below, above)]
    assert sides[0] == sides[1], 'the two levels do not meet'

    number = {point: place for place, point in enumerate(sorted({point for it in below + above for point in it}))}
    vertices = np.array([(90.0 * x, 90.0 * y, land.heights[x, y]) for x, y in number])
    faces = np.array([[number[point] for point in it] for it in below + above])
    heights = picture.read_grid(GRID)
    size = 90.0 * land.m
    view = picture.Oblique(size, (heights.min() + heights.max()) / 2, EXAGGERATION, 205, 33)
    colour = picture.colours(vertices, faces, heights.min(), heights.max(), EXAGGERATION)
    figure, (side, top) = plt.subplots(1, 2, figsize=(11, 5.2), dpi=90, width_ratios=[1.35, 1], layout='constrained')
    places, depth = view(vertices)
    picture.draw(side, places, faces, colour, np.argsort(-depth[faces].mean(1)), 0.25, '')
    picture.draw(top, vertices[:, :2], faces, colour, np.arange(len(faces)), 0.3, '')
    for start, end, step in ((0, middle, 64), (middle, land.m, 128)):
        for y in range(start, end + 1, step):
            top.plot([0, size], [90 * y, 90 * y], color='black', lw=1.5)
        for x in range(0, land.m + 1, step):
            top.plot([90 * x, 90 * x], [90 * start, 90 * end], color='black', lw=1.5)
    said = f'{len(below):,} triangles in 8 tiles within 50 m, {len(above):,} in 2 tiles of the level above within 150 m'
    figure.supxlabel(f'{said}; no cracks', fontsize=12)
    figure.savefig(IMAGES / 'tiles.png')


PICTURES = {
    'terrain': terrain,
    'fit': fit,
    'architecture': architecture,
    'frame_time': frame_time,
    'tiles': tiles,
}


def main() -> None:
    names = sys.argv[1:] or list(PICTURES)
    if not set(names) <= set(PICTURES):
        sys.exit(__doc__)
    for name in names:
        PICTURES[name]()


if __name__ == '__main__':
    main()

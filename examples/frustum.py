"""Prints the script lines of a camera and of the four side planes of its view: left, right, bottom and top.

  python3 frustum.py X Y Z DX DY DZ DEGREES WIDTH HEIGHT

X Y Z         the camera, whole numbers in world units
DX DY DZ      the direction of view, of any length, but neither straight up nor straight down
DEGREES       the field of view from left to right, up to 170, as is the one from bottom to top that follows
WIDTH HEIGHT  the size of the picture, in any unit
"""
import math
import runpy
import sys
from pathlib import Path

if len(sys.argv) != 10:
    sys.exit(__doc__)
frustum = runpy.run_path(str(Path(__file__).resolve().parent.parent / 'python/src/calfrewin/planes.py'))['frustum']


def number(name, word, of=float):
    """The number that a word is; the program ends where it is none."""
    try:
        found = of(word)
        if math.isfinite(found):
            return found
    except ValueError:
        pass
    sys.exit(f"frustum: {name} is {word!r}: a {'whole ' if of is int else ''}number is wanted")


eye = [number(name, word, int) for name, word in zip('XYZ', sys.argv[1:4])]
dx, dy, dz, degrees, width, height = (
    number(name, word) for name, word in zip(('DX', 'DY', 'DZ', 'DEGREES', 'WIDTH', 'HEIGHT'), sys.argv[4:]))
try:
    planes = frustum(eye, (dx, dy, dz), degrees, width, height)
except ValueError as found:
    sys.exit(f'frustum: {found}')
print('noplanes', 'camera {} {} {}'.format(*eye), *('plane {} {} {} {}'.format(*plane) for plane in planes), sep='\n')

"""python3 server.py ROAM GRID BUDGET SPACING X,Y,Z ..: asks `roam` for a mesh from each of these cameras, one after the
other. Where its script is a pipe, it answers each `frame` line at once."""
import subprocess
import sys
import tempfile


class Meshes:
    """A run of `roam mesh` that waits for lines of a script."""
    def __init__(self, roam, grid, budget, spacing):
        self.folder, self.frames = tempfile.TemporaryDirectory(), 0
        words = [roam, 'mesh', grid, '/dev/stdin', f'{self.folder.name}/out', budget, spacing]
        self.run = subprocess.Popen(words, stdin=subprocess.PIPE, stdout=subprocess.PIPE, text=True)

    def frame(self, *lines):
        """Carries out these lines and then `frame`: the report line, and the bytes of the mesh."""
        self.run.stdin.write(''.join(line + '\n' for line in (*lines, 'frame')))
        self.run.stdin.flush()
        report, self.frames = self.run.stdout.readline(), self.frames + 1
        if not report.startswith('frame'):  # `line N refused: ..`, `grid refused: ..`, or nothing: why is on standard error
            raise RuntimeError(report)
        with open(f'{self.folder.name}/out{self.frames:06}.obj', 'rb') as mesh:
            return report, mesh.read()


meshes = Meshes(*sys.argv[1:5])
for camera in sys.argv[5:]:
    report, mesh = meshes.frame('camera ' + camera.replace(',', ' '))
    print(report.rstrip(), 'bytes', len(mesh))

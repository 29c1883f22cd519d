"""A wheel holds libroam, which stands on the C library only: one wheel for every Python 3 of a system."""
import os
import pathlib
import shutil
import subprocess
import sys

from setuptools import Distribution, setup
from setuptools.command.build_py import build_py
from wheel.bdist_wheel import bdist_wheel

HERE = pathlib.Path(__file__).resolve().parent
BESIDE = HERE / "src/calfrewin/libroam.so"  # where a wheel has it; in a clone nothing lies there
BUILT = HERE.parent / "lib/out/lib/libroam.so"  # by lib/build
NEWEST_GLIBC = (2, 17)  # what manylinux2014 promises


class BuildWithLibrary(build_py):
    def run(self):
        super().run()
        if getattr(self, "editable_mode", False):
            return  # the package finds the library of lib/build by itself
        found = pathlib.Path(os.environ.get("CALFREWIN_LIBRARY") or (BESIDE if BESIDE.exists() else BUILT))
        if not found.exists():
            sys.exit(f"calfrewin: there is no {found}: run lib/build, or name libroam.so in CALFREWIN_LIBRARY")
        name = found.name if found.suffix in (".dll", ".dylib") else "libroam.so"
        shutil.copyfile(found, pathlib.Path(self.build_lib) / "calfrewin" / name)


class LibraryDistribution(Distribution):
    def has_ext_modules(self):
        return True


class LibraryWheel(bdist_wheel):
    def get_tag(self):
        library = pathlib.Path(self.bdist_dir) / "calfrewin/libroam.so"
        if library.exists():  # not where the wheel is an editable one, or for a system other than Linux
            text = subprocess.run(["readelf", "--dyn-syms", "-W", library], stdout=subprocess.PIPE, text=True, check=True).stdout
            asked = [line.split("GLIBC_")[1].split(")")[0].split(" ")[0] for line in text.splitlines() if "GLIBC_" in line]
            newest = max((tuple(map(int, version.split("."))) for version in asked), default=(0,))
            if newest > NEWEST_GLIBC:
                sys.exit(f"calfrewin: {library} asks for glibc {newest}, later than manylinux2014 promises")
        return "py3", "none", os.environ.get("CALFREWIN_SYSTEM") or "manylinux_2_17_x86_64.manylinux2014_x86_64"


setup(distclass=LibraryDistribution, cmdclass={"build_py": BuildWithLibrary, "bdist_wheel": LibraryWheel})

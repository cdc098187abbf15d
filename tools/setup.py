"""The wheel has the library of faces/c inside, where there is one: it is no extension of Python, so one wheel is for every
Python 3 of the platform. SOZHIPEN_LIBRARY names the library, else that of the release of this clone is taken."""

import os
import shutil
from pathlib import Path

from setuptools import Distribution, setup
from setuptools.command.build_py import build_py

HERE = Path(__file__).resolve().parent
LIBRARY = Path(os.environ.get("SOZHIPEN_LIBRARY") or HERE.parent / "release" / "libsozhipen.so").resolve()
HAS_LIBRARY = LIBRARY.is_file()


class WithLibrary(build_py):
    """Puts the library beside the modules of the package."""

    def run(self) -> None:
        super().run()
        if HAS_LIBRARY and not self.dry_run:
            shutil.copyfile(LIBRARY, Path(self.build_lib, "sozhipen", LIBRARY.name))


class OfPlatform(Distribution):
    """A package for one platform, where it has the library."""

    def has_ext_modules(self) -> bool:
        return HAS_LIBRARY


commands = {"build_py": WithLibrary}
try:
    from wheel.bdist_wheel import bdist_wheel

    class ForEachPython(bdist_wheel):
        def get_tag(self) -> "tuple[str, str, str]":
            return ("py3", "none", super().get_tag()[2])

    if HAS_LIBRARY:
        commands["bdist_wheel"] = ForEachPython
except ImportError:
    pass

setup(distclass=OfPlatform, cmdclass=commands)

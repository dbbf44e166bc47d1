"""Builds the package, of which a module in C has the library in it: for Python 3.10 and all that follow.

The library is linked in from where pkg-config finds it.
"""

import os
import subprocess
import sys

from setuptools import Extension, setup
from setuptools.command.build_ext import build_ext


def outcome(variable: str) -> str:
    """What pkg-config says of the library, or nothing."""
    try:
        ran = subprocess.run(["pkg-config", "--variable=" + variable, "vizhoniku"], stdin=subprocess.DEVNULL,
                             stdout=subprocess.PIPE, stderr=subprocess.DEVNULL, check=True)
    except (OSError, subprocess.CalledProcessError):
        return ""
    return os.fsdecode(ran.stdout.rstrip(b"\n"))


LIBRARY = os.path.join(outcome("libdir"), "libvizhoniku.a")


class Build(build_ext):
    def run(self) -> None:
        if not os.path.isabs(LIBRARY) or not os.path.exists(LIBRARY):
            sys.exit("the library libvizhoniku.a isn't found by pkg-config: install it (make install PREFIX=FOLDER), "
                     "and name its place by PKG_CONFIG_PATH (FOLDER/lib/pkgconfig)")
        super().run()


module = Extension("vizhoniku._native", ["vizhoniku/_native.c"], include_dirs=[outcome("includedir")],
                   define_macros=[("Py_LIMITED_API", "0x030A0000")], py_limited_api=True, extra_objects=[LIBRARY],
                   extra_compile_args=["-std=c99", "-Wall", "-Wextra", "-fvisibility=hidden"],
                   extra_link_args=["-Wl,--exclude-libs,ALL"], depends=[LIBRARY])
setup(ext_modules=[module], cmdclass={"build_ext": Build}, options={"bdist_wheel": {"py_limited_api": "cp310"}})

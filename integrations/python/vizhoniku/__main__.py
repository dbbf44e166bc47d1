"""Prints the versions of the package and of the library's interface, and the file that has the library in it:
python3 -m vizhoniku
"""

import sys

from . import INTERFACE, __version__, _native


def main() -> None:
    if len(sys.argv) > 1:
        sys.exit("usage: python3 -m vizhoniku")
    print(f"vizhoniku {__version__}")
    print(f"interface version {INTERFACE} of the library")
    print(f"the library is in {_native.__file__}")


if __name__ == "__main__":
    main()

"""Prints the version of the library, and where it was found: python3 -m nbt."""
import argparse
import os
import sys

from . import __version__
from .library import found_at

argparse.ArgumentParser(prog='python3 -m nbt', description=__doc__.partition(':')[0] + '.').parse_args()
try:
    # Without a buffer, which Python would try to write again at its end.
    os.write(1, os.fsencode(f'nbt {__version__}, {found_at()}\n'))
except OSError as error:
    print(f'nbt: standard output: {error.strerror}', file=sys.stderr)
    sys.exit(3)

"""The program nbt: where it is, and why a run of it failed."""
import os
import shutil

from nbt_pcap.process import Stopped

HERE = os.path.dirname(os.path.abspath(__file__))
BUILT = os.path.join(HERE, '..', '..', 'crates', 'nbt', 'out', 'nbt')
INSTALLED = os.path.join(HERE, '..', '..', '..', 'bin', 'nbt')


class ProgramFailed(Exception):
    """A run of the program failed, and another one may go well."""


def local_program(asked):
    """The program, for workers of this machine: the one of these tools, or else the one on PATH."""
    if asked is None:
        beside = INSTALLED if HERE.endswith(os.path.join('share', 'nbt', 'nbt_shards')) else BUILT
        asked = beside if os.path.exists(beside) else 'nbt'
    found = shutil.which(asked)
    if found is None:
        raise Stopped(3, '%s: no such program; the package nbt installs it, or `make build` of the sources; --program PATH names another' % asked)
    return os.path.abspath(found)


def missing(program):
    """Why to stop where a worker lacks the program."""
    return Stopped(3, '%s: a worker has no such program; --program names it' % program)

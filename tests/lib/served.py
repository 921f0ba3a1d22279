"""Runs of a program over tests/lib/refuse_memory.c, of which many take one start: the shim serves them, each in a process of its own."""
import os
import select
import shlex
import signal
import struct
import subprocess
import tempfile
from dataclasses import dataclass

# How long a run may take, in seconds.
LONGEST = 120


def compiled(folder, shim, *words):
    """What stands before the C library in some runs, tests/lib/devices.c or refuse_memory.c, made in a folder where it isn't there yet."""
    path, source = os.path.join(folder, f'{shim}.so'), os.path.join(os.path.dirname(os.path.abspath(__file__)), f'{shim}.c')
    if not os.path.exists(path):
        compiler = shlex.split(os.environ.get('CC', 'cc'))
        subprocess.run([*compiler, '-O1', '-shared', '-fPIC', *words, '-o', path, source, '-ldl'], check=True)
    return path


def requests(folder, command, **given):
    """How many requests for memory a command makes of an input, which is given as subprocess has it."""
    with tempfile.NamedTemporaryFile('r') as count:
        subprocess.run(command, stdout=subprocess.DEVNULL, check=True, **given,
                       env={**os.environ, 'LD_PRELOAD': compiled(folder, 'refuse_memory'), 'NBT_REQUESTS': count.name})
        return int(count.read())


@dataclass(frozen=True)
class Run:
    """What a program did."""
    status: int
    output: bytes
    errors: bytes


class Program:
    """A program over the shim, with its words and an input; perhaps another one runs it. What it writes goes to files, which each run begins anew."""

    def __init__(self, shim, command, given, runner=()):
        self.shim, self.command, self.runner = shim, command, runner
        self.streams = [given, *(os.memfd_create(name) for name in ('output', 'errors'))]

    def start(self, others=(), **settings):
        """Starts it."""
        self.rewind()
        given, output, errors = self.streams
        return subprocess.Popen([*self.runner, *self.command], stdin=given, stdout=output, stderr=errors, pass_fds=others, start_new_session=True,
                                env={**os.environ, 'LD_PRELOAD': self.shim, **settings})

    def rewind(self):
        """Puts its input and what it writes at their begin, where every run starts."""
        for each in self.streams:
            os.lseek(each, 0, os.SEEK_SET)
        for each in self.streams[1:]:
            os.ftruncate(each, 0)

    def ran(self, status):
        """What it did, by its status."""
        return Run(status, *(os.pread(each, os.fstat(each).st_size, 0) for each in self.streams[1:]))

    def run(self, **settings):
        """Runs it once, in a process that is started for it."""
        return self.ran(self.start(**settings).wait(LONGEST))


class Served:
    """A program that is loaded once, and then runs as often as it is asked to."""

    def __init__(self, program):
        self.program = program
        theirs, self.numbers = os.pipe()
        self.statuses, to_us = os.pipe()
        self.server = program.start((theirs, to_us), NBT_SERVES=f'{theirs} {to_us} {program.command[0]}')
        os.close(theirs)
        os.close(to_us)

    def __enter__(self):
        return self

    def __exit__(self, *_):
        os.killpg(self.server.pid, signal.SIGKILL)
        self.server.wait()
        os.close(self.numbers)
        os.close(self.statuses)

    def run(self, refused=0, of_call=0, seconds=LONGEST):
        """Runs it with the request of this number refused, or that of each call between marks, or none."""
        self.program.rewind()
        os.write(self.numbers, struct.pack('LL', refused, of_call))
        if not select.select([self.statuses], [], [], seconds)[0]:
            raise TimeoutError(f'{self.program.command}: it takes more than {seconds} seconds')
        return self.program.ran(os.waitstatus_to_exitcode(*struct.unpack('i', os.read(self.statuses, 4))))

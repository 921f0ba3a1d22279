"""Runs of the built program over streams of any kind, for tests/process.py. One that doesn't end within a minute is killed, which is a
status that no run may have."""
import contextlib
import functools
import os
import re
import resource
import signal
import subprocess
import sys
import termios
import time

TESTS = os.path.dirname(os.path.dirname(os.path.abspath(__file__)))
PROGRAM = os.path.join(TESTS, '..', 'crates', 'nbt', 'out', 'nbt')
SECONDS = 60
STREAMS = ('stdin', 'stdout', 'stderr')
# Devices that stand for a stream; `closed` stands for none.
DEVICES = {
    'a directory': lambda: os.open('/', os.O_RDONLY), 'full': lambda: os.open('/dev/full', os.O_WRONLY),
    'zero bytes without end': lambda: os.open('/dev/zero', os.O_RDONLY), 'opened for reading': lambda: os.open(os.devnull, os.O_RDONLY),
    'opened for writing': lambda: os.open(os.devnull, os.O_WRONLY), 'a broken pipe': lambda: broken_pipe(),
    'one that would have to be waited for': lambda: os.eventfd(0, os.EFD_NONBLOCK),
}

program = os.path.realpath(sys.argv[1] if len(sys.argv) > 1 else PROGRAM)


def broken_pipe():
    """The end to write of a pipe that nobody reads."""
    reading, writing = os.pipe()
    os.close(reading)
    return writing


def start(words, before=None, **how):
    """The program, with these words, started. A stream may be a device by its name, and is a pipe where it isn't given."""
    closed = [it for it in STREAMS if how.get(it) == 'closed']
    begin = lambda: [*(os.close(STREAMS.index(it)) for it in closed), before and before()]
    opened = {it: DEVICES[how[it]]() for it in STREAMS if how.get(it) in DEVICES}
    streams = dict.fromkeys(STREAMS, subprocess.PIPE) | how | dict.fromkeys(closed) | opened
    process = subprocess.Popen([program, *words], preexec_fn=begin, bufsize=0, **streams)
    for each in opened.values():
        os.close(each)
    signal.signal(signal.SIGALRM, lambda *_: process.kill())
    signal.alarm(SECONDS)
    return process


def run(words, given=b'', is_open=False, **how):
    """The status, the output and the errors of a whole run over an input, which may stay open. Between several parts of it the program is
    stopped and goes on; there is no status where it doesn't wait then."""
    process, waits = start(words, **how), True
    *fronts, last = given if isinstance(given, tuple) else (given,)
    for each in fronts:
        process.stdin.write(each)
        for sent in (signal.SIGSTOP, signal.SIGCONT):
            time.sleep(0.01)
            process.send_signal(sent)
        waits = waits and process.poll() is None
    with open(os.dup(process.stdin.fileno()), 'wb') if is_open else contextlib.nullcontext():
        output, errors = process.communicate(last if process.stdin else None)
    return process.returncode if waits else None, output or b'', errors or b''


def limited(limit, what=resource.RLIMIT_AS):
    """What limits a process's memory, or something else of it, before the program starts."""
    return lambda: resource.setrlimit(what, (limit, limit))


def starts(words, limit):
    """Whether the system's loader can load the program, with these words, within a limit."""
    return run(words, before=limited(limit), env={**os.environ, 'LD_TRACE_LOADED_OBJECTS': '1'})[0] == 0


def instructions(words, given):
    """How many instructions a run over an input takes, counted by valgrind: as many in each run."""
    count = ['valgrind', '--tool=callgrind', '--callgrind-out-file=/dev/null', program, *words]
    done = subprocess.run(count, input=given, stdout=subprocess.DEVNULL, stderr=subprocess.PIPE, check=True)
    return int(re.search(rb'Collected : (\d+)', done.stderr).group(1))


def at_terminal(words, given=b'', streams=STREAMS, **how):
    """The status and the output of a run with some streams at a terminal, and what that shows. An input is typed there and ended by ^D,
    which it takes twice inside a line; what is typed isn't shown, and what is printed isn't changed."""
    terminal, slave = os.openpty()
    settings = termios.tcgetattr(slave)
    settings[1] &= ~termios.OPOST
    settings[3] &= ~termios.ECHO
    termios.tcsetattr(slave, termios.TCSANOW, settings)
    if 'stdin' in streams:
        os.write(terminal, given + (b'\x04' if given[-1:] in (b'', b'\n') else b'\x04\x04'))
    status, output, _ = run(words, given, **dict.fromkeys(streams, slave), **how)
    os.close(slave)
    shown = b''
    with contextlib.suppress(OSError):
        while some := os.read(terminal, 4096):
            shown += some
    os.close(terminal)
    return status, output, shown


@functools.cache
def meaning(errors):
    """The line that follows this one at a terminal: that of `nbt help`."""
    status, line, _ = run(['help', errors.decode().removesuffix('\n')])
    assert status == 0 and line, errors
    return line


def shown(errors):
    """What a command prints at a terminal on standard error, that prints this otherwise; tests/cases/terminal.txt has what stands
    beside `arguments`."""
    return errors + meaning(errors) if errors.startswith(b'nbt: ') else errors

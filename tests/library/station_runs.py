"""A tool that runs, for the cases of station.py and station_system.py: what is sent to it, and what it prints, saves and says."""
import contextlib
import os
import re
import signal
import socket
import subprocess
import sys
import tempfile
import time

sys.dont_write_bytecode = True
from limits import MANY
from wire import CLIENT, JOE, datagram, first_level

TOOL, PROGRAM = map(os.path.abspath, sys.argv[1:3])
PATIENCE = 20
OWN = ('--bind', '127.0.0.1:0')
ENDING = signal.SIGTERM, signal.SIGINT, signal.SIGHUP, signal.SIGQUIT
# The time and the sender of a line, which is of this machine or none.
FRONT = re.compile(r'^[0-9]{4}-[0-9]{2}-[0-9]{2}T[0-9]{2}:[0-9]{2}:[0-9]{2}\.[0-9]{6}Z ((127|10)(\.[0-9]{1,3}){3}:[0-9]{1,5}|-) ')
ANN, NOBODY = first_level('ANN', 0x20), first_level('NOBODY', 0x20)
UNIQUE, GROUP = 0x10, 0x11
# What a line then says of a datagram.
DELIVERED = 'delivered 10.0.0.5:138/%04x group JOE<00> FRED<20> %s'
EMPTY = '4e42543200000000\n'
# How often a case is tried whose keys may be dropped before it is done, where the machine is busy.
TRIES = 5


class TooSlow(Exception):
    """Keys were dropped before the case was done: it is tried again."""


def expect(wanted, found):
    assert wanted == found, f'{str(found)[:300]!r}, not {str(wanted)[:300]!r}'


def packet(kind, identifier, destination, data, source=JOE, sender=CLIENT):
    """A datagram in one packet."""
    return datagram(identifier, data, sender, kind, names=source + destination)


def result_of(case):
    """Why a case fails, if it does: it is tried again where the machine was too slow."""
    for _ in range(TRIES):
        try:
            return case()
        except TooSlow as slow:
            why = f'{slow}, {TRIES} times'
        except (AssertionError, OSError, ValueError, subprocess.SubprocessError) as error:
            return repr(error)
    return why


class Station:
    """A tool that runs, and a socket that sends to it."""

    def __init__(self, folder, *words, names=('FRED<20>',), bind='127.0.0.1:0', out='out', **system):
        self.folder = folder
        with open(os.path.join(folder, out) if isinstance(out, str) else out, 'wb') as opened:
            self.process = subprocess.Popen([TOOL, '--bind', bind, *words, *names], cwd=folder, stdin=subprocess.DEVNULL, stdout=opened,
                                            stderr=subprocess.PIPE, bufsize=0, **system)
        first = self.process.stderr.readline().decode()
        if 'listens at' not in first:
            self.process.kill()
            raise AssertionError(f'it said {first!r}')
        self.broadcasts = '' if bind.startswith('0.0.0.0') else self.process.stderr.readline().decode()
        self.last, self.sent = 0x10000, []
        host, self.port = first.split()[-1].split(':')[0], int(first.split(':')[-1])
        self.socket = socket.socket(socket.AF_INET, socket.SOCK_DGRAM)
        self.socket.settimeout(PATIENCE)
        self.socket.connect((host, self.port))

    def send(self, *payloads):
        self.sent += payloads
        for payload in payloads:
            self.socket.send(payload)

    def answer(self):
        return self.socket.recv(100)

    def reached(self):
        """Waits until all that was sent before was taken: a datagram for nobody, each time another, is answered after it."""
        self.last -= 1
        self.send(packet(UNIQUE, self.last, NOBODY, b''))
        while self.answer()[2:4] != self.last.to_bytes(2, 'big'):
            pass

    def lines(self, count):
        """What it printed, once it is so many lines, each without its time and its sender."""
        lines = lambda: read(self.folder, 'out').splitlines()
        until(lambda: len(lines()) >= count, f'it printed less than {count} lines')
        return [FRONT.sub('', it) for it in lines()]

    def send_signal(self, number=signal.SIGUSR1):
        self.process.send_signal(number)

    def saved(self):
        """What stands in the file of its saved table, once it is there."""
        until(lambda: os.path.exists(os.path.join(self.folder, 'table')), 'no table was saved')
        return read(self.folder, 'table')

    def ended(self, number=signal.SIGTERM, within=PATIENCE):
        """The status with which it ends at a signal within so many seconds, and what it says then."""
        self.send_signal(number)
        said = self.process.communicate(timeout=within)[1]
        return self.process.returncode, said.decode()

    def files(self):
        return sorted(os.listdir(self.folder))


@contextlib.contextmanager
def station(*words, files=None, **named):
    """A station in a folder of its own with these files, which ends with the case."""
    with tempfile.TemporaryDirectory() as folder:
        for name, text in (files or {}).items():
            written(folder, name, text)
        each = Station(folder, *words, **named)
        try:
            yield each
        finally:
            each.process.kill()
            each.process.communicate()
            each.socket.close()


def nbt(*words, text=''):
    return subprocess.run([PROGRAM, *words], input=text, capture_output=True, text=True, timeout=PATIENCE).stdout


def capture(payloads):
    return ''.join(f'138 0 {it.hex() or "empty"}\n' for it in payloads)


def replayed(payloads, *names):
    """The deliveries of `nbt replay` of these payloads."""
    lines = nbt('replay', *MANY, *names, text=capture(payloads)).splitlines()
    return [line.split(' ', 1)[1] for line in lines if ' delivered ' in line]


def read(folder, name):
    with open(os.path.join(folder, name), encoding='ascii') as file:
        return file.read()


def written(folder, name, text):
    with open(os.path.join(folder, name), 'w', encoding='ascii') as file:
        file.write(text)


def until(held, what):
    """Waits until something holds."""
    last = time.monotonic() + PATIENCE
    while not held():
        if time.monotonic() > last:
            raise AssertionError(what)
        time.sleep(0.01)


def whole_tables(table, count):
    """The table, if no key of it was dropped yet."""
    found = len(nbt('list', text=table).splitlines())
    if found < count:
        raise TooSlow(f'{found} keys of {count}')
    return table

"""Whether a program is the nbt of this version: what it says of itself, and of a packet. One that says nothing, or no end of it, is none."""
import contextlib
import os
import select
import signal
import subprocess
import time

from nbt_pcap.header import VERSION
from nbt_pcap.process import Stopped, faults_of

# How many seconds an answer may take on a machine that is busy, and how many bytes it has at most.
PATIENCE, MOST = 10, 4_096
# A keepalive packet, and what nbt says of it.
PACKET, ANSWER = b'139 0 85000000\n', b'{"line":1,"port":139,"moment":0,"brief":"keeps the session alive","kind":"keepalive","used":4}\n'


def judge(program):
    """Refuses a program that is another one, or of another version."""
    said = answer_of(program, ['--version'], b'')
    if said != b'nbt %s\n' % VERSION.encode():
        first = said.partition(b'\n')[0].decode(errors='replace')[:40]
        raise Stopped(3, '%s is not nbt %s, which goes with this tool: %s' % (program, VERSION, f'it says {first!a}' if first else 'it says nothing'))
    if answer_of(program, ['show', '--json', '--brief'], PACKET) != ANSWER:
        raise Stopped(3, '%s is not nbt %s, which goes with this tool: it reads a packet in another way' % (program, VERSION))


def answer_of(program, words, given):
    """What a program prints, as far as it is read. It is ended after that, with all that it started."""
    with faults_of(program):
        child = subprocess.Popen([program, *words], stdin=subprocess.PIPE, stdout=subprocess.PIPE, stderr=subprocess.DEVNULL, start_new_session=True)
    try:
        with contextlib.suppress(BrokenPipeError):
            os.write(child.stdin.fileno(), given)      # less than a pipe holds
        child.stdin.close()
        return read(child.stdout.fileno())
    finally:
        with contextlib.suppress(ProcessLookupError):
            os.killpg(child.pid, signal.SIGKILL)
        child.wait()
        child.stdout.close()


def read(number):
    """What comes of a pipe until its end, until it is more than an answer has, or until nobody waits for it any more."""
    ready, found = select.poll(), b''
    ready.register(number, select.POLLIN)
    until = time.monotonic() + PATIENCE
    while len(found) <= MOST and (left := until - time.monotonic()) > 0 and ready.poll(left * 1000):
        data = os.read(number, MOST)
        if not data:
            break
        found += data
    return found

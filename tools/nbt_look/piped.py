"""Where a capture comes from that is no file of its own: standard input that is a pipe, which is read so far that its kind is known, and then goes
on to who reads all of it; and several files as one, whose frames mergecap, which comes with tshark, puts in the order of their times."""
import contextlib
import io
import os
import shutil
import stat
import subprocess
import tempfile
import threading

from nbt_pcap import tshark
from nbt_pcap.arguments import CAPTURE_FRONTS
from nbt_pcap.process import Stopped

FRONT, PART = 4, 65_536


class Piped(io.RawIOBase):
    """A pipe, from its first byte on, however much of it was read."""

    def __init__(self):
        super().__init__()
        self.front = b''
        while len(self.front) < FRONT and (data := os.read(0, PART)):
            self.front += data

    def is_text(self):
        return self.front.startswith(CAPTURE_FRONTS)

    def readable(self):
        return True

    def readinto(self, room):
        data, self.front = self.front[:len(room)], self.front[len(room):]
        data = data or os.read(0, len(room))
        room[:len(data)] = data
        return len(data)

    def go_on_to(self, number):
        """Writes all of it to an open file, which is closed then, beside other work."""
        threading.Thread(target=self.copy, args=(number,), daemon=True).start()

    def copy(self, number):
        data = self.front
        with contextlib.suppress(OSError):
            while data:
                while data:
                    data = data[os.write(number, data):]
                data = os.read(0, PART)
        os.close(number)


def piped():
    """Standard input, if it is a pipe or the like; None where it is a file."""
    return None if stat.S_ISREG(os.fstat(0).st_mode) else Piped()


class Merged:
    """mergecap as a child. What it says on standard error is kept."""

    def __init__(self, files):
        if not shutil.which('mergecap'):
            raise Stopped(3, "mergecap isn't installed, which reads several files; in Debian it comes with the package tshark")
        self.errors = tempfile.TemporaryFile()
        words = [each if not each.startswith('-') else os.path.join('.', each) for each in files]
        self.child = subprocess.Popen(['mergecap', '-F', 'pcapng', '-w', '-', *words], stdin=subprocess.DEVNULL, stdout=subprocess.PIPE,
                                      stderr=self.errors, preexec_fn=tshark.end_with_us, start_new_session=True)

    def __enter__(self):
        return self

    def __exit__(self, *_):
        self.child.stdout.close()
        self.child.kill()
        self.child.wait()
        self.errors.close()

    def judge(self):
        """Refuses what it couldn't read; called once nobody reads it any more."""
        self.child.stdout.close()
        if self.child.wait() > 0:
            why = tshark.reasons(self.errors)
            raise Stopped(2 if tshark.NO_CAPTURE in why else 3, os.fsdecode(why) or 'mergecap ended with status %d' % self.child.returncode)

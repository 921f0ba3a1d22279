"""The files of a station: its saved table and its pid file. Either is put where nothing stands, an empty file, or one of its
own kind; whatever else stands there stays."""
import contextlib
import os
import re

from nbt_pcap import process, replacing
from nbt_pcap.process import Stopped
from nbt_pcap.replacing import keep_mode, standing

# What both forms of a saved table begin with, in the digits of `nbt save`.
FORMS = (b'4e425431', b'4e425432')
DIGITS = b'0123456789abcdef'
NUMBER = re.compile(rb'[1-9][0-9]{0,8}\n?')
PREFIX = '.nbt-station.'


@contextlib.contextmanager
def faults_of(path):
    """What goes wrong with a file, as the reason to stop; want of memory too."""
    try:
        with process.faults_of(path):
            yield
    except MemoryError as error:
        raise Stopped(3, f'{path}: memory') from error


def judged(path, is_own, kind):
    """What the system says of the file at a path, None where nothing stands there; Stopped where it isn't of this kind."""
    found = standing(path)
    if found and found.st_size and not is_own(path):
        raise Stopped(3, f'{path}: it is no {kind}, and stays as it is')
    return found


# ---- the saved table

def is_table(path):
    """Whether a file is the line of a saved table."""
    with open(path, 'rb') as file:
        front = file.read(len(FORMS[0]))
        return front in FORMS and file.read().lstrip(DIGITS) == b'\n'


def try_table(path):
    """Stopped where a table can't be saved at this path: something else stands there, or its folder takes no file."""
    with faults_of(path):
        judged(path, is_table, 'saved table')
        with new_file(path):
            pass


def save_table(path, text):
    """Puts a text into the file of the saved table: all of it, or what stood there stays. Its mode stays too."""
    with faults_of(path):
        before = judged(path, is_table, 'saved table')
        with new_file(path) as file:
            file.write(text)
            file.flush()
            if before:
                keep_owner(file.fileno(), before)
            keep_mode(file.fileno(), before)
            os.fsync(file.fileno())
            os.replace(file.name, path)


def new_file(path):
    """A file in the folder of another."""
    return replacing.new_file(os.path.dirname(os.path.abspath(path)) if os.path.basename(path) else path, PREFIX)


def keep_owner(number, before):
    """Gives an open file the owner of the one before it."""
    with contextlib.suppress(PermissionError):
        os.fchown(number, before.st_uid, before.st_gid)


# ---- the pid file

def number_in(path):
    """The number that a pid file has, as bytes; None where it is something else."""
    with open(path, 'rb') as file:
        data = file.read(16)
    return data if NUMBER.fullmatch(data) else None


def judge_pid(path):
    """Whether something stands at the path of a pid file; Stopped where it is another file, or that of another process."""
    with faults_of(path):
        found = judged(path, number_in, 'pid file')
        number = int(number_in(path)) if found and found.st_size else os.getpid()
        if number != os.getpid() and is_running(number):
            raise Stopped(3, f'{path}: the process {number} is running')
        return found is not None


def is_running(number):
    try:
        os.kill(number, 0)
    except ProcessLookupError:
        return False
    except PermissionError:
        pass
    return True


@contextlib.contextmanager
def pid_file(path):
    """The number of this process in a file, as long as this lasts."""
    if path is None:
        yield
        return
    text = f'{os.getpid()}\n'
    with faults_of(path):
        if judge_pid(path):
            os.unlink(path)
        with open(path, 'x', encoding='ascii') as file:
            file.write(text)
    try:
        yield
    finally:
        with contextlib.suppress(OSError):
            if number_in(path) == text.encode():
                os.unlink(path)

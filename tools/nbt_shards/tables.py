"""Which tables are merged together, and how OUT is written."""
import contextlib
import os

from nbt_pcap.header import INPUT
from nbt_pcap.process import Stopped, faults_of

MOST_TOGETHER = 16
# Two tables of so many bytes can always be merged.
HALF = INPUT // 2


def grouped(sizes, options):
    """Rows of places: the tables that one `nbt merge` reads together, the smaller ones first."""
    rows, room = [], 0
    for place in sorted(range(len(sizes)), key=lambda place: (sizes[place], place)):
        if not rows or sizes[place] > room or len(rows[-1]) == MOST_TOGETHER:
            rows.append([])
            room = INPUT
        rows[-1].append(place)
        room -= sizes[place]
    if len(rows) == len(sizes):
        raise Stopped(1, '%d tables are left, of which no two can be merged: the two smallest have %d bytes together, and `nbt '
                      'merge` reads %d. Cut by source address: --by-source %d'
                      % (len(sizes), sum(sorted(sizes)[:2]), INPUT, groups_for(sum(sizes), options)))
    return rows


def groups_for(size, options):
    """A number of groups that is enough where addresses are spread evenly, for tables of one group with so many bytes."""
    return (options.by_source or 1) * (1 + -(-size // HALF))


# ---- how OUT is written

@contextlib.contextmanager
def part_beside(out):
    """A new file beside OUT, which goes where it isn't put in the place of OUT."""
    part = '%s.%d.part' % (os.path.abspath(out), os.getpid())
    with faults_of(part):
        open(part, 'xb').close()
    try:
        with faults_of(out):
            yield part
    finally:
        if os.path.exists(part):
            os.unlink(part)


def write_whole(part, lines):
    """Writes the lines to a file that is on the disk then."""
    try:
        with open(part, 'wb') as file:
            for line in lines:
                file.write(line)
            file.flush()
            os.fsync(file.fileno())
    except OSError as error:
        raise OSError(error.errno, error.strerror, error.filename or part) from error


def put(part, out):
    """Puts a whole file in the place of OUT at once: what was there stays until then."""
    os.rename(part, out)
    handle = os.open(os.path.dirname(os.path.abspath(out)), os.O_RDONLY)
    try:
        os.fsync(handle)
    finally:
        os.close(handle)

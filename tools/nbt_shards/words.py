"""The command line, and what is refused before anything is done."""
import argparse
import os

from nbt_pcap.header import INPUT, MOST_LINE
from nbt_pcap.parsing import Parser
from nbt_pcap.process import Stopped, faults_of

MOST_GROUPS = 4_096

ABOUT = 'Makes the saved table of captures of any size: cuts them, saves each shard, and merges the tables in a tree.'
# How pcap files of both byte orders begin, with microseconds and nanoseconds, and pcapng files.
PCAPS = (b'\xd4\xc3\xb2\xa1', b'\xa1\xb2\xc3\xd4', b'\x4d\x3c\xb2\xa1', b'\xa1\xb2\x3c\x4d', b'\n\r\r\n')


def words_of():
    """The command line."""
    words = Parser(prog='nbt-dask', description=ABOUT, epilog='The manual page is nbt-dask(1).')
    words.add_argument('captures', metavar='CAPTURE', nargs='+', help='captures, as `nbt save` reads them')
    words.add_argument('out', metavar='OUT', help='the file for the saved table; it appears when all is done')
    words.add_argument('--force', action='store_true', help='replace OUT, if it is a saved table')
    words.add_argument('--program', metavar='PATH', help='the program nbt, as the workers find it')
    words.add_argument('--shard-bytes', metavar='N', type=number(MOST_LINE + 1, INPUT), default=8_388_608,
                       help='how many bytes of a capture a shard has at most, where ticks allow it (8388608)')
    words.add_argument('--by-source', metavar='N', type=number(1, MOST_GROUPS),
                       help='N tables, a line of OUT each: a source address goes to the table with its number modulo N')
    words.add_argument('--tables', action='store_true', help='the inputs are saved tables, a line each')
    words.add_argument('--quiet', action='store_true', help='no progress; without it a terminal shows how many shards are done')
    place = words.add_mutually_exclusive_group(required=True)
    place.add_argument('--scheduler', metavar='ADDRESS', help='the scheduler of a cluster, as tcp://10.0.0.5:8786')
    place.add_argument('--workers', metavar='N', type=number(1, 1_024), help='so many workers on this machine')
    words.add_argument('--send', action='store_true',
                       help='send the shards to the workers; otherwise they read the captures by their paths')
    words.add_argument('--wait', metavar='N', type=number(1, 86_400), default=60,
                       help='how many seconds the run waits: for a worker, for a task to end, for an answer of the scheduler (60)')
    return words


def number(least, most):
    """The type of a word that is a number within these bounds."""
    def read(text):
        if not text.isascii() or not text.isdigit() or not least <= int(text) <= most:
            raise argparse.ArgumentTypeError('a number from %d to %d is wanted' % (least, most))
        return int(text)
    return read


def judge(options):
    """Refuses words that don't go together, and captures that are none."""
    if options.tables and options.by_source:
        raise Stopped(2, '--tables and --by-source: a saved table isn\'t cut')
    for capture in options.captures:
        if not os.path.isfile(capture):
            raise Stopped(3, '%s: no such file' % capture if not os.path.exists(capture) else '%s: no regular file' % capture)
        if os.path.exists(options.out) and os.path.samefile(capture, options.out):
            raise Stopped(2, '%s is read, and OUT too: the last word is the file to be written' % capture)
        judge_kind(capture)
    folder = os.path.dirname(os.path.abspath(options.out))
    if not os.path.isdir(folder):
        raise Stopped(3, '%s: no such folder' % folder)


def judge_kind(capture):
    """Refuses a pcap or pcapng file."""
    with faults_of(capture), open(capture, 'rb') as file:
        front = file.read(4)
    if front in PCAPS:
        raise Stopped(1, '%s is a pcap file, and a capture is wanted: nbt-look --lines --no-ticks makes one of it' % capture)


def judge_out(options):
    """Refuses an OUT that is no place for a table, or is one that may not be replaced."""
    out = options.out
    if os.path.islink(out):
        raise Stopped(2, '%s is a link: it is left as it is, and so is what it leads to' % out)
    if not os.path.exists(out):
        return
    with faults_of(out):
        if not is_table(out):
            raise Stopped(2, '%s is there, and is no saved table: it is left as it is' % out)
    if not options.force and os.path.getsize(out):
        raise Stopped(2, '%s is there, and is a saved table: --force replaces it' % out)


def is_table(path):
    """Whether a file may be replaced by a saved table: it is one, or is empty."""
    if not os.path.isfile(path):
        return False
    with open(path, 'rb') as file:
        return file.read(6).lower() in (b'', b'4e4254')

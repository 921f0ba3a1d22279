"""The page with a capture in it, for a browser: `make page` makes the page."""
import base64
import contextlib
import html
import os
import sys

from nbt_pcap.arguments import title_of
from nbt_pcap.process import Stopped, faults_of
from nbt_pcap.replacing import keep_mode, new_file, standing

HERE = os.path.dirname(os.path.abspath(__file__))
# Where the page is: beside the installed tools, or where `make page` puts it.
PLACES = (os.path.join(HERE, '..', 'nbt.html'), os.path.join(HERE, '..', '..', 'out', 'nbt.html'))
GIVEN = '<script type="application/octet-stream" id="given" data-name=""></script>'
# How many bytes of a capture a page is given: it grows by a third more.
MOST = 20_000_000
PREFIX = '.nbt-look.'


def write(options):
    """Writes the page; answers the exit status."""
    place = next(filter(os.path.exists, PLACES), None)
    if place is None:
        raise Stopped(3, "the page isn't there: make page makes it, make install puts it beside this tool")
    with open(place, encoding='utf-8') as file:
        text = file.read()
    if text.count(GIVEN) != 1:
        raise Stopped(3, f'{place}: it is of another version, and has no room for a capture')
    with faults_of(options.html):
        before = judged(options.html, options.file)
    data = read(options.file)
    name = 'standard input' if options.file == '-' else os.path.basename(options.file)
    given = f'data-name="{html.escape(name)}">{base64.b64encode(data).decode()}</script>'
    with faults_of(options.html):
        put(options.html, text.replace(GIVEN, GIVEN.replace('data-name=""></script>', given)), before)
    return 0


def read(path):
    title = title_of(path)
    with faults_of(title), sys.stdin.buffer if path == '-' else open(path, 'rb') as file:
        data = file.read(MOST + 1)
    if len(data) > MOST:
        raise Stopped(2, f'{title}: it has more than {MOST} bytes, which a page is given at most: tshark -r FILE -Y FILTER -w PART makes it shorter')
    return data


def judged(path, given):
    """What the system says of the file at a path, None where nothing stands there; Stopped where it is no file that may be written anew."""
    found = standing(path)
    if found is None:
        return None
    with contextlib.suppress(OSError):
        if os.path.samestat(found, os.fstat(0) if given == '-' else os.stat(given)):
            raise Stopped(3, f'{path}: it is the capture, and stays as it is')
    return found


def put(path, text, before):
    """Writes the file whole. The mode of one before it stays."""
    with new_file(os.path.dirname(os.path.abspath(path)), PREFIX, encoding='utf-8', errors='surrogateescape') as file:
        file.write(text)
        file.flush()
        keep_mode(file.fileno(), before)
        os.replace(file.name, path)

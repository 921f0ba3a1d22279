"""Words of a command line, and what can be said of a file before tshark reads it."""
import argparse
import os
import stat

from .header import SERVICES
from .process import Stopped

# How the text of a capture begins.
CAPTURE_FRONTS = (b'# ', b'137 ', b'138 ', b'139 ', b'tick')


class Words(argparse.ArgumentParser):
    def error(self, message):
        raise Stopped(2, '%s; --help says more' % message)


def mapped(text):
    """A service and its port: 137=20137."""
    service, _, port = text.partition('=')
    if service not in map(str, SERVICES) or not (port.isascii() and port.isdigit() and 1 <= int(port) <= 65_535):
        raise argparse.ArgumentTypeError('a service and a port are wanted, as 137=20137')
    return int(port), int(service)


def judge_ports(ports):
    """Refuses a port that stands for two services."""
    services = {}
    for port, service in ports:
        if services.setdefault((service == 139, port), service) != service:
            raise Stopped(2, '--port: %d stands for %d and %d' % (port, services[False, port], service))


def is_text(path, closed):
    """Whether a file begins as the text of a capture does. Refuses what is empty, and what can't be opened."""
    title = title_of(path)
    if path == '-' and 0 in closed:
        raise Stopped(3, 'standard input is closed')
    try:
        status = os.fstat(0) if path == '-' else os.stat(path)
        if stat.S_ISDIR(status.st_mode):
            raise Stopped(3, '%s: it is a directory' % title)
        begin = begin_of(path) if stat.S_ISREG(status.st_mode) else b''
    except (OSError, ValueError) as error:
        raise Stopped(3, '%s: %s' % (title, getattr(error, 'strerror', None) or error)) from error
    if stat.S_ISREG(status.st_mode) and status.st_size == 0:
        raise Stopped(2, '%s: the file holds no packets: it is empty' % title)
    return begin.startswith(CAPTURE_FRONTS)


def title_of(path):
    return 'standard input' if path == '-' else path


def begin_of(path):
    """The first bytes of a regular file, of which nothing is taken."""
    if path == '-':
        return os.pread(0, 4, 0)
    with open(path, 'rb', buffering=0) as file:
        return os.pread(file.fileno(), 4, 0)

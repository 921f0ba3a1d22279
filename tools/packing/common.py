"""What is in packages: the version and its date, pages, files of the bindings."""
import calendar
import os
import re

from .files import TOP, bytes_of, fail, text_of

SUMMARY = 'NetBIOS packets over TCP and UDP (RFC 1001, RFC 1002)'


def version_and_date():
    """Those of CHANGELOG.md's first heading."""
    found = re.search(r'^## (\d+\.\d+\.\d+), (\d{4})-(\d\d)-(\d\d)$', text_of('CHANGELOG.md'), re.M)
    if not found:
        fail("CHANGELOG.md's first heading is no version with a date")
    return found[1], tuple(map(int, found.groups()[1:]))


VERSION, DATE = version_and_date()
SECONDS = calendar.timegm((*DATE, 0, 0, 0))
os.environ['SOURCE_DATE_EPOCH'] = str(SECONDS)


def page_of(language):
    """A package's README.md: what docs/CALLING.md says of a language."""
    found = re.search(rf'^## From {language}\n\n(.*?)(?=^## |\Z)', text_of('docs', 'CALLING.md'), re.M | re.S)
    return f'# nbt for {language}\n\n{SUMMARY}.\n\n{found[1].strip()}\n' if found else fail(f'docs/CALLING.md says nothing of {language}')


def glibc_of(*files):
    """The least glibc that has all that libraries or programs need."""
    found = re.findall(rb'GLIBC_(\d+)\.(\d+)', b''.join(map(bytes_of, files)))
    return '.'.join(map(str, max((int(a), int(b)) for a, b in found)))


def own(*folder, suffixes=()):
    """The files of a folder of the repository, by name."""
    place = os.path.join(TOP, *folder)
    return {name: bytes_of(os.path.join(place, name)) for name in sorted(os.listdir(place)) if name.endswith(tuple(suffixes))}


def metadata():
    """What importlib.metadata says of the package for Python."""
    return (f'Metadata-Version: 2.1\nName: nbt\nVersion: {VERSION}\nSummary: {SUMMARY}\nRequires-Python: >=3.10\n'
            f'Description-Content-Type: text/markdown\n\n{page_of("Python")}').encode()

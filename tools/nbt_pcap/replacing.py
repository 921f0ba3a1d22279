"""Files that are written whole, by a name that nobody has, or not at all."""
import contextlib
import os
import stat
import tempfile

from .process import Stopped

OTHERS = {stat.S_IFLNK: 'a link', stat.S_IFDIR: 'a folder'}
UMASK = os.umask(0o077)
os.umask(UMASK)


def standing(path):
    """What the system says of the file at a path, None where nothing stands there; Stopped where it is no regular file."""
    try:
        found = os.lstat(path)
    except FileNotFoundError:
        return None
    if not stat.S_ISREG(found.st_mode):
        raise Stopped(3, f'{path}: it is {OTHERS.get(stat.S_IFMT(found.st_mode), "no regular file")}, and stays as it is')
    return found


@contextlib.contextmanager
def new_file(folder, prefix, **how):
    """A file in a folder, which goes unless it was moved."""
    with tempfile.NamedTemporaryFile('w', dir=folder, prefix=prefix, delete=False, **how) as file:
        try:
            yield file
        finally:
            with contextlib.suppress(FileNotFoundError):
                os.unlink(file.name)


def keep_mode(number, before):
    """Gives an open file the mode of the one before it, or of a new one."""
    os.fchmod(number, stat.S_IMODE(before.st_mode) if before else 0o666 & ~UMASK)

"""A tool as a process: its standard streams, what it says on standard error, and its exit status."""
import contextlib
import errno
import os
import signal
import sys

NAME = os.path.basename(sys.argv[0])
INTERRUPTED = 130
# What ends a tool besides Ctrl-C.
ENDING = signal.SIGTERM, signal.SIGHUP, signal.SIGQUIT


class Stopped(Exception):
    """Why a tool ends before its work is done, and the exit status."""

    def __init__(self, status, text):
        super().__init__(text)
        self.status = status


@contextlib.contextmanager
def faults_of(what):
    """What goes wrong with a file or a program, as the reason to stop."""
    try:
        yield
    except OSError as error:
        raise Stopped(3, f'{what}: {error.strerror}') from error


class ReaderEnded(Stopped):
    """Whoever reads standard output takes nothing more."""

    def __init__(self):
        super().__init__(3, 'the program that reads this ended')


def harmless(text):
    """A text of which nothing acts on a terminal: what can't be printed, as a name of a file may have it, is shown by its number."""
    if isinstance(text, bytes):
        text = text.decode(errors='surrogateescape')
    return ''.join(each if each.isprintable() else number_of(each) for each in text)


def number_of(character):
    """An escape as Python has it; of a byte that isn't UTF-8 that of the byte."""
    if '\udc80' <= character <= '\udcff':
        return '\\x%02x' % (ord(character) - 0xdc00)
    return character.encode('unicode_escape').decode()


def say(text, name=True, number=2):
    """A line on standard error, or on a copy of it."""
    try:
        os.write(number, (harmless('%s: ' % NAME if name else '') + harmless(text) + '\n').encode())
    except OSError:
        pass


def write(data):
    """Writes some of these bytes on standard output, and answers how many."""
    try:
        return os.write(1, data)
    except BrokenPipeError:
        raise ReaderEnded from None
    except OSError as error:
        raise Stopped(3, 'standard output: %s' % error.strerror) from error


def write_help(text):
    """Writes a tool's help, in which NAME stands for the name that it was called by."""
    write_all((text.replace('NAME', NAME).strip() + '\n').encode(errors='surrogateescape'))


def write_all(data):
    data = memoryview(data)
    while data:
        data = data[write(data):]


def open_streams():
    """Puts /dev/null where a standard stream is closed, so that no other file gets its number. Answers which were."""
    closed = []
    for number in (0, 1, 2):
        try:
            os.fstat(number)
        except OSError:
            closed.append(number)
            os.open(os.devnull, os.O_RDWR)
    sys.stderr = sys.stderr or os.fdopen(2, 'w', closefd=False)
    return closed


def open_closed_streams():
    """The same for a tool that prints."""
    closed = open_streams()
    if 1 in closed:
        raise Stopped(3, 'standard output is closed')
    return closed


def run(main):
    """Runs a tool, whose status `main` answers. Whatever ends it gives one line, and no traceback."""
    try:
        signal.signal(signal.SIGINT, signal.default_int_handler)
        signal.pthread_sigmask(signal.SIG_UNBLOCK, [signal.SIGINT])
        status = main(open_closed_streams())
    except Stopped as why:
        say(str(why))
        status = why.status
    except KeyboardInterrupt:
        say('interrupted')
        status = INTERRUPTED
    except MemoryError:
        say('memory')
        status = 3
    except OSError as error:
        say(words_of(error))
        status = 3
    signal.signal(signal.SIGINT, signal.SIG_IGN)
    sys.exit(status)


def heeded(signals):
    """Those of these signals that weren't ignored when the tool began: what nohup, or a shell, has it ignore stays ignored."""
    return [each for each in signals if signal.getsignal(each) is not signal.SIG_IGN]


def heed_signals():
    """From here on these signals stop the tool, which then takes away what it made."""
    for each in heeded(ENDING):
        signal.signal(each, stop)


def stop(number, _frame):
    raise Stopped(128 + number, 'ended by a signal')


def words_of(error):
    """What an error of a device says, with the name of the file where it has one."""
    words = error.strerror or errno.errorcode.get(error.errno, str(error))
    return '%s: %s' % (os.fsdecode(error.filename), words) if isinstance(error.filename, (str, bytes)) else words

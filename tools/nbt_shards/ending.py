"""How nbt-dask ends, how long it waits, and how far it is, on a terminal."""
import contextlib
import os
import signal
import sys
import threading

from nbt_pcap import process
from nbt_pcap.process import Stopped
from nbt_pcap.progress import Line

# How many seconds the end of a run may take, once all is said.
LAST = 10


class Progress(Line):
    """How many are done."""

    def begin(self, quiet):
        self.wanted = not quiet and os.isatty(2)

    def show(self, count, of, what):
        if self.is_due():
            self.put('%d of %d %s' % (count, of, what))


progress = Progress()


def say(text):
    """A line on standard error."""
    progress.erase()
    process.say(str(text), number=progress.number)


@contextlib.contextmanager
def limited(seconds, text):
    """Ends a wait after so many seconds, for this reason."""
    def end(_number, _frame):
        raise Stopped(3, text)
    signal.signal(signal.SIGALRM, end)
    signal.setitimer(signal.ITIMER_REAL, seconds)
    try:
        yield
    finally:
        signal.setitimer(signal.ITIMER_REAL, 0)


def run(main):
    """Runs a tool; a failure is one line on standard error, and leaves OUT as it was. Ctrl-C, which waited until here, ends without a word
    once it is over."""
    try:
        process.open_streams()
        process.heed_signals()
        signal.pthread_sigmask(signal.SIG_UNBLOCK, [signal.SIGINT])
        main()
        progress.erase()
        status = 0
    except Stopped as why:
        say(why)
        status = why.status
    except OSError as error:
        say(process.words_of(error))
        status = 3
    except KeyboardInterrupt:
        say('interrupted')
        status = process.INTERRUPTED
    finally:
        signal.signal(signal.SIGINT, signal.SIG_DFL)
    leave(status)


def leave(status):
    """Ends the process, however long its other threads would take."""
    late = threading.Timer(LAST, os._exit, [status])
    late.daemon = True
    late.start()
    sys.exit(status)

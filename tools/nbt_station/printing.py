"""What a station prints, without waiting for whoever reads it: deliveries by a thread, and words where they can be written."""
import os
import queue
import select
import threading

from nbt_pcap.process import harmless

NAME = 'nbt-station'
# How many bytes of lines may wait for the reader of standard output.
ROOM = 8 << 20
# How long words wait for the reader of standard error, in seconds.
MOMENT = 0.1


def say(text):
    """A line on standard error, which is left out where its reader stands still."""
    try:
        if select.select([], [2], [], MOMENT)[1]:
            os.write(2, f'{NAME}: {harmless(str(text))}\n'.encode())
    except OSError:
        pass


class Printer:
    """Lines on their way to standard output. A thread writes them; `failed` is called there with the error that ends it.

    `put`, `left_out` and `bytes_put` are of the thread that gives lines, `printed` and `bytes_done` of the one that writes.
    """

    def __init__(self, failed):
        self.failed = failed
        self.lines = queue.SimpleQueue()
        self.count = self.left_out = self.bytes_put = 0
        self.printed = self.bytes_done = 0
        self.thread = threading.Thread(target=self.write_all, daemon=True)
        self.thread.start()

    def has_room(self):
        return self.bytes_put - self.bytes_done < ROOM

    def put(self, line):
        """Takes a line, or leaves it out where too many wait; answers whether it was taken."""
        if not self.has_room():
            self.left_out += 1
            return False
        data = f'{line}\n'.encode()
        self.count += 1
        self.bytes_put += len(data)
        self.lines.put(data)
        return True

    def write_all(self):
        """Writes lines, in the thread of its own."""
        try:
            while (data := self.lines.get()) is not None:
                self.bytes_done += self.write(data)
                self.printed += 1
        except OSError as error:
            self.failed(error)

    def write(self, data):
        """Writes these bytes, and answers how many they are."""
        written = 0
        while written < len(data):
            written += os.write(1, data[written:])
        return written

    def finish(self, seconds):
        """Lets the lines that wait be written, for so long at most; answers how many deliveries weren't printed."""
        self.lines.put(None)
        self.thread.join(seconds)
        return self.count - self.printed + self.left_out

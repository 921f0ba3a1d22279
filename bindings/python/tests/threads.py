"""Eight threads and one station: 20,000 payloads are taken. Among them the table is saved, and the station is closed and
replaced by another: by one thread while the others go on, and by all at once. Prints how many of its own each was handed."""
import sys
import threading

import nbt

THREADS, TAKES = 8, 2_500
# After how many payloads a thread saves the table, and after how many the station was closed by all, and by each.
SAVED, CLOSED = 50, 250


class Shared:
    """A station that is replaced now and then."""

    def __init__(self):
        self.replace()

    def replace(self):
        self.station = nbt.Station(['FRED<20>'], '10.0.0.9', keys=2**32 - 1)

    def close(self, before=lambda: None):
        """Closes the station, which another replaces first."""
        old = self.station
        before()
        self.replace()
        old.close()

    def call(self, name, *words):
        """A call on the station, or on the one that replaced it."""
        while True:
            try:
                return getattr(self.station, name)(*words)
            except ValueError as closed:
                if str(closed) != 'the station is closed':
                    raise


def payload(thread, number):
    """A whole datagram that no other one is like, and its data."""
    data = b'%d of %d ' % (number, thread) * (1 + number % 50)
    return nbt.Datagram.write(nbt.DatagramType.UNIQUE, number, 0x0a000000 + thread, 138, 'JOE<00>', 'FRED<20>', data, 1_400)[0], data


def run(shared, thread, handed, everybody):
    """Takes the payloads of a thread, a moment of 10 ms after each."""
    everybody.wait()
    for number in range(TAKES):
        packet, data = payload(thread, number)
        taken = shared.call('take', 10 * number, packet)
        it = taken.delivery
        handed[thread] += it is not None and (int(it.address), it.identifier, it.data) == (0x0a000000 + thread, number, data)
        if number % SAVED == 0:
            assert shared.call('save')[:4] == b'NBT2'
            shared.call('tick', 10 * number)
        if number % CLOSED == 0:
            shared.close(everybody.wait)
        elif number % CLOSED == 20 * thread + 10:
            shared.close()


def main():
    sys.setswitchinterval(1e-5)
    shared, handed, everybody = Shared(), [0] * THREADS, threading.Barrier(THREADS)
    threads = [threading.Thread(target=run, args=(shared, each, handed, everybody)) for each in range(THREADS)]
    for each in threads:
        each.start()
    for each in threads:
        each.join()
    print(*handed)


if __name__ == '__main__':
    main()

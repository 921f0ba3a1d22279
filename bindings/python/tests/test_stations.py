"""Stations, and tables: names in lists of any kind, keys, usual limits; calls on one station by several threads, and within another call; copies of
a station, and its end."""
import copy
import gc
import ipaddress
import os
import pickle
import signal
import subprocess
import sys
import unittest
from unittest import mock

import nbt
from nbt import Outcome, Status, stations

HERE = os.path.dirname(os.path.abspath(__file__))
PATIENCE, EMPTY = 100, b'NBT2\0\0\0\0'
# Stations that were never made, that are left when Python ends, also in a ring, and that are called then.
ENDS = '''
import threading
import nbt
nbt.Station.__new__(nbt.Station)
for names, keys in (['FRED'], 1), (['FRED<20>'], -1):
    try:
        nbt.Station(names, '10.0.0.9', keys=keys)
    except ValueError:
        pass
left = nbt.Station(['FRED<20>'], '10.0.0.9')
ring = [nbt.Station(['FRED<20>'], '10.0.0.9')]
ring.append(ring)
def run():
    while True:
        left.save()
threading.Thread(target=run, daemon=True).start()
print('done')
'''
# A station whose calls are interrupted, wherever that falls, and a thread for which its turn comes all the same.
INTERRUPTED = '''
import random
import signal
import threading
import nbt
station = nbt.Station(['FRED<20>'], '10.0.0.9')
def interrupt(*_):
    raise KeyboardInterrupt
signal.signal(signal.SIGALRM, interrupt)
for _ in range(2_000):
    try:
        signal.setitimer(signal.ITIMER_REAL, random.uniform(1e-5, 1e-4))
        while True:
            station.tick(0)
    except KeyboardInterrupt:
        pass
last = threading.Thread(target=lambda: print(station.save()), daemon=True)
last.start()
last.join(10)
'''


def payload(identifier):
    data = b'%d' % identifier
    return nbt.Datagram.write(nbt.DatagramType.UNIQUE, identifier, '10.0.0.5', 138, 'JOE<00>', 'FRED<20>', data)[0]


def python(*words):
    """What Python prints, on both streams, and its status."""
    done = subprocess.run([sys.executable, *words], stdout=subprocess.PIPE, stderr=subprocess.STDOUT, timeout=PATIENCE, text=True)
    return done.returncode, done.stdout


class Threads(unittest.TestCase):
    def test_many_takes(self):
        self.assertEqual(python(os.path.join(HERE, 'threads.py')), (0, ' '.join(['2500'] * 8) + '\n'))

    def test_interrupted_calls(self):
        self.assertEqual(python('-c', INTERRUPTED), (0, f'{EMPTY}\n'))


class Reentry(unittest.TestCase):
    def setUp(self):
        self.station = nbt.Station(['FRED<20>'], '10.0.0.9')
        self.addCleanup(self.station.close)
        self.refused = []
        self.addCleanup(signal.signal, signal.SIGUSR1, signal.signal(signal.SIGUSR1, self.handle))

    def handle(self, *_):
        """A signal handler that makes each call."""
        for call, words in ((self.station.take, (0, payload(2))), (self.station.tick, (0,)), (self.station.save, ()),
                            (self.station.absorb, (0, EMPTY)), (self.station.close, ())):
            try:
                call(*words)
            except nbt.ReentryError as refused:
                self.refused.append(str(refused))

    def test_signal_within_a_call(self):
        take = stations.TAKE

        def signalled(*words):
            status = take(*words)
            signal.raise_signal(signal.SIGUSR1)
            return status

        with mock.patch.object(stations, 'TAKE', signalled):
            taken = self.station.take(0, payload(1))
        self.assertEqual((taken.outcome, taken.delivery.data), (Outcome.DELIVERED, b'1'))
        self.assertEqual(self.refused, ['a call on this station is under way in the same thread'] * 5)
        self.assertEqual(self.station.take(0, payload(2)).delivery.data, b'2')

    def test_signal_between_calls(self):
        signal.raise_signal(signal.SIGUSR1)
        self.assertEqual(self.refused, [])
        self.assertRaisesRegex(ValueError, '^the station is closed$', self.station.save)


class Copies(unittest.TestCase):
    def test_refused(self):
        with nbt.Station(['FRED<20>'], '10.0.0.9') as station:
            for each in copy.copy, copy.deepcopy, pickle.dumps:
                with self.assertRaisesRegex(TypeError, "^a station can't be copied or pickled: save\\(\\) gives its table$"):
                    each(station)
            self.assertEqual(station.take(0, payload(1)).outcome, Outcome.DELIVERED)


class Ends(unittest.TestCase):
    def test_given_back_once(self):
        freed = []
        with mock.patch.object(stations, 'FREE', lambda handle: freed.append(handle.at)):
            for close in True, False:
                station = nbt.Station(['FRED<20>'], '10.0.0.9')
                if close:
                    station.close()
                del station
                gc.collect()
        self.assertEqual(len(freed), 2)
        self.assertTrue(all(freed))

    def test_nothing_is_said(self):
        self.assertEqual(python('-X', 'dev', '-c', ENDS), (0, 'done\n'))


class Names(unittest.TestCase):
    def refused(self, names):
        with self.assertRaises(nbt.NbtError) as caught:
            nbt.Station(names, '10.0.0.9')
        return caught.exception.status, caught.exception.at

    def test_too_many(self):
        names = ['N%d<20>' % i for i in range(255)]
        self.assertEqual(self.refused(names), (Status.TOO_MANY_NAMES, len(' '.join(names[:254])) + 1))
        nbt.Station(names[:254], '10.0.0.9').close()

    def test_names_that_joining_would_hide(self):
        for names, at in ([''], 0), ([''] * 2, 0), (['FRED<20>', ''], 9), (['FRED<20> JOE<00>'], 8), (['ANN<20>', 'FRED<20> '], 16):
            self.assertEqual(self.refused(names), (Status.BAD_TEXT, at))

    def test_lists(self):
        for text in ('FRED<20>', '', b'FRED<20>'):
            with self.assertRaisesRegex(TypeError, f'^names: {text!r} is one text; a list of them is wanted$'):
                nbt.Station(text, '10.0.0.9')
        with nbt.Station(iter(['FRED<20>']), '10.0.0.9') as station:
            self.assertEqual(station.save(), EMPTY)


class Stations(unittest.TestCase):
    def test_closed(self):
        station = nbt.Station(['FRED<20>'], '10.0.0.9')
        station.close()
        station.close()
        self.assertRaises(ValueError, station.save)
        self.assertRaises(ValueError, station.list)


class Tables(unittest.TestCase):
    def test_usual_limits(self):
        """Where nothing else is said, a table has room for 1,024 keys, and as many of one address; a longer one is listed, too."""
        tables = [b'NBT2' + count.to_bytes(4, 'big') + b''.join(bytes.fromhex('0a000005008a') + it.to_bytes(2, 'big') + b'\0' for it in range(count))
                  for count in (1_024, 1_025)]
        self.assertEqual(nbt.merge(EMPTY, memoryview(tables[0])), tables[0])
        with self.assertRaisesRegex(nbt.NbtError, '^second table: full$'):
            nbt.merge(EMPTY, tables[1])
        self.assertEqual(nbt.list_table(tables[1]).splitlines()[-1], '10.0.0.5:138/0400 spoilt')
        self.assertEqual(nbt.table_json(tables[1]).count('\n'), 1_025)

    def test_keys(self):
        address = ipaddress.IPv4Address('10.0.0.5')
        keys = [nbt.Key(address, port, identifier) for port in (137, 138) for identifier in (1, 2)]
        self.assertEqual(sorted(reversed(keys)), keys)
        self.assertEqual(len({*keys, nbt.Key(address, 137, 1)}), 4)

"""The package beside the header and the library: its calls and its version; refusals as values: copied, pickled, compared; and the statuses of
a newer library."""
import copy
import multiprocessing
import os
import pickle
import re
import subprocess
import sys
import unittest
from unittest import mock

import nbt
from nbt import Status
from nbt.library import LIBRARY, failure, found_at
from nbt.sessions import READ

HEADER = os.environ.get('NBT_HEADER', os.path.join(os.path.dirname(__file__), '..', '..', '..', 'include', 'nbt.h'))
PATIENCE = 60


def refused(call, *arguments):
    """What a call raises."""
    try:
        return call(*arguments)
    except nbt.NbtError as error:
        return error


ERRORS = [refused(nbt.spell, 'FRED'), refused(nbt.spell, 'A' * 16 + '<20>'), refused(nbt.SessionPacket.read, b'\0\0\0\x05he'),
          nbt.NbtError(130, None, 'too odd')]


class Library(unittest.TestCase):
    def setUp(self):
        with open(HEADER, encoding='utf-8') as lines:
            self.header = lines.read()

    def test_calls(self):
        for name in re.findall(r'^(?:uint32_t|void) (nbt_[a-z_]+)\(', self.header, re.MULTILINE):
            self.assertTrue(hasattr(LIBRARY, name), name)

    def test_version(self):
        wanted = re.search(r'^#define NBT_VERSION "(.*)"$', self.header, re.MULTILINE)[1]
        self.assertEqual(nbt.__version__, wanted)

    def test_the_file(self):
        """What `python3 -m nbt` prints."""
        file = os.path.realpath(os.environ['NBT_LIBRARY']) if 'NBT_LIBRARY' in os.environ else found_at()
        done = subprocess.run([sys.executable, '-m', 'nbt'], capture_output=True, text=True)
        self.assertEqual((done.returncode, done.stderr, done.stdout.count('\n')), (0, '', 1))
        version, found = done.stdout.rstrip('\n').split(', ')
        self.assertEqual((version, os.path.realpath(found)), (f'nbt {nbt.__version__}', file))
        with open('/dev/full', 'w', encoding='utf-8') as full:
            done = subprocess.run([sys.executable, '-m', 'nbt'], stdout=full, stderr=subprocess.PIPE, text=True)
        self.assertEqual((done.returncode, done.stderr), (3, 'nbt: standard output: No space left on device\n'))

    def test_other_libraries(self):
        """A library that lacks a call, as the C library lacks all, and one that isn't there."""
        for path, words in (('libc.so.6', 'the library is of another version than this package; install both of one'),
                            ('/nowhere/libnbt.so.0', 'NBT_LIBRARY may name the file')):
            done = subprocess.run([sys.executable, '-c', 'import nbt'], env={**os.environ, 'NBT_LIBRARY': path}, capture_output=True, text=True)
            self.assertEqual(done.returncode, 1)
            last = done.stderr.splitlines()[-1]
            self.assertTrue(last.startswith('ImportError: ') and path in last and last.endswith(words), last)


class Values(unittest.TestCase):
    def test_pickled_and_copied(self):
        for error in ERRORS:
            copies = [pickle.loads(pickle.dumps(error, protocol)) for protocol in range(pickle.HIGHEST_PROTOCOL + 1)]
            for each in [*copies, copy.copy(error), copy.deepcopy(error)]:
                with self.subTest(repr(error)):
                    self.assertIs(type(each), type(error))
                    self.assertEqual((each.status, each.number, each.at, each.words, str(each)),
                                     (error.status, error.number, error.at, error.words, str(error)))
        self.assertEqual(copy.copy(ERRORS[2]).missing, 3)

    def test_other_processes(self):
        with multiprocessing.Pool(1) as pool:
            found = pool.map_async(nbt.Datagram.read, [b'x'])
            with self.assertRaises(nbt.NbtError) as caught:
                found.get(PATIENCE)
        self.assertEqual((caught.exception.status, caught.exception.at), (Status.TRUNCATED, 1))

    def test_equal(self):
        for error in ERRORS:
            other = copy.copy(error)
            self.assertEqual(error, other)
            self.assertEqual(hash(error), hash(other))
        self.assertEqual(len(set(ERRORS)), len(ERRORS))
        self.assertNotEqual(refused(nbt.spell, 'FRED'), refused(nbt.spell, 'JOE'))
        self.assertNotEqual(ERRORS[0], 10)

    def test_taken(self):
        """What became of a payload that is refused, by each of two stations."""
        with nbt.Station(['FRED<20>'], '10.0.0.9') as one, nbt.Station(['FRED<20>'], '10.0.0.9') as other:
            found, wanted = one.take(0, b'x'), other.take(0, b'x')
        self.assertEqual(found.refusal.status, Status.TRUNCATED)
        self.assertEqual(found, wanted)
        self.assertEqual(pickle.loads(pickle.dumps(found)), wanted)
        self.assertEqual(copy.deepcopy(found), wanted)


class NewerLibrary(unittest.TestCase):
    def test_unknown_status(self):
        with mock.patch.object(READ, 'call', lambda *words: 130), self.assertRaises(nbt.NbtError) as caught:
            nbt.SessionPacket.read(b'\x85\0\0\0')
        error = caught.exception
        self.assertEqual((error.status, error.number, error.at), (Status.UNKNOWN_STATUS, 130, None))
        self.assertRegex(str(error), '^status 130: [a-z ]+$')

    def test_its_words(self):
        with mock.patch('nbt.library.STATUS_TEXT', lambda status: b'too odd'):
            self.assertEqual(str(failure(130, 7)), 'status 130: too odd')

    def test_known_statuses(self):
        for each in Status:
            error = nbt.NbtError(each, None, 'words')
            self.assertEqual((error.status, error.number, str(error)), (each, each.value, 'words'))

"""Buffers of any kind, read from an offset on without a copy; streams; and what isn't a buffer, a number or a text."""
import mmap
import re
import tempfile
import time
import tracemalloc
import unittest
from array import array

from unittest import mock

import nbt
from nbt import SessionType, Status, datagrams, sessions

ALIVE, HELLO = b'\x85\0\0\0', b'\0\0\0\x05hello'
CLAIM = nbt.registration(2, 'FRED<20>', 300_000, 0, '10.0.0.6', broadcast=True)
DATAGRAM = nbt.Datagram.write(nbt.DatagramType.GROUP, 10, '10.0.0.5', 138, 'JOE<00>', 'FRED<20>', b'hello')[0]
CALL = nbt.SessionPacket.write(SessionType.REQUEST, DATAGRAM[14:82])
RUNS, SLACK = 3, 3


def mapped(data):
    """A file with these bytes, mapped, which can't be written."""
    with tempfile.TemporaryFile() as file:
        file.write(data)
        file.flush()
        return mmap.mmap(file.fileno(), len(data), access=mmap.ACCESS_READ)


KINDS = (bytes, bytearray, memoryview, lambda data: memoryview(bytearray(data)), lambda data: array('B', data),
         lambda data: array('H', data), mapped)


class Offsets(unittest.TestCase):
    def test_kinds(self):
        for kind in KINDS:
            buffer = kind(b'xx' + HELLO + DATAGRAM + CLAIM + b'yy')
            with self.subTest(type(buffer).__name__):
                packet = nbt.SessionPacket.read(buffer, offset=2)
                self.assertEqual((packet.type, packet.body, packet.used), (SessionType.MESSAGE, b'hello', 9))
                self.assertEqual(nbt.Datagram.read(buffer, offset=11), nbt.Datagram.read(DATAGRAM))
                claim = 11 + len(DATAGRAM)
                for one in nbt.ServicePacket.read, nbt.ServicePacket.read_front:
                    self.assertEqual(one(buffer, offset=claim), one(CLAIM))
                for one, start in (nbt.SessionPacket.read_front, 2), (nbt.Datagram.read_front, 11):
                    self.assertEqual(one(buffer, offset=start), one(bytes(buffer)[start:]))
                self.assertEqual(nbt.text(kind(DATAGRAM[14:48])), 'JOE<00>')

    def test_every_second_byte(self):
        """A view whose bytes don't stand in a row."""
        view = memoryview(bytes(each for byte in HELLO for each in (byte, 0xff)))[::2]
        self.assertEqual(nbt.SessionPacket.read(view).body, b'hello')
        self.assertEqual(nbt.show(139, view), nbt.show(139, HELLO))

    def test_places_count_from_the_offset(self):
        for offset in (0, 3):
            with self.assertRaises(nbt.NbtError) as caught:
                nbt.Datagram.read(b'xxx'[:offset] + DATAGRAM[:60], offset)
            self.assertEqual((caught.exception.status, caught.exception.at), (Status.TRUNCATED, 60))

    def test_outside(self):
        for kind in KINDS:
            buffer = kind(ALIVE)
            with self.assertRaises(nbt.MoreNeeded):
                nbt.SessionPacket.read(buffer, 4)
            for call in nbt.SessionPacket.read, nbt.ServicePacket.read, nbt.ServicePacket.read_front:
                for offset in (-1, 5):
                    self.assertRaisesRegex(ValueError, f'^offset: {offset} lies outside of 4 bytes$', call, buffer, offset)
        for empty in (b'', bytearray(), array('H')):
            self.assertRaises(nbt.MoreNeeded, nbt.SessionPacket.read, empty)

    def test_buffers_are_given_back(self):
        buffer = bytearray(ALIVE + b'\x86')
        stream = nbt.SessionPacket.stream(buffer)
        next(stream)
        buffer += b'\0\0\0'
        self.assertRaises(nbt.NbtError, next, stream)
        del buffer[:]

    def test_nothing_else_is_copied(self):
        """The peak of Python's memory over a read of a few bytes in a buffer of a megabyte."""
        for kind in KINDS:
            buffer = kind(bytes(1 << 19) + CLAIM + HELLO + DATAGRAM + bytes(1 << 19))
            for call, offset in ((nbt.ServicePacket.read, 1 << 19), (nbt.SessionPacket.read, (1 << 19) + len(CLAIM)),
                                 (nbt.Datagram.read, (1 << 19) + len(CLAIM + HELLO))):
                call(buffer, offset)
                tracemalloc.start()
                call(buffer, offset)
                _, peak = tracemalloc.get_traced_memory()
                tracemalloc.stop()
                with self.subTest(f'{call.__qualname__} of {type(buffer).__name__}'):
                    self.assertLess(peak, 1 << 14)


class Changes(unittest.TestCase):
    def test_judged_bytes_are_answered(self):
        """What a read answers is of the bytes that it judged, whatever others write to the buffer meanwhile."""
        other = nbt.Datagram.write(nbt.DatagramType.GROUP, 11, '10.0.0.6', 138, 'ANN<00>', 'MARY<20>', b'HELLO')[0]
        long = nbt.SessionPacket.write(SessionType.MESSAGE, bytes(5_000)) + bytes(95_000)
        longer = nbt.SessionPacket.write(SessionType.MESSAGE, bytes(100_000))
        for reader, call, before, after in ((sessions.READ, nbt.SessionPacket.read, long, longer), (datagrams.READ, nbt.Datagram.read, DATAGRAM, other),
                                            (sessions.READ, nbt.SessionPacket.read, CALL, b'\0' + CALL[1:4] + bytes(68))):
            for kind in bytearray, lambda data: memoryview(bytearray(data)), lambda data: array('B', data):
                buffer, judge = kind(before), reader.call

                def judged(*words):
                    status = judge(*words)
                    memoryview(buffer)[:] = kind(after)
                    return status

                with self.subTest(f'{call.__qualname__} of {type(buffer).__name__}'), mock.patch.object(reader, 'call', judged):
                    self.assertIn(call(buffer), (call(before), call(after)))

    def test_longest(self):
        """The longest packets of a buffer that may change, and one that lacks a byte."""
        message = nbt.SessionPacket.write(SessionType.MESSAGE, bytes(0x1ffff))
        head = b'\x11\x02\0\1\x0a\0\0\5\0\x8a\xff\xff\0\0'
        datagram = head + DATAGRAM[14:82] + bytes(0xffff - 68)
        for call, packet, missing in ((nbt.SessionPacket.read, message, nbt.MoreNeeded), (nbt.Datagram.read, datagram, nbt.NbtError)):
            for length in 4_096, len(packet) - 1:
                self.assertRaises(missing, call, bytearray(packet[:length]))
            for rest in b'', bytes(100):
                self.assertEqual(call(bytearray(packet + rest)), call(packet))


class Streams(unittest.TestCase):
    def test_what_is_left(self):
        for rest, missing in ((b'', 0), (b'\x85', 3), (HELLO[:6], 3), (ALIVE[:3], 1)):
            for kind in (bytes, bytearray, memoryview, mapped):
                stream = nbt.SessionPacket.stream(kind(b'x' + HELLO + ALIVE + rest), offset=1)
                found = [(packet.type, packet.body) for packet in stream]
                self.assertEqual(found, [(SessionType.MESSAGE, b'hello'), (SessionType.KEEPALIVE, b'')])
                self.assertEqual((stream.offset, stream.left, stream.missing), (14, len(rest), missing))

    def test_no_packet(self):
        stream = nbt.SessionPacket.stream(HELLO + b'\x86\0\0\0' + HELLO)
        self.assertEqual(next(stream).body, b'hello')
        for _ in range(2):
            with self.assertRaises(nbt.NbtError) as caught:
                next(stream)
            self.assertEqual((caught.exception.status, stream.offset, stream.left), (Status.UNKNOWN_TYPE, 9, 13))

    def test_linear(self):
        """A packet of a stream of a hundred times the length costs at most a few times as much."""
        def cost(count):
            """The processor time of a packet."""
            buffer, began = bytearray(ALIVE * count), time.thread_time()
            self.assertEqual(sum(1 for _ in nbt.SessionPacket.stream(buffer)), count)
            return (time.thread_time() - began) / count

        one = min(cost(1_000) for _ in range(RUNS))
        for count in 10_000, 100_000:
            self.assertTrue(any(cost(count) < SLACK * one for _ in range(RUNS)), f'{count} packets')


class Words(unittest.TestCase):
    def test_no_number(self):
        for call, words in ((lambda: nbt.show(139.0, b''), 'port: 139.0'), (lambda: nbt.query('3', 'FRED<20>'), "identifier: '3'"),
                            (lambda: nbt.Station([], '10.0.0.9', 138.5), 'port: 138.5'),
                            (lambda: nbt.SessionPacket.read(ALIVE, 0.0), 'offset: 0.0'), (lambda: nbt.ServicePacket.read(CLAIM, 0.0), 'offset: 0.0')):
            with self.assertRaisesRegex(TypeError, f'^{words} is no whole number$'):
                call()

    def test_no_text(self):
        for call, words in ((lambda: nbt.spell(b'FRED<20>'), "text: b'FRED<20>'"), (lambda: nbt.query(3, None), 'name: None'),
                            (lambda: nbt.Station([b'FRED<20>'], '10.0.0.9'), "name: b'FRED<20>'"),
                            (lambda: nbt.Datagram.write(0x10, 1, 1, 1, b'JOE<00>', 'FRED<20>', b''), "source: b'JOE<00>'")):
            with self.assertRaisesRegex(TypeError, f'^{words} is no text$'):
                call()
        with self.assertRaises(nbt.NbtError) as caught:
            nbt.spell('FRED\udcff<20>')
        self.assertEqual((caught.exception.status, caught.exception.at), (Status.BAD_TEXT, 4))

    def test_no_address(self):
        for none in None, 3.5, []:
            for call in (lambda: nbt.registration(3, 'FRED<20>', 0, 0, none), lambda: nbt.Station([], none),
                         lambda: nbt.datagram_error(3, none, 138, 0x82)):
                with self.assertRaisesRegex(TypeError, f'^address: {re.escape(repr(none))} is none$'):
                    call()
        self.assertRaises(ValueError, nbt.Station, [], '10.0.0')

    def test_no_truth_value(self):
        for none in 'no', None, b'', []:
            for call in (lambda: nbt.query(3, 'FRED<20>', none), lambda: nbt.node_status(3, 'FRED<20>', broadcast=none),
                         lambda: nbt.registration(3, 'FRED<20>', 0, 0, 0, none), lambda: nbt.refresh(3, 'FRED<20>', 0, 0, 0, none),
                         lambda: nbt.release(3, 'FRED<20>', 0, 0, none)):
                with self.assertRaisesRegex(TypeError, f'^broadcast: {re.escape(repr(none))} is neither True nor False$'):
                    call()
        self.assertEqual(nbt.query(3, 'FRED<20>', 1), nbt.query(3, 'FRED<20>', True))

    def test_no_buffer(self):
        for call in (nbt.text, nbt.ServicePacket.read, nbt.ServicePacket.read_front, nbt.Datagram.read_front, nbt.SessionPacket.read,
                     nbt.SessionPacket.read_front, lambda given: nbt.show(139, given)):
            self.assertRaisesRegex(TypeError, '^str is no buffer of bytes$', call, 'FRED')
        self.assertRaises(TypeError, nbt.text, 7)

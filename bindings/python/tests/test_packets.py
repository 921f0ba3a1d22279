"""Names in parts; packets of ports 138 and 139, and what is shown: types and flags, numbers that no packet has, and threads; lines of captures:
texts and bytes, with a line feed at the end or without."""
import unittest
from concurrent.futures import ThreadPoolExecutor

import nbt
from nbt import DatagramType, Line, LineKind, SessionType, Status
from nbt.library import SPARE

FRED = b'\x20EGFCEFEECACACACACACACACACACACACA\0'
HELLO = nbt.Datagram.write(DatagramType.GROUP, 10, '10.0.0.5', 138, 'JOE<00>', 'FRED<20>', b'hello')[0]


class Names(unittest.TestCase):
    def test_parts(self):
        """tests/library/answers.py joins those of other names again."""
        self.assertEqual(nbt.split_name('FRED<20>'), (b'FRED           ', 0x20, ''))
        self.assertEqual(nbt.split_name(r'\01\02__MSBROWSE__\02<01>.NETBIOS.a\2e'), (b'\1\2__MSBROWSE__\2', 1, r'NETBIOS.a\2e'))
        self.assertEqual(nbt.join_name(b'FRED', 0x20, 'NETBIOS.COM'), 'FRED<20>.NETBIOS.COM')
        for suffix in range(256):
            name = bytes([*range(suffix, 256), *range(suffix)][:15])
            self.assertEqual(nbt.split_name(nbt.join_name(name, suffix)), (name, suffix, ''))

    def test_no_parts(self):
        for error, said, *words in (
                (ValueError, '^characters: 16 ', bytes(16), 0), (ValueError, '^suffix: 256 ', b'', 256), (TypeError, '^str is no', 'FRED', 0),
                (nbt.NbtError, '^bad text 11$', b'FRED', 0x20, 'a..b'), (nbt.NbtError, '^text too long$', b'FRED', 0x20, 'a' * 64)):
            self.assertRaisesRegex(error, said, nbt.join_name, *words)
        self.assertRaisesRegex(nbt.NbtError, '^bad text 4$', nbt.split_name, 'FRED')


class Types(unittest.TestCase):
    def test_numbers_by_name(self):
        """RFC 1002 sections 4.2.1.1, 4.2.1.3, 4.2.18 and 4.4.1."""
        self.assertEqual({it.name: it.value for it in nbt.RecordType}, {'NS': 2, 'NULL': 10, 'NB': 32, 'NBSTAT': 33})
        query = nbt.ServicePacket.read(nbt.query(1, 'FRED<20>', broadcast=True))
        self.assertEqual((query.flags, query.questions[0].type), (nbt.HeaderFlag.RD | nbt.HeaderFlag.B, nbt.RecordType.NB))
        answer = nbt.ServicePacket.read(nbt.response(1, 'JOE<00>', b'', type=nbt.RecordType.NULL, flags=nbt.HeaderFlag.AA))
        self.assertEqual((answer.flags, answer.answers[0].type), (0x0400, 10))
        self.assertEqual((nbt.NameFlag.G | nbt.NameFlag.ACT, nbt.DatagramFlag.FIRST), (0x8400, nbt.Datagram.read(HELLO).flags))

    def test_flags(self):
        for flags, first, more in (0, False, False), (1, False, True), (2, True, False), (0xff, True, True):
            payload = HELLO[:1] + bytes([flags]) + HELLO[2:]
            for it in nbt.Datagram.read(payload), nbt.Datagram.read_front(payload)[0]:
                self.assertEqual((it.first, it.more), (first, more))

    def test_types(self):
        """The type of a packet is a member of its enumeration; at the front of none it may be another number."""
        for number in range(256):
            known = [number in list(it) for it in (DatagramType, SessionType)]
            fronts = nbt.Datagram.read_front(bytes([number]) + bytes(13))[0], nbt.SessionPacket.read_front(bytes([number]) + bytes(3))[0]
            self.assertEqual([it.type for it in fronts], [number] * 2)
            self.assertEqual([type(it.type) is int for it in fronts], [not it for it in known])
        self.assertIs(type(nbt.Datagram.read(HELLO).type), DatagramType)
        self.assertIs(type(nbt.SessionPacket.read(b'\x85\0\0\0').type), SessionType)

    def test_faults_of_fronts(self):
        """A front's fault is what `read` raises."""
        for reader, whole in (nbt.Datagram, HELLO), (nbt.SessionPacket, nbt.SessionPacket.write(SessionType.REQUEST, FRED * 2)):
            self.assertIsNone(reader.read_front(whole)[1])
            for data in *(whole[:length] for length in range(len(whole))), b'\x20' + whole[1:]:
                fault = reader.read_front(data)[1]
                with self.assertRaises(nbt.NbtError) as caught:
                    reader.read(data)
                self.assertEqual((fault, str(fault), type(fault)), (caught.exception, str(caught.exception), type(caught.exception)))
                self.assertIsNone(fault.__traceback__)

    def test_more(self):
        with self.assertRaises(nbt.MoreNeeded) as caught:
            nbt.SessionPacket.read(b'\0\0\0\x05he')
        self.assertEqual((caught.exception.status, caught.exception.missing, caught.exception.at), (Status.MORE, 3, 3))

    def test_an_empty_body(self):
        self.assertEqual(nbt.SessionPacket.write(SessionType.KEEPALIVE), b'\x85\0\0\0')


class Numbers(unittest.TestCase):
    def test_too_great(self):
        names, sender = ('JOE<00>', 'FRED<20>', b''), (1, '10.0.0.5', 138)
        for call, *words in (
                (nbt.Datagram.write, 0x111, *sender, *names), (nbt.Datagram.write, 0x11, 65_536, *sender[1:], *names),
                (nbt.Datagram.write, 0x11, 1, '10.0.0', 138, *names), (nbt.Datagram.write, 0x11, 1, '10.0.0.5', -1, *names),
                (nbt.datagram_error, 65_536, 0, 0, 0), (nbt.datagram_error, 0, -1, 0, 0), (nbt.datagram_error, 0, 0, 65_536, 0),
                (nbt.datagram_error, 0, 0, 0, 256), (nbt.datagram_query, 256, 1, 0, 0, 'FRED<20>'),
                (nbt.datagram_query, 0x14, 65_536, 0, 0, 'FRED<20>'), (nbt.datagram_query, 0x14, 1, 0, -1, 'FRED<20>'),
                (nbt.query, 65_536, 'FRED<20>'), (nbt.show, 65_536, b''), (nbt.json, 65_536, b''), (nbt.brief, 65_536, b''),
                (nbt.Datagram.read_front, bytes(12), 13), (nbt.SessionPacket.read_front, b'', 1)):
            with self.subTest(call=call.__name__, words=words), self.assertRaises(ValueError) as caught:
                call(*words)
            self.assertNotIsInstance(caught.exception, nbt.NbtError)
        self.assertRaises(TypeError, nbt.datagram_query, 0x14, 1, 0, 0, b'FRED<20>')


class Shown(unittest.TestCase):
    def test_long(self):
        """A text that is longer than the room that it is first given."""
        answer = bytes.fromhex('000385000000000100000000') + FRED + bytes.fromhex('002100010000000000ed0d')
        status = answer + (b'\x01' * 15 + b'\x00\x04\x00') * 13 + bytes(2)
        for room in SPARE:
            room.grow(10)
        text = nbt.show(137, status)
        self.assertGreater(SPARE[-1].length, 10)
        self.assertEqual(text, nbt.show(137, status))
        self.assertIn('\n    name ' + r'\01' * 15 + '<00>', text)

    def test_threads(self):
        with ThreadPoolExecutor(4) as pool:
            texts = list(pool.map(lambda code: nbt.show(139, b'\x83\0\0\1' + bytes([code])), list(range(256)) * 8))
        self.assertEqual(texts, [f'negative code={code:02x} used=5\n' for code in range(256)] * 8)


class Lines(unittest.TestCase):
    def test_values(self):
        for text, line in (('138 7 00ff', Line(LineKind.PACKET, 138, 7, b'\x00\xff')), ('tick 9', Line(LineKind.TICK, 0, 9, b'')),
                           ('', Line(LineKind.BLANK, 0, 0, b''))):
            for given in text, text.encode(), bytearray(text.encode()), f'{text}\n', text.encode() + b'\n':
                with self.subTest(given):
                    self.assertEqual(nbt.capture_line(given), line)

    def test_line_feeds(self):
        for line in ['tick 7\n\n', '# an office\n\n', 'tick 7\r\n', 'tick 7\nx', '#' + 'x' * 262_200 + '\n']:
            with self.subTest(line[:20]), self.assertRaises(nbt.NbtError) as caught:
                nbt.capture_line(line)
            self.assertEqual((caught.exception.status, caught.exception.at), (Status.BAD_LINE, None))
        self.assertEqual(nbt.capture_line('#' + 'x' * 262_199 + '\n').kind, LineKind.BLANK)

    def test_arguments(self):
        for line in [None, 7, ['tick 7']]:
            with self.subTest(line), self.assertRaises(TypeError):
                nbt.capture_line(line)

"""Packets of port 137, read: numbers and flags, values, threads, and buffers that change. tests/library/answers.py has what stands in them."""
import copy
import ipaddress
import pickle
import unittest
from concurrent.futures import ThreadPoolExecutor
from dataclasses import FrozenInstanceError, replace
from unittest import mock

import nbt
from nbt import DomainName, NbEntry, NodeName, NodeType, Operation, Question, Record, ResultCode, ServicePacket
from nbt import service_packets

FRED = b'\x20EGFCEFEECACACACACACACACACACACACA\0'
ADDRESS = ipaddress.IPv4Address('10.0.0.6')
# A registration of FRED<20>, whose record has a pointer for a name.
REGISTRATION = (b'\0\2\x29\x10\0\1\0\0\0\0\0\1' + FRED + b'\0\x20\0\1' + b'\xc0\x0c\0\x20\0\1\0\4\x93\xe0\0\6\0\0\x0a\0\0\6')
REGISTERED = ServicePacket(2, False, Operation.REGISTRATION, 0x0110, ResultCode.OK, (1, 0, 0, 1), (Question('FRED<20>', 0x20, 1),), (), (),
                           (Record('FRED<20>', 0x20, 1, 300_000, (NbEntry(0, ADDRESS),)),), 68)

MATCH = '''
match packet:
    case ServicePacket(op=Operation.REGISTRATION, questions=[Question(name)], additional=[Record(rdata=[NbEntry(address=address)])]):
        pass
'''


def response(kind, data):
    """A response about FRED<20> with one record, of a type."""
    return b'\0\3\x85\x80\0\0\0\1\0\0\0\0' + FRED + kind + b'\0\1\0\0\0\7' + len(data).to_bytes(2, 'big') + data


class Read(unittest.TestCase):
    def test_numbers_of_the_header(self):
        it = ServicePacket.read(b'\xab\xcd\xff\xff' + bytes(8))
        self.assertEqual((it.identifier, it.response, it.op, it.flags, it.rcode, it.used), (0xabcd, True, 15, 0x07f0, 15, 12))
        none = ServicePacket.read(b'\0\0\x38\x60' + bytes(8))
        self.assertEqual((none.op, none.rcode), (Operation.WACK, ResultCode.OK))
        for number, bit in enumerate((0x0400, 0x0200, 0x0100, 0x0080, 0x0010)):
            it = ServicePacket.read(b'\0\0' + bit.to_bytes(2, 'big') + bytes(8))
            found = it.authoritative, it.truncated, it.recursion_desired, it.recursion_available, it.broadcast
            self.assertEqual(found, tuple(each == number for each in range(5)))
        for each in range(16):
            it = ServicePacket.read(bytes([0, 0, each << 3, each]) + bytes(8))
            self.assertEqual((it.op, it.rcode), (each, each))
            self.assertEqual((isinstance(it.op, Operation), isinstance(it.rcode, ResultCode)), (each in (0, 5, 6, 7, 8, 9), each < 8))

    def test_threads(self):
        payloads = [REGISTRATION[:1] + bytes([each]) + REGISTRATION[2:] for each in range(256)] * 8
        with ThreadPoolExecutor(4) as pool:
            packets = list(pool.map(ServicePacket.read, payloads))
        self.assertEqual(packets, [replace(REGISTERED, identifier=each) for each in range(256)] * 8)

    def test_flags(self):
        entries = [NbEntry(flags, ADDRESS) for flags in (0xe000, 0x2000, 0x4000, 0x9fff)]
        self.assertEqual([(it.group, it.node_type) for it in entries],
                         [(True, NodeType.H), (False, NodeType.P), (False, NodeType.M), (True, NodeType.B)])
        for number, bit in enumerate((0x8000, 0x1000, 0x0800, 0x0400, 0x0200)):
            for flags, wanted in (bit, True), (0xffff ^ bit, False):
                it = NodeName('JOE<00>', flags)
                self.assertEqual((it.group, it.deregistered, it.conflict, it.active, it.permanent)[number], wanted)

    def test_changed_meanwhile(self):
        """Another thread changes a buffer after a name was found in it, which then leads to itself, past the end, or over it: the name
        that was found is answered."""
        items, start = service_packets.ITEMS, 12 + len(FRED) + 10
        for changed in bytes([0xc0, start, 0, 0]), b'\xff\xff\0\0', b'\x3fab\0', b'\1a\xff\xff', b'\1a\0\0':
            buffer = bytearray(response(b'\0\2', b'\2ns\0'))

            def found(*words):
                status = items(*words)
                buffer[start:] = changed
                return status

            with mock.patch.object(service_packets, 'ITEMS', found):
                packet = ServicePacket.read(buffer)
            self.assertEqual(packet.answers[0].rdata, DomainName((b'ns',)))


class Chains(unittest.TestCase):
    def test_many_names_at_a_chains_end(self):
        """Names that lead to the end of a chain of pointers are read by as few calls as others: the chain is followed once for many."""
        pointers, records = 8_176, 3_776
        places = [11, *range(23, 23 + 2 * (pointers - 1), 2)]
        end = bytes([0xc0 | 23 + 2 * (pointers - 1) >> 8, 23 + 2 * (pointers - 1) & 0xff])
        payload = (b'\0\1\x85\0\0\0' + (records + 1).to_bytes(2, 'big') + bytes(4) + b'\0\0\x0a\0\1\0\0\0\0' + (2 * pointers).to_bytes(2, 'big')
                   + b''.join((0xc000 | place).to_bytes(2, 'big') for place in places) + (b'\0\0\2\0\1\0\0\0\0\0\2' + end) * records)
        made = []

        def counted(*words):
            made.append(words)
            return items(*words)

        items = service_packets.ITEMS
        with mock.patch.object(service_packets, 'ITEMS', counted):
            packet = ServicePacket.read(payload)
        self.assertEqual([record.rdata for record in packet.answers[1:]], [DomainName(())] * records)
        self.assertEqual((len(made), packet.used), (-(-(records + 1) // service_packets.MOST_ENTRIES), len(payload)))


class Values(unittest.TestCase):
    def setUp(self):
        self.packets = [ServicePacket.read(it) for it in (
            REGISTRATION, response(b'\0\x21', b'\1' + b'JOE            \0\4\0' + bytes(6)), response(b'\0\2', b'\2ns\0'),
            response(b'\0\1', b'1234'))]

    def test_pickled_copied_compared(self):
        fronts = [nbt.Datagram.read_front(b'\x10' + bytes(13))[0], nbt.SessionPacket.read_front(b'\x81\0\0\1')[0]]
        for each in (*self.packets, *fronts):
            for other in (pickle.loads(pickle.dumps(each)), copy.copy(each), copy.deepcopy(each)):
                self.assertEqual(each, other)
                self.assertEqual(hash(each), hash(other))
        self.assertEqual(len(set(self.packets)), len(self.packets))

    def test_matched(self):
        claimed = {'packet': self.packets[0], **vars(nbt)}
        exec(MATCH, claimed)
        self.assertEqual((claimed['name'], claimed['address']), ('FRED<20>', ADDRESS))

    def test_frozen(self):
        for each in (self.packets[0], *self.packets[0].questions, *self.packets[0].records, self.packets[1].records[0].rdata):
            with self.assertRaises(FrozenInstanceError):
                setattr(each, next(iter(vars(each))), 1)

    def test_a_line(self):
        names = vars(nbt) | {'IPv4Address': ipaddress.IPv4Address}
        for each in self.packets:
            self.assertNotIn('\n', repr(each))
            text = repr(each).replace('<Operation.', 'Operation.').replace('<ResultCode.', 'ResultCode.')
            for number in range(16):
                text = text.replace(f': {number}>', '')
            self.assertEqual(eval(text, names), each)

"""Responses of port 137, written from values. tests/library/answers.py writes those of rows, and many."""
import unittest
from ipaddress import IPv4Address

import nbt
from nbt import DomainName, NbEntry, NodeName, NodeStatus, Operation, RecordType, ResultCode, ServicePacket, Status

ENTRY = NbEntry(0x6000, IPv4Address('10.0.0.5'))


class Written(unittest.TestCase):
    """What the rows of tests/library/cases.txt don't say: which numbers the usual responses have, and values of other forms."""

    def test_usual_ones(self):
        two = [ENTRY, NbEntry(0x8000, '10.0.0.6')]
        self.assertEqual(nbt.query_response(3, 'FRED<20>', two, 300_000, flags=0x0580),
                         nbt.response(3, 'FRED<20>', tuple(two), 300_000, op=Operation.QUERY, flags=0x0580))
        self.assertEqual(nbt.query_response(3, 'FRED<20>', iter(()), 0xffffffff), nbt.response(3, 'FRED<20>', (), 0xffffffff, flags=0x0500))
        self.assertEqual(nbt.negative_query_response(3, 'FRED<20>'), nbt.response(3, 'FRED<20>', b'', flags=0x0500, rcode=3, type=0x000a))
        self.assertEqual(nbt.negative_query_response(3, 'FRED<20>', ResultCode.SRV_ERR, 0x0580),
                         nbt.response(3, 'FRED<20>', b'', flags=0x0580, rcode=2, type=0x000a))
        status = NodeStatus((NodeName('JOE<00>', 0x0400),), b'unit..')
        self.assertEqual(nbt.node_status_response(3, 'FRED<20>', status), nbt.response(3, 'FRED<20>', status, flags=0x0400))

    def test_bytes_of_any_kind(self):
        for kind in bytearray, memoryview:
            self.assertEqual(nbt.response(3, 'FRED<20>', kind(b'\x29\x10'), 60, type=32), nbt.response(3, 'FRED<20>', b'\x29\x10', 60, type=RecordType.NB))
        self.assertEqual(nbt.response(3, 'FRED<20>', DomainName(())), nbt.response(3, 'FRED<20>', b'\0', type=RecordType.NS))

    def test_most(self):
        most = NodeStatus((NodeName(r'\00<ff>', 0xffff),) * 255, bytes(6))
        self.assertEqual(ServicePacket.read(nbt.node_status_response(3, 'FRED<20>', most)).answers[0].rdata, most)
        self.assertEqual(len(nbt.response(3, 'FRED<20>', (ENTRY,) * 10_922)), 56 + 65_532)


class Refused(unittest.TestCase):
    def test_faults(self):
        long, status = DomainName((bytes(63),) * 4), lambda *names: NodeStatus(tuple(NodeName(it, 0) for it in names), None)
        for rdata, fault, at in [
                (status('JOE'), Status.BAD_TEXT, 3), (long, Status.NAME_LONG, 192), (DomainName((b'a', b'', b'b')), Status.NAME_TRAILING_BYTES, 3),
                (DomainName((b'',)), Status.NAME_TRAILING_BYTES, 1), ((ENTRY,) * 10_923, Status.LONG_DATA, None)]:
            with self.subTest(fault), self.assertRaises(nbt.NbtError) as caught:
                nbt.response(3, 'FRED<20>', rdata)
            self.assertEqual((caught.exception.status, caught.exception.at), (fault, at))

    def test_values_that_are_none(self):
        status = lambda names, unit=None: NodeStatus(tuple(NodeName(*it) for it in names), unit)
        for words, changed in [
                (((),), {'op': 16}), (((),), {'rcode': -1}), (((),), {'flags': 0x8000}), (((),), {'flags': 1}), (((),), {'type': RecordType.NBSTAT}),
                ((b'',), {'type': 65_536}), (((NbEntry(65_536, 5),),), {}), (((NbEntry(0, 'FRED'),),), {}), (((), 1 << 32), {}),
                ((DomainName((bytes(64),)),), {}), ((DomainName((bytes(256),)),), {}), ((status([('JOE<00>.COM', 0)]),), {}),
                ((status([('JOE<00>', 65_536)]),), {}), ((status([('JOE<00>', 0)] * 256),), {}), ((status([], b'seven b'),), {})]:
            with self.subTest(words=words, **changed), self.assertRaises(ValueError) as caught:
                nbt.response(3, 'FRED<20>', *words, **changed)
            self.assertNotIsInstance(caught.exception, nbt.NbtError)
        self.assertRaises(ValueError, nbt.response, 65_536, 'FRED<20>', ())
        for words in ((3, 'FRED<20>', b''), (3, b'FRED<20>', ()), (3, 'FRED<20>', 'text'), (3, 'FRED<20>', None), (3, 'FRED<20>', [ENTRY]),
                      (3, 'FRED<20>', (5,)), (3.0, 'FRED<20>', ()), (3, 'FRED<20>', (), '7')):
            self.assertRaises(TypeError, nbt.response, *words)

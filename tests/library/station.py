#!/usr/bin/env python3
"""tools/nbt-station on sockets of the loopback interface, beside the program.  Usage: tests/library/station.py TOOL PROGRAM [CASE]..

Runs each case, or each of these; the last line is 'N passed, M failed, K skipped'.
"""
import json
import random
import signal
import sys
import time
import unittest

sys.dont_write_bytecode = True
sys.path[1:1] = [f'{sys.path[0]}/../{it}' for it in ('.', 'captures', 'lib')]
import station_system
from fuzz_inputs import Inputs
from parts import check, finish, leave_out
from station_runs import (ANN, DELIVERED, EMPTY, ENDING, GROUP, NOBODY, UNIQUE, TooSlow, capture, expect, nbt, packet, replayed, result_of,
                          station, whole_tables)
from wire import FRED, JOE, SERVER, pieces

# How many payloads wait in the socket of a station that stands still.
WAITING = 200


def any_payloads():
    """Pieces in any order with repeats, and payloads of all kinds: the station delivers what `nbt replay` does, and saves what `nbt save`
    does."""
    rng = random.Random(39)
    inputs = Inputs(rng)
    cut = [it for number in range(12) for it in pieces(number, rng.randbytes(40))]
    names = ['FRED<20>', 'JOE<00>']
    with station('--save', 'table', names=names) as each:
        began = time.monotonic()
        each.send(*rng.choices(cut, k=WAITING))
        for _ in range(200):
            each.reached()
            each.send(inputs.payload()[1][:60_000])
        each.reached()
        each.send_signal()
        table = each.saved()
        if time.monotonic() - began > 1.9:
            raise TooSlow('2 s passed')
        expect(nbt('save', text=capture(each.sent)), table)
        wanted = replayed(each.sent, *names)
        expect(wanted, each.lines(len(wanted)))


def read_at_its_end():
    """What waits in the socket when a signal ends the station is taken, and its senders are answered."""
    for number in ENDING:
        with station('--save', 'table') as each:
            each.send_signal(signal.SIGSTOP)
            each.send(*(packet(GROUP, identifier, FRED, b'hi') for identifier in range(WAITING)), packet(UNIQUE, WAITING, ANN, b''))
            each.send_signal(number)
            expect((0, ''), each.ended(signal.SIGCONT))
            expect(WAITING, len(each.lines(WAITING)))
            expect(WAITING, int.from_bytes(each.answer()[2:4], 'big'))
            expect(WAITING + 1, len(nbt('list', text=each.saved()).splitlines()))


def dropped_by_the_clock():
    with station('--save', 'table') as each:
        each.send(*pieces(1, b'hello, FRED')[:1])
        time.sleep(3.3)
        each.send_signal()
        expect(EMPTY, each.saved())


def error_packets():
    """A datagram for a single name is answered where the name isn't there, or a name can't be read; no other is."""
    with station('--address', '10.1.2.3') as each:
        each.send(packet(GROUP, 1, ANN, b'hi'), packet(UNIQUE, 2, FRED, b'hi'), packet(UNIQUE, 3, FRED, b'hi')[:-1],
                  packet(UNIQUE, 4, ANN, b'hi'), packet(UNIQUE, 5, FRED, b'hi', source=b'\xc0' + JOE[1:]),
                  packet(UNIQUE, 6, b'\x40' + FRED[1:], b'hi'))
        for number, code in (4, 0x82), (5, 0x83), (6, 0x84):
            expect(b'\x13\x02\0' + bytes([number, 10, 1, 2, 3, *each.port.to_bytes(2, 'big'), code]), each.answer())


def json_lines():
    """Each delivery as an object. Without --save nothing is saved, and SIGUSR1 does nothing; without --address it is that of --bind."""
    sent = packet(UNIQUE, 1, ANN, b''), packet(GROUP, 0xabcd, FRED, b'hi')
    with station('--json', names=('FRED<20>', 'ANN<20>')) as each:
        each.send_signal()
        each.send(*sent, packet(UNIQUE, 2, NOBODY, b''))
        expect(bytes([127, 0, 0, 1]), each.answer()[4:8])
        expect((0, ''), each.ended())
        lines = [json.loads(it) for it in each.lines(2)]
        expect(replayed(sent, 'FRED<20>', 'ANN<20>'), [' '.join(it or 'empty' for it in list(line.values())[2:]) for line in lines])
        expect(['time', 'sender', 'outcome', 'key', 'kind', 'source', 'destination', 'data'], list(lines[0]))
        expect(['%s:%d' % each.socket.getsockname()] * 2, [it['sender'] for it in lines])
        expect(['out'], each.files())


def limits():
    with station('--save', 'table', '--keys', '2', '--per-source', '1') as each:
        each.send(*pieces(1, b'hello'), *pieces(2, b'no room'))
        each.send(packet(UNIQUE, 3, ANN, b'hi', sender=SERVER))
        expect(b'\0\x03', each.answer()[2:4])
        expect(0, each.ended()[0])
        expect(['10.0.0.5:138/0001', '10.0.0.6:138/0003'],
               [it.split()[0] for it in nbt('list', text=whole_tables(each.saved(), 2)).splitlines()])


def joined_tables():
    """The tables of files are taken in first: what is whole by them is printed, and what is missing of the rest may come."""
    sent = pieces(1, b'hello, FRED')
    table = lambda *payloads: nbt('save', text=capture(payloads))
    files = {'one': table(sent[0], *pieces(2, b'whole')), 'other': table(*pieces(3, b'hi'), packet(UNIQUE, 4, ANN, b'no')) * 2}
    with station('--join', 'one', '--join', 'other', '--save', 'table', files=files) as each:
        expect([DELIVERED % (2, b'whole'.hex()), DELIVERED % (3, b'hi'.hex())], each.lines(2))
        each.send(*sent[1:])
        each.reached()
        expect([DELIVERED % (1, b'hello, FRED'.hex())], each.lines(3)[2:])
        expect(0, each.ended()[0])
        whole_tables(each.saved(), 5)


CASES = (any_payloads, read_at_its_end, dropped_by_the_clock, error_packets, json_lines, limits, joined_tables, *station_system.CASES)

for each in CASES if not sys.argv[3:] else (*CASES, *station_system.WITHIN):
    if each.__name__ in (sys.argv[3:] or [each.__name__]):
        try:
            why = result_of(each)
            check(not why, f'{each.__name__}: {why}')
        except unittest.SkipTest as left_out:
            leave_out(1, each.__name__, left_out)
sys.exit(finish())

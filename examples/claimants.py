#!/usr/bin/env python3
"""Prints the names that several nodes claim for themselves, and their addresses. A capture comes on standard input:
nbt-look --lines office.pcap | claimants.py"""
import sys

import nbt

# The registration of a host with several addresses, which RFC 1002 hasn't, besides those that it has.
CLAIMS = (nbt.Operation.REGISTRATION, nbt.Operation.REFRESH, nbt.Operation.OTHER_REFRESH, 15)


def packets(lines):
    """The packets of port 137 in a capture. Payloads that begin with none are passed over."""
    for line in map(nbt.capture_line, lines):
        if line.port == 137:
            try:
                yield nbt.ServicePacket.read(line.payload)
            except nbt.NbtError:
                pass


def claims(packet):
    """The names and addresses that a packet claims for a node alone: those of groups are everybody's."""
    if not packet.response and packet.op in CLAIMS:
        for record in packet.additional:
            entries = record.rdata if isinstance(record.rdata, tuple) else ()
            yield from ((str(record.name), entry.address) for entry in entries if not entry.group)


def main():
    """Prints the names that have two claimants or more."""
    claimants = {}
    for packet in packets(sys.stdin):
        for name, address in claims(packet):
            claimants.setdefault(name, set()).add(address)
    several = {name: addresses for name, addresses in claimants.items() if len(addresses) > 1}
    for name, addresses in sorted(several.items()):
        print(name, *sorted(addresses))
    if not several:
        print('no name has two claimants')


main()

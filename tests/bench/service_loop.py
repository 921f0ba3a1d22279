"""What calls cost from Python: nbt's show, and ServicePacket.read, with all values read, beside dpkt and samba, whose binding is C.
Usage: service_loop.py ROUNDS READER.. <CAPTURE, where READER is show, nbt, dpkt or samba. In each round each payload is read once by
each, a thousand at a time by turns. A line for each reader has its name, the values or letters that it read, and its nanoseconds of
processor time.

Of dpkt are read the attributes that it has: names stay the 32 letters that stand in the packet, and RDATA of type NB its bytes.
"""
import sys
import time

BLOCK = 1_000


def show_reader():
    from nbt import show
    return show


def nbt_reader():
    from nbt import DomainName, NodeStatus, ServicePacket

    def rdata(read):
        if isinstance(read, NodeStatus):
            return [(name.name, name.flags) for name in read.names] + [read.unit]
        if isinstance(read, (bytes, DomainName)):
            return [read]
        return [(entry.address, entry.flags) for entry in read]

    def values(_, payload):
        packet = ServicePacket.read(payload)
        found = [packet.identifier, packet.response, packet.op, packet.rcode]
        found += [(question.name, question.type, question.class_number) for question in packet.questions]
        for record in packet.records:
            found.append((record.name, record.type, record.class_number, record.time_to_live))
            found += rdata(record.rdata)
        return found
    return values


def dpkt_reader():
    from dpkt.netbios import NS, NS_NBSTAT

    def values(_, payload):
        packet = NS(payload)
        found = [packet.id, packet.qr, packet.opcode, packet.rcode]
        found += [(question.name, question.type, question.cls) for question in packet.qd]
        for record in packet.an + packet.ns + packet.ar:
            found.append((record.name, record.type, record.cls, record.ttl))
            found += record.nodenames if record.type == NS_NBSTAT else [record.rdata]
        return found
    return values


def samba_reader():
    from samba.dcerpc import nbt
    from samba.ndr import ndr_unpack

    def rdata(kind, read):
        if kind == nbt.NBT_QTYPE_STATUS:
            return [(name.name, name.type, name.nb_flags) for name in read.names] + [read.statistics.unit_id]
        if kind == nbt.NBT_QTYPE_NETBIOS and hasattr(read, 'addresses'):
            return [(entry.ipaddr, entry.nb_flags) for entry in read.addresses]
        return [read.data]

    def values(_, payload):
        packet = ndr_unpack(nbt.name_packet, payload)
        found = [packet.name_trn_id, packet.operation]
        found += [(question.name.name, question.name.type, question.question_type, question.question_class)
                  for question in packet.questions]
        for record in packet.answers + packet.nsrecs + packet.additional:
            found.append((record.name.name, record.name.type, record.rr_type, record.rr_class, record.ttl))
            found += rdata(record.rr_type, record.rdata)
        return found
    return values


READERS = {'show': show_reader, 'nbt': nbt_reader, 'dpkt': dpkt_reader, 'samba': samba_reader}


def main():
    rounds, *names = sys.argv[1:]
    lines = [line.split() for line in sys.stdin]
    payloads = [(int(port), bytes.fromhex(digits.replace('empty', ''))) for port, _, digits in lines]
    readers = [(name, READERS[name]()) for name in names]
    counts, spent = dict.fromkeys(names, 0), dict.fromkeys(names, 0)
    for start in list(range(0, len(payloads), BLOCK)) * int(rounds):
        for name, values in readers:
            began = time.process_time_ns()
            counts[name] += sum(len(values(port, payload)) for port, payload in payloads[start:start + BLOCK])
            spent[name] += time.process_time_ns() - began
    for name in names:
        print(name, counts[name], spent[name])


main()

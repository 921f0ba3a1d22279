"""The packets of a frame: which addresses, ports and payload belong together."""
import collections
import functools

from .rows import values_of

IP = ('ip', 'ipv6')
TRANSPORT = ('udp', 'tcp')
# Between the packets of an aggregate of 802.11 stands this header, and below an ICMP error the packet that it quotes.
NEXT_PACKET = 'llc'
ICMP = ('icmp', 'icmpv6')
UDP_HEADER = 8
# The least bytes of a header of TCP.
TCP_HEADER = 20

Host = collections.namedtuple('Host', 'source target size')
Datagram = collections.namedtuple('Datagram', 'host source target length payload')
Segment = collections.namedtuple('Segment', 'host stream source target flags sequence size payload')


class Unpaired(Exception):
    """Fields of a frame of which it isn't known what belongs together."""


class Shape:
    """What the headers of a frame are."""

    def __init__(self, protocols):
        self.names = names = protocols.split(':')
        self.last = names[-1]
        self.is_fragment = 'ipv6.fraghdr' in names or ('ip', 'data') in zip(names, names[1:])
        self.quotes = any(name in ICMP for name in names)
        packets = [name for name in names if name in IP + TRANSPORT]
        self.single = packets[1] if len(packets) == 2 and packets[0] in IP and packets[1] in TRANSPORT else None


@functools.lru_cache(maxsize=4096)
def shape_of(protocols):
    return Shape(protocols)


def packets_of(row, shape):
    """The datagrams and segments of a frame, in order, but for those that ICMP quotes."""
    if shape.single == 'udp':
        return (Datagram(host_of(row), row.udp_source, row.udp_target, row.udp_length, row.udp_payload),)
    if shape.single:
        return (Segment(host_of(row), row.tcp_stream, row.tcp_source, row.tcp_target, row.tcp_flags, row.tcp_seq,
                        row.tcp_len, row.tcp_payload),)
    return tuple(paired(row, shape))


def host_of(row):
    """The addresses of a frame with one header of IP, and how many bytes that one says it has after it."""
    if row.source:
        return Host(row.source, row.target, size_of(row.length, row.header))
    return Host('[%s]' % row.source6, '[%s]' % row.target6, size_of(row.length6, '0'))


def size_of(length, header):
    """None where IP doesn't say it: a header that the file cuts, a length of 0."""
    return int(length) - int(header) if length.isdigit() and header.isdigit() and length != '0' else None


def paired(row, shape):
    """The packets of several headers: the n-th value of a field is of the n-th header that has it."""
    datagrams = columns(shape, 'udp', (row.udp_source, row.udp_target, row.udp_length))
    segments = columns(shape, 'tcp', (row.tcp_stream, row.tcp_source, row.tcp_target, row.tcp_flags, row.tcp_seq, row.tcp_len))
    payloads = {'udp': iter(payloads_of(shape, 'udp', row.udp_payload, [above(each[2], UDP_HEADER) for each in datagrams])),
                'tcp': iter(payloads_of(shape, 'tcp', row.tcp_payload, [above(each[5], 0) for each in segments]))}
    headers = {'udp': iter(datagrams), 'tcp': iter(segments),
               'ip': iter(columns(shape, 'ip', (row.source, row.target, row.length, row.header))),
               'ipv6': iter(columns(shape, 'ipv6', (row.source6, row.target6, row.length6)))}
    host, quoted = None, False
    for name in shape.names:
        if name == 'ip':
            source, target, length, header = next(headers[name])
            host = Host(source, target, size_of(length, header))
        elif name == 'ipv6':
            source, target, length = next(headers[name])
            host = Host('[%s]' % source, '[%s]' % target, size_of(length, '0'))
        elif name in TRANSPORT:
            values, payload = next(headers[name]), next(payloads[name])
            if host and not quoted:
                yield Datagram(host, *values, payload) if name == 'udp' else Segment(host, *values, payload)
        quoted = name in ICMP or (quoted and name != NEXT_PACKET)


def above(text, least):
    return text.isdigit() and int(text) > least


def columns(shape, name, texts):
    """The values of each header of this name. The last one of a frame may lack some, where the file cuts it."""
    count = shape.names.count(name)
    listed = []
    for text in texts:
        values = values_of(text)
        if len(values) == count - 1 and shape.last == name:
            values.append('')
        if len(values) != count:
            raise Unpaired
        listed.append(values)
    return list(zip(*listed))


def payloads_of(shape, name, text, has_bytes):
    """The payload of each header: tshark has none of one that says it has no bytes, or where the file has none of them."""
    values = values_of(text)
    if len(values) == sum(has_bytes) - 1 and shape.last == name and has_bytes[-1]:
        values.append('')
    if len(values) != sum(has_bytes):
        raise Unpaired
    each = iter(values)
    return [next(each) if has else '' for has in has_bytes]

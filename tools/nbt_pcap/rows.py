"""The rows that tshark prints: a frame each, with the values of a field in the order of the headers that have it."""
import collections

# A field's name here, and tshark's.
COLUMNS = (('number', 'frame.number'), ('time', 'frame.time_epoch'), ('size', 'frame.len'), ('captured', 'frame.cap_len'),
           ('protocols', 'frame.protocols'), ('aggregate', 'wlan_aggregate.a_mdsu.length'),
           ('short', '_ws.short'), ('malformed', '_ws.malformed'),
           ('source', 'ip.src'), ('target', 'ip.dst'), ('length', 'ip.len'), ('header', 'ip.hdr_len'),
           ('source6', 'ipv6.src'), ('target6', 'ipv6.dst'), ('length6', 'ipv6.plen'),
           ('fragments', 'ip.fragment'), ('contradictions', 'ip.fragment.error'),
           ('fragments6', 'ipv6.fragment'), ('contradictions6', 'ipv6.fragment.error'),
           ('udp_source', 'udp.srcport'), ('udp_target', 'udp.dstport'), ('udp_length', 'udp.length'), ('udp_payload', 'udp.payload'),
           ('tcp_stream', 'tcp.stream'), ('tcp_source', 'tcp.srcport'), ('tcp_target', 'tcp.dstport'),
           ('tcp_flags', 'tcp.flags'), ('tcp_seq', 'tcp.seq'), ('tcp_len', 'tcp.len'), ('tcp_payload', 'tcp.payload'))
FIELDS = tuple(field for _, field in COLUMNS)
# What stands between the values of one field.
BETWEEN = ','

Row = collections.namedtuple('Row', [name for name, _ in COLUMNS])


def row_of(text):
    """The row of a line; None where the line is none."""
    values = text.split('\t')
    return Row._make(values) if len(values) == len(COLUMNS) else None


def is_joined(row):
    """Whether a frame completes fragments. Those that contradict others stand in `contradictions` alone, and that may be all of them."""
    return bool(row.fragments or row.fragments6 or row.contradictions or row.contradictions6)


def values_of(text):
    return text.split(BETWEEN) if text else []


def last(text):
    """The last value of a field: that of the innermost header."""
    return text.rpartition(BETWEEN)[2]

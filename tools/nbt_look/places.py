"""Which byte of a payload the place of a fault is."""
from nbt_pcap.header import QUERIES

# Of these the place counts in the spelling of a name (RFC 1002 section 4.1), and not in the payload.
IN_NAME = ': not netbios '
# The letters A to P.
LEAST, MOST = 0x41, 0x50
FRONT = 32
LONGEST_LABEL = 63
# Where the first name of a packet begins: of port 139, and of port 138 by its type (RFC 1002 sections 4.3.2, 4.4.2 and 4.4.4).
OF_SESSION, OF_DATAGRAM, OF_QUERY = 4, 14, 10


def is_in_name(refused):
    """Whether the place of a fault counts in a name."""
    _, found, place = refused.rpartition(IN_NAME)
    return bool(found) and place.isdigit()


def place_of(port, data, shown):
    """The byte of the payload at which the fault of a packet is, or None."""
    refused = shown.get('refused', '')
    if not is_in_name(refused):
        return shown.get('at')
    words, _, place = refused.rpartition(IN_NAME)
    at = begin(port, data, words)
    return None if at is None else at + int(place)


def begin(port, data, words):
    """Where the name begins that is no NetBIOS name, or None where that isn't said: a name with a pointer is in two places."""
    if port == 138 and data[0] in QUERIES:
        return OF_QUERY
    first = OF_DATAGRAM if port == 138 else OF_SESSION
    is_first = words == 'source name' if port == 138 else not is_netbios(data, first)
    return first if is_first else after(data, first)


def is_netbios(data, at):
    """Whether the name's first label is a NetBIOS name's."""
    return data[at] == FRONT and all(LEAST <= each <= MOST for each in data[at + 1:at + 1 + FRONT])


def after(data, at):
    """The byte after a name that is spelled out, or None."""
    while at < len(data) and 0 < data[at] <= LONGEST_LABEL:
        at += 1 + data[at]
    return at + 1 if at < len(data) and data[at] == 0 else None
